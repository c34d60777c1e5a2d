//! `differential [--seed N] [--inputs N] [--from N] [--pairs N] [--pages N] [--trips N]
//! [--marks N] [--long]`

use differential::order::{self, Counts, SNAPSHOTS};
use differential::{
    curve_trip, input, marks, page, run, show, shrink, trip, Library, Outcome, Plain, Random, Tally,
};
use std::process::ExitCode;
use std::time::{Instant, SystemTime, UNIX_EPOCH};

const USAGE: &str = "usage: differential [--seed N] [--inputs N] [--from N] [--pairs N] [--pages N]
                    [--trips N] [--marks N] [--long]
  --seed N    the seed; without it one is taken from the clock
  --inputs N  so many inputs (200000)
  --from N    the place of the first input (0)
  --pairs N   so many pairs of histories and snapshots (20000)
  --pages N   so many pages (5000)
  --trips N   so many round trips of snapshots, and of curve sets (5000)
  --marks N   so many snapshots with marks and without (5000)
  --long      twenty times as many of all five";

struct Options {
    seed: u64,
    inputs: u64,
    from: u64,
    pairs: u64,
    pages: u64,
    trips: u64,
    marks: u64,
}

fn main() -> ExitCode {
    let Some(options) = options() else {
        eprintln!("{USAGE}");
        return ExitCode::from(2);
    };
    #[cfg(feature = "ordc")]
    let library = differential::Linked;
    #[cfg(not(feature = "ordc"))]
    let library = Plain;
    println!(
        "seed {}, {} against the reference",
        options.seed,
        library.name()
    );
    let agree = inputs(&library, &options);
    let ordered = pairs(&library, &options);
    let readable = pages(&library, &options);
    let same = trips(&library, &options);
    let same_curves = curve_trips(&library, &options);
    let known = suspects(&library, &options);
    if agree && ordered && readable && same && same_curves && known {
        println!("passed");
        ExitCode::SUCCESS
    } else {
        println!("FAILED, seed {}", options.seed);
        ExitCode::FAILURE
    }
}

fn options() -> Option<Options> {
    let clock = SystemTime::now().duration_since(UNIX_EPOCH).ok()?;
    let mut options = Options {
        seed: clock.as_micros() as u64,
        inputs: 200_000,
        from: 0,
        pairs: 20_000,
        pages: 5_000,
        trips: 5_000,
        marks: 5_000,
    };
    let mut arguments = std::env::args().skip(1);
    let mut times = 1;
    while let Some(argument) = arguments.next() {
        let value = match argument.as_str() {
            "--long" => {
                times = 20;
                continue;
            }
            "--seed" => &mut options.seed,
            "--inputs" => &mut options.inputs,
            "--from" => &mut options.from,
            "--pairs" => &mut options.pairs,
            "--pages" => &mut options.pages,
            "--trips" => &mut options.trips,
            "--marks" => &mut options.marks,
            _ => return None,
        };
        *value = arguments.next()?.parse().ok()?;
    }
    options.inputs *= times;
    options.pairs *= times;
    options.pages *= times;
    options.trips *= times;
    options.marks *= times;
    Some(options)
}

/// Runs the inputs; true if all agree and every outcome came.
fn inputs(library: &dyn Library, options: &Options) -> bool {
    let start = Instant::now();
    let mut tally = Tally::default();
    for place in options.from..options.from + options.inputs {
        let one = input(&mut Random::at(options.seed, place));
        let right = run(&Plain, &one);
        tally.count(one.operation(), right.refusal);
        if run(library, &one) != right {
            println!("input {place} differs; the smallest found that does:");
            let differs = |one: &_| run(library, one) != run(&Plain, one);
            let smallest = shrink(&one, differs);
            print!("{}", show(&smallest));
            println!("reference: {}", told(&run(&Plain, &smallest)));
            println!("{}: {}", library.name(), told(&run(library, &smallest)));
            return false;
        }
    }
    let seconds = start.elapsed().as_secs_f64();
    println!(
        "{} inputs in {seconds:.1} s; refusals by number:",
        options.inputs
    );
    print!("{}", tally.show());
    let missing = tally.missing();
    if !missing.is_empty() {
        println!("never came: {}", missing.join(", "));
    }
    missing.is_empty()
}

fn told(outcome: &Outcome) -> String {
    let refusal = outcome.refusal;
    let mut line = match refusal.number {
        0 => "accepted".to_string(),
        number => format!("refused {number} line {}", refusal.line),
    };
    if !outcome.numbers.is_empty() {
        line += &format!(", lent array {:?}", outcome.numbers);
    }
    if !outcome.buffer.is_empty() {
        line += &format!(", lent buffer \"{}\"", outcome.buffer.escape_ascii());
    }
    line
}

/// Runs the pairs; true if none breaks the rule and some were tight.
fn pairs(library: &dyn Library, options: &Options) -> bool {
    let start = Instant::now();
    let mut counts = Counts::default();
    // Its own numbers, whatever the number of inputs.
    let seed = Random::at(options.seed, u64::MAX).bits();
    for place in 0..options.pairs.div_ceil(SNAPSHOTS) {
        match order::check(library, &mut Random::at(seed, place)) {
            Ok(more) => counts.add(&more),
            Err(broken) => {
                println!("a price rises with reserve, in history pair {place}:");
                print!("{broken}");
                return false;
            }
        }
    }
    let seconds = start.elapsed().as_secs_f64();
    let Counts {
        pairs,
        accepted,
        handed,
        near,
        slack,
        falling,
        tight,
        bookings,
        refused_bookings,
        unmatched,
    } = counts;
    println!(
        "{pairs} pairs in {seconds:.1} s, {accepted} accepted, {handed} of them on curves handed in"
    );
    println!(
        "{near} near X, {slack} with a slack cap, {falling} falling, {tight} tight (all three)"
    );
    println!(
        "{bookings} bookings, {refused_bookings} refused; {unmatched} histories refused at \
         different places"
    );
    if unmatched > 0 {
        println!("a booking was refused in one list only");
    }
    if options.pairs > 0 && tight == 0 {
        println!("no pair was tight");
    }
    unmatched == 0 && (tight > 0 || options.pairs == 0)
}

/// Makes a check so many times and adds up what it counts; none where one is
/// broken, which is then printed.
fn repeated<C: Default>(
    name: &str,
    times: u64,
    seed: u64,
    check: impl Fn(&mut Random) -> Result<C, String>,
    add: impl Fn(&mut C, &C),
) -> Option<C> {
    let mut counts = C::default();
    for place in 0..times {
        match check(&mut Random::at(seed, place)) {
            Ok(more) => add(&mut counts, &more),
            Err(broken) => {
                print!("{name} {place}: {broken}");
                return None;
            }
        }
    }
    Some(counts)
}

/// Runs the pages; true if nothing is broken and some rows were telling.
fn pages(library: &dyn Library, options: &Options) -> bool {
    let start = Instant::now();
    // Its own numbers, whatever the number of inputs and of pairs.
    let seed = Random::at(options.seed, u64::MAX - 1).bits();
    let check = |random: &mut Random| page::check(library, random);
    let Some(counts) = repeated("page", options.pages, seed, check, page::Counts::add) else {
        return false;
    };
    let seconds = start.elapsed().as_secs_f64();
    let page::Counts {
        pages,
        rows,
        falling,
        apart,
    } = counts;
    println!(
        "{pages} pages in {seconds:.1} s, {falling} of {rows} rows with four different \
         probabilities; {apart} beside one with another VOLL and X"
    );
    let telling = falling > 0 && apart > 0;
    if options.pages > 0 && !telling {
        println!("no page was telling");
    }
    telling || options.pages == 0
}

/// Runs the round trips; true if nothing is broken and some were telling.
fn trips(library: &dyn Library, options: &Options) -> bool {
    let start = Instant::now();
    // Its own numbers, whatever the number of all others.
    let seed = Random::at(options.seed, u64::MAX - 2).bits();
    let check = |random: &mut Random| trip::check(library, random);
    let Some(counts) = repeated("round trip", options.trips, seed, check, trip::Counts::add) else {
        return false;
    };
    let seconds = start.elapsed().as_secs_f64();
    let trip::Counts {
        trips,
        resources,
        disturbed,
        priced,
        marked,
    } = counts;
    println!(
        "{trips} round trips in {seconds:.1} s, of {resources} resources; {disturbed} from values \
         with something where nothing is looked at, {priced} with a price inside its bounds, \
         {marked} with marks"
    );
    let telling = resources > 0 && disturbed > 0 && priced > 0 && marked > 0;
    if options.trips > 0 && !telling {
        println!("no round trip was telling");
    }
    telling || options.trips == 0
}

/// Runs the round trips of curve sets; true if nothing is broken and some were
/// telling.
fn curve_trips(library: &dyn Library, options: &Options) -> bool {
    let start = Instant::now();
    // Its own numbers, whatever the number of all others.
    let seed = Random::at(options.seed, u64::MAX - 3).bits();
    let check = |random: &mut Random| curve_trip::check(library, random);
    let name = "round trip of a curve set";
    let Some(counts) = repeated(name, options.trips, seed, check, curve_trip::Counts::add) else {
        return false;
    };
    let seconds = start.elapsed().as_secs_f64();
    let curve_trip::Counts {
        trips,
        negative,
        shortest,
        longest,
    } = counts;
    println!(
        "{trips} round trips of curve sets in {seconds:.1} s, each text of the length that was \
         told; {negative} with a mean below 0, {shortest} of the shortest text, {longest} of the \
         longest"
    );
    let telling = negative > 0 && shortest > 0 && longest > 0;
    if options.trips > 0 && !telling {
        println!("no round trip of a curve set was telling");
    }
    telling || options.trips == 0
}

/// Runs the snapshots with marks and without; true if nothing is broken and some
/// were telling.
fn suspects(library: &dyn Library, options: &Options) -> bool {
    let start = Instant::now();
    // Its own numbers, whatever the number of all others.
    let seed = Random::at(options.seed, u64::MAX - 4).bits();
    let check = |random: &mut Random| marks::check(library, random);
    let name = "snapshot with marks";
    let Some(counts) = repeated(name, options.marks, seed, check, marks::Counts::add) else {
        return false;
    };
    let seconds = start.elapsed().as_secs_f64();
    let marks::Counts {
        snapshots,
        marked,
        priced,
        refused,
    } = counts;
    println!(
        "{snapshots} snapshots with other marks in {seconds:.1} s, {marked} accepted with some, \
         {priced} of them with a price inside its bounds; {refused} refused by 15"
    );
    let telling = marked > 0 && priced > 0 && refused > 0;
    if options.marks > 0 && !telling {
        println!("no snapshot with marks was telling");
    }
    telling || options.marks == 0
}
