//! Libraries with a fault each: the fault is found, and made small.

mod common;

use common::{smallest, Faulty, Spoils};
use differential::order::{self, Counts};
use differential::{
    curve_trip, input, page, run, show, Answer, Curves, Input, Library, Plain, Random,
    RecordNumbers, Refusal, Tally,
};

#[derive(Clone, Copy, Debug, PartialEq, Eq)]
enum Fault {
    None,
    /// Counts a unit that starts up without Non-Spin.
    Startup,
    /// Sums rrs over the validated loads only.
    Rrs,
    /// A refused write starts to write.
    Buffer,
    /// A refused hour is counted.
    Record,
    /// An accepted hour is not booked.
    Kept,
    /// Bytes after the text are told one line too early.
    Line,
    /// Gives out VOLL with a refusal of a curve text.
    Voll,
    /// Rounds large roots up.
    Sigma,
    /// Prices more with more reserve.
    Rising,
    /// Hours are booked by blocks that begin at midnight; snapshots are not.
    BookedFromMidnight,
    /// Snapshots are priced by blocks that begin at midnight; hours are not.
    PricedFromMidnight,
    /// A refused page is begun.
    PageBegun,
    /// A page is ended with a byte 0.
    PageEnded,
    /// A buffer has to be longer than the page.
    PageShort,
    /// 14 comes before 1.
    PageOrder,
    /// Names of seasons stand at the right of their cell.
    PageNames,
    /// Blocks are counted from 1.
    PageBlocks,
    /// Reserves of a page do not stand above X.
    PageAtX,
    /// The first two probabilities of a row are swapped.
    PageRising,
    /// The last probability of a page is 0 where X is odd.
    PageOfX,
    /// The minus of a number is not counted in the length.
    LengthMinus,
    /// A number of this size is counted with a digit less in the length.
    LengthPower(i64),
    /// The last byte 10 is not counted in the length.
    LengthLastByte,
    /// The greatest length is told for every text.
    LengthGreatest,
    /// The length is told with a refusal.
    LengthRefused,
    /// An impossible set has a length.
    LengthImpossible,
    /// A buffer has to be longer than the curve text.
    TextShort,
    /// A curve text is ended with a byte 0.
    TextEnded,
    /// A curve text is written without its last byte where there is no room for
    /// it.
    TextCut,
}

/// The sizes at which a number has a digit more.
const POWERS: [i64; 7] = [10, 100, 1000, 10_000, 100_000, 1_000_000, 10_000_000];

/// A row with its byte 10, and a page.
const ROW: usize = 72;
const PAGE: usize = 24 * ROW;

/// Where the probabilities of a row stand, each with the space before it.
const PROBABILITIES: [std::ops::Range<usize>; 4] = [27..38, 38..49, 49..60, 60..71];

// Faults of the operations on values stand in `held_faults.rs`.
impl Spoils for Faulty<Fault> {
    fn book(&self, record: &mut RecordNumbers, text: &[u8]) -> Refusal {
        let before = *record;
        let mut refusal = Plain.book(record, text);
        match self.0 {
            Fault::Record if refusal.number == 11 => record[0] += 1,
            Fault::Kept => *record = before,
            Fault::Line if refusal.number == 9 => refusal.line -= 1,
            Fault::BookedFromMidnight if refusal.accepted() => {
                *record = before;
                return Plain.book(record, &from_midnight(text));
            }
            _ => {}
        }
        refusal
    }

    fn settle(
        &self,
        record: &RecordNumbers,
        voll: i64,
        floor: i64,
        curves: &mut Curves,
    ) -> Refusal {
        let refusal = Plain.settle(record, voll, floor, curves);
        if self.0 == Fault::Sigma && refusal.accepted() && curves[3 + 2 * 9] > 1000 {
            curves[3 + 2 * 9] += 1;
        }
        refusal
    }

    fn read_curves(&self, text: &[u8], curves: &mut Curves) -> Refusal {
        let refusal = Plain.read_curves(text, curves);
        if self.0 == Fault::Voll && refusal.number > 2 && refusal.line > 1 {
            curves[0] = 1;
        }
        refusal
    }

    fn curves_length(&self, curves: &Curves, length: &mut usize) -> Refusal {
        let refusal = Plain.curves_length(curves, length);
        let count = |counted: &dyn Fn(i64) -> bool| {
            let counted = curves.iter().filter(|&&number| counted(number));
            counted.count()
        };
        match self.0 {
            Fault::LengthRefused if !refusal.accepted() => *length = 0,
            Fault::LengthImpossible if !refusal.accepted() => {
                *length = text(curves).len();
                return Refusal::NONE;
            }
            _ if !refusal.accepted() => {}
            Fault::LengthMinus => *length -= count(&|number| number < 0),
            Fault::LengthPower(power) => *length -= count(&|number| number.abs() == power),
            Fault::LengthLastByte => *length -= 1,
            Fault::LengthGreatest => *length = reference::WRITTEN_LIMIT,
            _ => {}
        }
        refusal
    }

    fn write_curves(&self, curves: &Curves, buffer: &mut [u8], written: &mut i64) -> Refusal {
        let before = (buffer.to_vec(), *written);
        let refusal = Plain.write_curves(curves, buffer, written);
        match self.0 {
            Fault::Buffer if refusal.number == 14 && !buffer.is_empty() => buffer[0] = b'v',
            Fault::TextShort if refusal.accepted() && *written == buffer.len() as i64 => {
                buffer.copy_from_slice(&before.0);
                *written = before.1;
                return Refusal {
                    number: 14,
                    line: 0,
                };
            }
            Fault::TextEnded if refusal.accepted() => {
                if let Some(next) = buffer.get_mut(*written as usize) {
                    *next = 0;
                }
            }
            Fault::TextCut if refusal.number == 14 => {
                let text = text(curves);
                if buffer.len() + 1 == text.len() {
                    buffer.copy_from_slice(&text[..buffer.len()]);
                    *written = buffer.len() as i64;
                    return Refusal::NONE;
                }
            }
            _ => {}
        }
        refusal
    }

    fn price(&self, curves: &Curves, text: &[u8], answer: &mut Answer) -> Refusal {
        let changed = |from: &str, to: &str| {
            let text = String::from_utf8_lossy(text).replace(from, to);
            text.into_bytes()
        };
        let mut copy = *answer;
        let refusal = Plain.price(curves, text, answer);
        let faulty = match self.0 {
            Fault::Startup => changed("status=STARTUP\n", "status=ON\n"),
            Fault::Rrs => without_rrs(text),
            Fault::PricedFromMidnight => from_midnight(text),
            _ => text.to_vec(),
        };
        if refusal.accepted() && Plain.price(curves, &faulty, &mut copy).accepted() {
            *answer = copy;
        }
        if self.0 == Fault::Rising && refusal.accepted() {
            answer[4] = answer[0];
        }
        refusal
    }

    fn write_page(&self, curves: &Curves, buffer: &mut [u8]) -> Refusal {
        let short = Refusal {
            number: 14,
            line: 0,
        };
        match self.0 {
            Fault::PageShort if buffer.len() == PAGE => return short,
            Fault::PageOrder if buffer.len() < PAGE => return short,
            _ => {}
        }
        let refusal = Plain.write_page(curves, buffer);
        if !refusal.accepted() {
            if let (Fault::PageBegun, [first, ..]) = (self.0, buffer) {
                *first = b'w';
            }
            return refusal;
        }
        let (rows, after) = buffer.split_at_mut(PAGE);
        for row in rows.chunks_mut(ROW) {
            match self.0 {
                Fault::PageNames if row.starts_with(b"fall  ") => {
                    row[..6].copy_from_slice(b"  fall");
                }
                Fault::PageBlocks => row[7] += 1,
                Fault::PageAtX => {
                    for cell in PROBABILITIES {
                        row[cell].copy_from_slice(b" 1000000000");
                    }
                }
                Fault::PageRising => {
                    let [first, second, ..] = PROBABILITIES;
                    let (left, right) = row.split_at_mut(second.start);
                    left[first].swap_with_slice(&mut right[..11]);
                }
                _ => {}
            }
        }
        match (self.0, after) {
            (Fault::PageEnded, [next, ..]) => *next = 0,
            (Fault::PageOfX, _) if curves[1] % 2 == 1 => {
                rows[PAGE - 12..PAGE - 1].copy_from_slice(b"          0");
            }
            _ => {}
        }
        refusal
    }
}

/// The text of any curve set, possible or not.
fn text(curves: &Curves) -> Vec<u8> {
    let keys = ["voll", "floor"]
        .into_iter()
        .chain(["mu", "sigma"].into_iter().cycle());
    let lines = keys.zip(curves);
    let text: String = lines
        .map(|(key, value)| format!("{key}={value}\n"))
        .collect();
    text.into_bytes()
}

/// The text with rrs 0 in the loads that are not validated.
fn without_rrs(text: &[u8]) -> Vec<u8> {
    let text = String::from_utf8_lossy(text);
    let mut validated = true;
    let lines = text.split_inclusive('\n').map(|line| {
        if let Some(flag) = line.strip_prefix("rrsok=") {
            validated = flag == "1\n";
        }
        match line.starts_with("rrs=") && !validated {
            true => "rrs=0\n",
            false => line,
        }
    });
    lines.collect::<String>().into_bytes()
}

/// The text with an hour whose block is the hour as it stood, divided by four:
/// two hours earlier.
fn from_midnight(text: &[u8]) -> Vec<u8> {
    let text = String::from_utf8_lossy(text);
    let lines = text.split_inclusive('\n').map(|line| {
        let hour = line
            .strip_prefix("hour=")
            .map(|hour| hour.trim_end().parse());
        match hour {
            Some(Ok::<i64, _>(hour)) => format!("hour={}\n", (hour + 22) % 24),
            _ => line.to_string(),
        }
    });
    lines.collect::<String>().into_bytes()
}

fn lines(text: &[u8]) -> Vec<String> {
    let text = String::from_utf8_lossy(text);
    text.lines().map(str::to_string).collect()
}

#[test]
fn the_reference_agrees_with_itself_and_every_refusal_comes() {
    let mut tally = Tally::default();
    for place in 0..40_000 {
        let one = input(&mut Random::at(1, place));
        let outcome = run(&Plain, &one);
        tally.count(one.operation(), outcome.refusal);
        assert_eq!(run(&Faulty(Fault::None), &one), outcome);
    }
    assert_eq!(tally.missing(), Vec::<String>::new());
}

#[test]
fn a_missing_refusal_is_told() {
    let missing = Tally::default().missing();
    assert!(missing.contains(&"price refused 8".to_string()));
    assert!(missing.contains(&"refused 14 of any operation".to_string()));
}

#[test]
fn a_unit_counted_wrongly_is_found_and_stands_alone() {
    let Input::Price { text, .. } = smallest(Fault::Startup) else {
        panic!("the fault is in pricing");
    };
    let lines = lines(&text);
    assert_eq!(lines.len(), 8 + 9, "{lines:?}");
    assert_eq!(lines[7], "count=1");
    assert_eq!(lines[10], "status=STARTUP");
    assert!(lines[3..7].iter().all(|line| line.len() < 14), "{lines:?}");
}

#[test]
fn rrs_of_loads_not_validated_is_found() {
    let Input::Price { text, .. } = smallest(Fault::Rrs) else {
        panic!("the fault is in pricing");
    };
    let lines = lines(&text);
    assert_eq!(lines.len(), 8 + 6 + 6, "{lines:?}");
    assert!(lines.contains(&"rrsok=0".to_string()));
    assert!(lines.contains(&"rrsok=1".to_string()));
}

#[test]
fn what_a_refusal_changes_is_found() {
    let Input::Write { curves, length } = smallest(Fault::Buffer) else {
        panic!("the fault is in writing");
    };
    assert_eq!(length, 1);
    assert_eq!((curves[0], curves[1]), (0, 0));
    let Input::Book { record, text } = smallest(Fault::Record) else {
        panic!("the fault is in booking");
    };
    assert_eq!(*record, [0; 72]);
    assert_eq!(lines(&text).len(), 22);
    let Input::Read { text } = smallest(Fault::Voll) else {
        panic!("the fault is in reading");
    };
    assert_eq!(lines(&text), ["voll=0"]);
}

#[test]
fn a_wrong_line_and_a_lost_hour_are_found() {
    for fault in [Fault::Line, Fault::Kept] {
        let Input::Book { record, text } = smallest(fault) else {
            panic!("the fault is in booking");
        };
        assert_eq!(*record, [0; 72]);
        assert!(lines(&text).len() <= 23, "{fault:?}");
    }
}

#[test]
fn a_wrong_root_is_found_in_the_smallest_record() {
    let smallest = smallest(Fault::Sigma);
    let shown = show(&smallest);
    assert!(
        shown.contains("groups 0..8: count 2, sum 0, squares 2"),
        "{shown}"
    );
    assert!(shown.contains("groups 9..9: "), "{shown}");
    assert!(shown.contains("VOLL 0, X 0"), "{shown}");
}

#[test]
fn blocks_that_begin_at_midnight_are_found() {
    let (Input::Book { text: booked, .. }, Input::Price { text: priced, .. }) = (
        smallest(Fault::BookedFromMidnight),
        smallest(Fault::PricedFromMidnight),
    ) else {
        panic!("the faults are in booking and in pricing");
    };
    // Of four hours from midnight on, the first two have the same block either way.
    for text in [booked, priced] {
        let hour: i64 = lines(&text)[1]["hour=".len()..].parse().unwrap();
        assert!(hour % 4 >= 2, "{hour}");
    }
}

#[test]
fn more_reserve_never_raises_a_price() {
    let mut counts = Counts::default();
    for place in 0..40 {
        counts.add(&order::check(&Plain, &mut Random::at(3, place)).unwrap());
    }
    assert_eq!(counts.pairs, 40 * order::SNAPSHOTS);
    assert_eq!(counts.unmatched, 0);
    assert!(counts.refused_bookings > 0);
    assert!(0 < counts.handed && counts.handed < counts.accepted);
    assert!(counts.accepted > counts.pairs / 2);
    assert!(counts.tight > 20, "{counts:?}");
}

#[test]
fn a_price_that_rises_is_told() {
    let told = (0..10)
        .find_map(|place| order::check(&Faulty(Fault::Rising), &mut Random::at(3, place)).err())
        .unwrap();
    assert!(told.contains("second:"), "{told}");
    assert!(told.contains("booked hour,"), "{told}");
}

#[test]
fn wrong_pages_are_found() {
    for fault in [
        Fault::PageBegun,
        Fault::PageEnded,
        Fault::PageShort,
        Fault::PageOrder,
        Fault::PageNames,
        Fault::PageBlocks,
        Fault::PageAtX,
        Fault::PageRising,
        Fault::PageOfX,
    ] {
        let Input::WritePage { curves, length } = smallest(fault) else {
            panic!("the fault is in a page");
        };
        match fault {
            Fault::PageBegun => assert_eq!(length, 1),
            Fault::PageEnded => assert!(length > PAGE),
            Fault::PageOrder => assert_eq!(length, 0),
            _ => assert!(length >= PAGE),
        }
        assert_eq!(curves[0], 0, "{fault:?}");
    }
}

#[test]
fn a_page_can_be_read() {
    let mut counts = page::Counts::default();
    for place in 0..200 {
        counts.add(&page::check(&Plain, &mut Random::at(3, place)).unwrap());
    }
    assert_eq!((counts.pages, counts.rows), (200, 4800));
    assert!(counts.falling > 1000, "{counts:?}");
    assert!(counts.apart > 100, "{counts:?}");
}

#[test]
fn a_page_that_cannot_be_read_is_told() {
    for (fault, reason) in [
        (Fault::PageShort, "refused 14 line 0"),
        (Fault::PageBlocks, "row 0: it is called winter 1"),
        (Fault::PageRising, "a probability rises with reserve"),
        (Fault::PageOfX, "have another page"),
    ] {
        let told = (0..100)
            .find_map(|place| page::check(&Faulty(fault), &mut Random::at(3, place)).err())
            .unwrap();
        assert!(told.contains(reason), "{told}");
        assert!(told.contains("VOLL"), "{told}");
    }
}

/// The curve set of the smallest input found, which asks for the length.
fn smallest_set(fault: Fault) -> Curves {
    match smallest(fault) {
        Input::CurvesLength { curves } => curves,
        _ => panic!("{fault:?} is in the length"),
    }
}

/// The set with the shortest text.
fn shortest() -> Curves {
    let mut curves = [0; 50];
    for sigma in curves[3..].iter_mut().step_by(2) {
        *sigma = 1;
    }
    curves
}

#[test]
fn wrong_lengths_are_found() {
    // Of a set that is as small as can be, one number tells the fault.
    let telling = |fault: Fault| -> Vec<i64> {
        let curves = smallest_set(fault);
        let pairs = curves.into_iter().zip(shortest());
        pairs
            .filter(|(number, shortest)| number != shortest)
            .map(|(number, _)| number)
            .collect()
    };
    assert_eq!(telling(Fault::LengthMinus), [-1]);
    for power in POWERS {
        let numbers = telling(Fault::LengthPower(power));
        assert_eq!(numbers.len(), 1, "{numbers:?}");
        assert_eq!(numbers[0].abs(), power);
    }
    for fault in [Fault::LengthLastByte, Fault::LengthGreatest] {
        assert_eq!(smallest_set(fault), shortest(), "{fault:?}");
    }
}

#[test]
fn lengths_of_impossible_sets_are_found() {
    for fault in [Fault::LengthRefused, Fault::LengthImpossible] {
        let curves = smallest_set(fault);
        assert_eq!(Plain.curves_length(&curves, &mut 0).number, 1, "{fault:?}");
    }
}

#[test]
fn wrong_curve_texts_are_found() {
    for fault in [Fault::TextShort, Fault::TextEnded, Fault::TextCut] {
        assert!(
            matches!(smallest(fault), Input::Write { .. }),
            "{fault:?} is in writing"
        );
    }
}

#[test]
fn round_trips_of_curve_sets_give_the_same() {
    let mut counts = curve_trip::Counts::default();
    for place in 0..400 {
        counts.add(&curve_trip::check(&Plain, &mut Random::at(3, place)).unwrap());
    }
    assert_eq!(counts.trips, 400);
    assert!(200 < counts.negative && counts.negative < 400, "{counts:?}");
    assert!(counts.shortest > 0, "{counts:?}");
    assert!(counts.longest > 0, "{counts:?}");
}

#[test]
fn a_length_that_is_not_that_of_the_text_is_told() {
    let powers = POWERS.map(|power| (Fault::LengthPower(power), "written: refused 14 line 0"));
    for (fault, reason) in powers.into_iter().chain([
        (Fault::LengthMinus, "written: refused 14 line 0"),
        (Fault::LengthLastByte, "written: refused 14 line 0"),
        (
            Fault::LengthGreatest,
            "a buffer that is a byte too short is accepted",
        ),
        (
            Fault::TextCut,
            "a buffer that is a byte too short is accepted",
        ),
        (Fault::Buffer, "a refused writing changes something"),
        (Fault::TextShort, "written: refused 14 line 0"),
        (Fault::TextEnded, "a byte after the text is changed"),
    ]) {
        let told = (0..400)
            .find_map(|place| curve_trip::check(&Faulty(fault), &mut Random::at(3, place)).err())
            .unwrap_or_else(|| panic!("{fault:?} is not told"));
        assert!(told.contains(reason), "{fault:?}: {told}");
        assert!(told.contains("VOLL"), "{told}");
    }
}

#[test]
fn a_place_has_its_own_numbers() {
    let one = |seed, place| input(&mut Random::at(seed, place));
    assert_eq!(one(5, 9), one(5, 9));
    assert_ne!(one(5, 9), one(5, 10));
    assert_ne!(one(5, 9), one(6, 9));
}
