//! `cases SEED OUTDIR`

use cases::{all_cases, answer, encode, tally, Answer, CAN_REFUSE};
use std::path::Path;
use std::process::ExitCode;

const FEWEST: usize = 2000;

fn main() -> ExitCode {
    let arguments: Vec<String> = std::env::args().skip(1).collect();
    let [seed, directory] = arguments.as_slice() else {
        eprintln!("usage: cases SEED OUTDIR");
        return ExitCode::from(2);
    };
    let Ok(seed) = seed.parse() else {
        eprintln!("cases: the seed is a number");
        return ExitCode::from(2);
    };
    match run(seed, Path::new(directory)) {
        Ok(()) => ExitCode::SUCCESS,
        Err(message) => {
            eprintln!("cases: {message}");
            ExitCode::FAILURE
        }
    }
}

fn run(seed: u64, directory: &Path) -> Result<(), String> {
    let cases = all_cases(seed);
    let answers: Vec<Answer> = cases.iter().map(|case| answer(&case.input)).collect();
    let lines = |line: &dyn Fn(usize) -> String| -> Vec<u8> {
        let all = (0..cases.len()).flat_map(|place| (line(place) + "\n").into_bytes());
        all.collect()
    };
    let expected = lines(&|place| answers[place].line());
    let labels = lines(&|place| {
        let case = &cases[place];
        format!("{} {} {}", place + 1, case.input.letter(), case.label)
    });
    std::fs::create_dir_all(directory).map_err(|error| error.to_string())?;
    for (name, bytes) in [
        ("cases.bin", encode(&cases)),
        ("expected.txt", expected),
        ("labels.txt", labels),
    ] {
        let path = directory.join(name);
        std::fs::write(&path, &bytes).map_err(|error| format!("{}: {error}", path.display()))?;
        println!("{name}: {} bytes", bytes.len());
    }
    println!("{} cases from seed {seed}", cases.len());
    report(&cases, &answers)
}

/// Prints how often each answer came, and fails where one never did.
fn report(cases: &[cases::Case], answers: &[Answer]) -> Result<(), String> {
    let tally = tally(cases.iter().zip(answers));
    let mut missing = Vec::new();
    for (letter, numbers) in CAN_REFUSE {
        let times = |number| tally.get(&(letter, number)).copied().unwrap_or(0);
        let mut line = format!("{letter}: accepted {}", times(0));
        if times(0) == 0 {
            missing.push(format!("{letter} accepted"));
        }
        for &number in numbers {
            line += &format!(", refused {number}: {}", times(number));
            if times(number) == 0 {
                missing.push(format!("{letter} refused {number}"));
            }
        }
        println!("{line}");
    }
    if cases.len() < FEWEST {
        missing.push(format!("{FEWEST} cases"));
    }
    if missing.is_empty() {
        Ok(())
    } else {
        Err(format!("missing: {}", missing.join(", ")))
    }
}
