//! `perturb CURVES SNAPSHOT [--tight] [--csv]`

use perturb::{csv, curves_of, plain, study, tighten, RefusedText};
use std::io::{self, Write};
use std::process::ExitCode;

const USAGE: &str = "usage: perturb CURVES SNAPSHOT [--tight] [--csv]";

fn main() -> ExitCode {
    let (mut files, mut tight, mut as_csv) = (Vec::new(), false, false);
    for argument in std::env::args().skip(1) {
        match argument.as_str() {
            "--tight" => tight = true,
            "--csv" => as_csv = true,
            _ if argument.starts_with("--") => return usage(),
            _ => files.push(argument),
        }
    }
    let [curves, snapshot] = files.as_slice() else {
        return usage();
    };
    match run(curves, snapshot, tight, as_csv).and_then(print) {
        Ok(()) => ExitCode::SUCCESS,
        Err(message) => {
            eprintln!("perturb: {message}");
            ExitCode::FAILURE
        }
    }
}

fn usage() -> ExitCode {
    eprintln!("{USAGE}");
    ExitCode::from(2)
}

fn run(curves: &str, snapshot: &str, tight: bool, as_csv: bool) -> Result<String, String> {
    let read = |name: &str| std::fs::read(name).map_err(|error| format!("{name}: {error}"));
    let curves = curves_of(&read(curves)?).map_err(refused)?;
    let snapshot = read(snapshot)?;
    let report = if as_csv { csv } else { plain };
    let given = study(&curves, &snapshot).map_err(refused)?;
    if !tight {
        return Ok(report(&given, None));
    }
    let variant = tighten(&curves, &snapshot).map_err(refused)?;
    let tight = study(&curves, &variant.text).map_err(refused)?;
    Ok(report(&tight, Some((&variant, &given))))
}

fn refused(refused_text: RefusedText) -> String {
    let RefusedText { text, refusal } = refused_text;
    let (number, line) = (refusal.number, refusal.line);
    format!("the {text} text is refused as it stands: refused {number} at line {line}")
}

/// A reader that has seen enough, such as `head`, is no failure.
fn print(report: String) -> Result<(), String> {
    match io::stdout().lock().write_all(report.as_bytes()) {
        Err(error) if error.kind() != io::ErrorKind::BrokenPipe => Err(error.to_string()),
        _ => Ok(()),
    }
}
