//! `reference price`, `reference curves` and `reference page`: standard input
//! to standard output. `reference each price` and so on do the same for many
//! inputs in one run: each input, and each output, stands behind its length in
//! eight bytes, the least first.

use reference::{run_curves_from, run_page, run_price, PAGE_INPUT_LIMIT, PRICE_INPUT_LIMIT};
use std::io::{self, BufRead, Read, Write};
use std::process::ExitCode;

fn main() -> ExitCode {
    let arguments: Vec<String> = std::env::args().skip(1).collect();
    let output = match arguments.iter().map(String::as_str).collect::<Vec<_>>()[..] {
        ["price"] => price(io::stdin().lock()),
        ["curves"] => run_curves_from(io::stdin().lock()),
        ["page"] => page(io::stdin().lock()),
        ["each", "price"] => each(|input| price(input)),
        ["each", "curves"] => each(|input| run_curves_from(input)),
        ["each", "page"] => each(|input| page(input)),
        _ => {
            eprintln!("usage: reference [each] price|curves|page");
            return ExitCode::from(2);
        }
    };
    match output.and_then(print) {
        Ok(()) => ExitCode::SUCCESS,
        Err(error) => {
            eprintln!("reference: {error}");
            ExitCode::FAILURE
        }
    }
}

fn print(bytes: Vec<u8>) -> io::Result<()> {
    let mut stdout = io::stdout().lock();
    stdout.write_all(&bytes)?;
    stdout.flush()
}

fn price(input: impl Read) -> io::Result<Vec<u8>> {
    Ok(run_price(&front(input, PRICE_INPUT_LIMIT)?))
}

fn page(input: impl Read) -> io::Result<Vec<u8>> {
    Ok(run_page(&front(input, PAGE_INPUT_LIMIT)?))
}

/// The input up to one byte above the limit, which is enough to tell that it
/// is too long.
fn front(input: impl Read, limit: usize) -> io::Result<Vec<u8>> {
    let mut front = Vec::new();
    input.take(limit as u64 + 1).read_to_end(&mut front)?;
    Ok(front)
}

fn each(program: impl Fn(&[u8]) -> io::Result<Vec<u8>>) -> io::Result<Vec<u8>> {
    let mut inputs = io::stdin().lock();
    let mut outputs = Vec::new();
    while !inputs.fill_buf()?.is_empty() {
        let mut length = [0; 8];
        inputs.read_exact(&mut length)?;
        let mut input = vec![0; u64::from_le_bytes(length) as usize];
        inputs.read_exact(&mut input)?;
        let output = program(&input)?;
        outputs.extend((output.len() as u64).to_le_bytes());
        outputs.extend(output);
    }
    Ok(outputs)
}
