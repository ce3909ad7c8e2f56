//! Calls of the machine that a sheet cannot show (the module `probe` has the
//! form of a case and of an outcome).
//!
//!     probe --make SEED COUNT   cases: the edges, then generated ones, COUNT of them
//!     probe --moves SEED COUNT  COUNT moves and compares, each as two cases: a step,
//!                               and a step by the plain way
//!     probe --answer            reads cases, writes what this machine makes of them

use second::edges;
use second::loose::Loose;
use second::moves::Moves;
use second::probe::Case;
use std::io::{self, BufWriter, Read, Write};
use std::process::ExitCode;

const USAGE: &str = "probe --make SEED COUNT | probe --moves SEED COUNT | probe --answer";

fn main() -> ExitCode {
    let arguments: Vec<String> = std::env::args().skip(1).collect();
    let words: Vec<&str> = arguments.iter().map(|word| word.as_str()).collect();
    let mut out = BufWriter::new(io::stdout().lock());
    let written = match words.as_slice() {
        ["--make", seed, count] => {
            numbers(seed, count).and_then(|(seed, count)| make(seed, count, &mut out))
        }
        ["--moves", seed, count] => {
            numbers(seed, count).and_then(|(seed, count)| moves(seed, count, &mut out))
        }
        ["--answer"] => answer(&mut out),
        _ => Err(USAGE.to_string()),
    };
    match written.and_then(|()| out.flush().map_err(in_words)) {
        Ok(()) => ExitCode::SUCCESS,
        Err(problem) => {
            eprintln!("probe: {problem}");
            ExitCode::FAILURE
        }
    }
}

fn numbers(seed: &str, count: &str) -> Result<(u64, usize), String> {
    match (seed.parse(), count.parse()) {
        (Ok(seed), Ok(count)) => Ok((seed, count)),
        _ => Err("SEED and COUNT are numbers".to_string()),
    }
}

fn in_words(error: io::Error) -> String {
    error.to_string()
}

/// The edges, then each generated machine as a run and as a step, and a
/// look-up after it.
fn make(seed: u64, count: usize, out: &mut impl Write) -> Result<(), String> {
    let mut loose = Loose::new(seed);
    let generated = std::iter::from_fn(|| Some(loose.cases())).flatten();
    write_all(edges::cases().into_iter().chain(generated).take(count), out)
}

fn moves(seed: u64, count: usize, out: &mut impl Write) -> Result<(), String> {
    let mut moves = Moves::new(seed);
    write_all((0..count).flat_map(|_| moves.cases()), out)
}

fn write_all(cases: impl Iterator<Item = Case>, out: &mut impl Write) -> Result<(), String> {
    let mut bytes = Vec::new();
    for case in cases {
        bytes.clear();
        case.push(&mut bytes);
        out.write_all(&bytes).map_err(in_words)?;
    }
    Ok(())
}

fn answer(out: &mut impl Write) -> Result<(), String> {
    let mut input = Vec::new();
    io::stdin()
        .lock()
        .read_to_end(&mut input)
        .map_err(in_words)?;
    let mut left = input.as_slice();
    while !left.is_empty() {
        let offset = input.len() - left.len();
        let (case, rest) =
            Case::split(left).ok_or_else(|| format!("the input is not a case at byte {offset}"))?;
        out.write_all(case.outcome().as_bytes()).map_err(in_words)?;
        left = rest;
    }
    Ok(())
}
