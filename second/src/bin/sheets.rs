//! Generated sheets.
//!
//!     sheets SEED COUNT            the sheets, each after its length
//!     sheets --labels SEED COUNT   what each sheet was made for
//!     sheets --one SEED INDEX      one sheet by itself (counted from 0)
//!     sheets --census SEED COUNT   what they do on our own machine
//!     sheets --seam SEED           those about the seam between two ways of a
//!                                  step, all of them

use second::generate::Generator;
use second::{census, many, seam};
use std::io::{self, Write};
use std::process::ExitCode;

fn main() -> ExitCode {
    let arguments: Vec<String> = std::env::args().skip(1).collect();
    let words: Vec<&str> = arguments.iter().map(|word| word.as_str()).collect();
    let (flag, numbers) = match words.as_slice() {
        ["--seam", seed] => ("--seam", (seed.parse(), Ok(0))),
        [flag, first, second] => (*flag, (first.parse::<u64>(), second.parse::<u64>())),
        [first, second] => ("", (first.parse(), second.parse())),
        _ => return usage(),
    };
    let (Ok(seed), Ok(count)) = numbers else {
        return usage();
    };
    let Some(out) = made(flag, seed, count) else {
        return usage();
    };
    let mut stdout = io::stdout().lock();
    match stdout.write_all(&out).and_then(|()| stdout.flush()) {
        Ok(()) => ExitCode::SUCCESS,
        Err(_) => ExitCode::FAILURE,
    }
}

/// What is asked for; nothing for a flag that there is not.
fn made(flag: &str, seed: u64, count: u64) -> Option<Vec<u8>> {
    let mut generator = Generator::new(seed);
    let mut out = Vec::new();
    match flag {
        "" => {
            for _ in 0..count {
                many::push(&mut out, &generator.make().text);
            }
        }
        "--labels" => {
            for index in 0..count {
                out.extend_from_slice(format!("{index}\t{}\n", generator.make().label).as_bytes());
            }
        }
        "--one" => {
            for _ in 0..count {
                generator.make();
            }
            out = generator.make().text;
        }
        "--census" => out = census::take(seed, count).text().into_bytes(),
        "--seam" => {
            for sheet in seam::sheets(seed) {
                many::push(&mut out, &sheet);
            }
        }
        _ => return None,
    }
    Some(out)
}

fn usage() -> ExitCode {
    eprintln!("sheets SEED COUNT | sheets --labels SEED COUNT | sheets --one SEED INDEX | sheets --census SEED COUNT | sheets --seam SEED");
    ExitCode::FAILURE
}
