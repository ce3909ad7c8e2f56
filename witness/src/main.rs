//! witness FOLDER CASES ENGINE..: holds an engine, started by the command ENGINE.., against Hercules, with so many cases of each
//! instruction. Prints every difference with its case, a line an instruction, and a total. FOLDER takes what is passed to and fro.
//!
//! Status: 0 all agree, 1 some differ, 2 something could not be run.

mod arithmetic;
mod case;
mod compare;
mod draft;
mod draw;
mod engine;
mod guest;
mod make;
#[cfg(test)]
mod reach;
mod tally;

use case::Case;
use common::hercules;
use common::set::SET;
use common::status::status;
use std::path::Path;
use std::process::ExitCode;
use tally::Tally;

struct Witness<'a> {
    engine: &'a [String],
    folder: &'a Path,
    tallies: [Tally; SET.len()],
    version: String,
}

impl Witness<'_> {
    /// One start of Hercules, one of the engine.
    fn hold(&mut self, batch: &[(usize, usize)]) -> Result<(), String> {
        let cases: Vec<Case> = batch.iter().enumerate().map(make_one).collect();
        let ended = hercules::run(self.folder, &guest::storage(&cases))?;
        self.version = ended.version;
        let theirs = guest::read(&cases, &ended.storage);
        let ours = engine::run(self.engine, self.folder, &cases)?;
        for (((which, _), case), (after, outcome)) in
            batch.iter().zip(&cases).zip(theirs.iter().zip(&ours))
        {
            let differences = compare::differences(case, after, outcome);
            let is_different = !differences.is_empty();
            self.tallies[*which].add(Tally::of(case, after, is_different));
            if is_different {
                print!("DIFFERENT {}", compare::tell(case, after, outcome));
                println!("  {}", differences.join("\n  "));
            }
        }
        Ok(())
    }
}

/// A case in a window of its own; a few windows, too, are spread over all pages. (401 has no divisor in common with their number.)
fn make_one((i, (which, number)): (usize, &(usize, usize))) -> Case {
    let slot = i * 401 % guest::WINDOWS;
    make::make(&SET[*which], *number, guest::window_at(slot))
}

fn report(witness: &Witness) -> usize {
    println!("instruction  code    cases  differences");
    let mut total = Tally::default();
    for (instruction, tally) in SET.iter().zip(&witness.tallies) {
        let operation = format!("{:02X}", instruction.operation);
        print_line(instruction.name, &operation, tally);
        total.add(*tally);
    }
    print_line("total", &SET.len().to_string(), &total);
    println!(
        "Code or an operand across the edge of a page: {}. Branches taken: {}. Interruptions by Hercules {}: for overflow {}, for a \
         divide {}, for an odd register of a pair {}.",
        total.crossings, total.branches, witness.version, total.overflows, total.divides, total.odd_pairs
    );
    total.different
}

fn print_line(name: &str, operation: &str, tally: &Tally) {
    println!(
        "{name:<11}  {operation}    {:>7}  {:>11}",
        tally.cases, tally.different
    );
}

fn run(arguments: &[String]) -> Result<usize, String> {
    let [folder, cases, engine @ ..] = arguments else {
        return Err("witness FOLDER CASES ENGINE..".to_string());
    };
    let cases: usize = match cases.parse() {
        Ok(cases) if (1..=1_000_000).contains(&cases) => cases,
        _ => {
            return Err(format!(
                "not a number of cases from 1 to 1,000,000: {cases}"
            ))
        }
    };
    let mut witness = Witness {
        engine,
        folder: Path::new(folder),
        tallies: [Tally::default(); SET.len()],
        version: String::new(),
    };
    let all: Vec<(usize, usize)> = (0..SET.len())
        .flat_map(|which| (0..cases).map(move |n| (which, n)))
        .collect();
    for batch in all.chunks(guest::WINDOWS) {
        witness.hold(batch)?;
    }
    Ok(report(&witness))
}

fn main() -> ExitCode {
    let arguments: Vec<String> = std::env::args().skip(1).collect();
    status("witness", run(&arguments))
}
