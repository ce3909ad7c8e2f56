//! listing WITNESS FOLDER CASES [slip]: holds the second program's listing against another program's, with so many cases of each
//! instruction. WITNESS is objdump or hercules. Prints the first differences, a line an instruction, and a total. With `slip` each line
//! has one wrong letter or digit, and every case has to differ. FOLDER takes what is passed to and fro.
//!
//! Status: 0 all agree, 1 some differ, 2 something could not be run.

mod cases;
mod objdump;
mod spelling;
mod told;
mod unassembled;

use common::status::status;
use second::listing::{lines, Line};
use second::operations::{Operation, OPERATIONS};
use std::path::Path;
use std::process::ExitCode;
use told::Told;

/// Where the code stands.
const START: u32 = 0x00_A000;

/// As many differences are shown whole.
const SHOWN: usize = 20;

#[derive(Clone, Copy, Default)]
struct Tally {
    cases: usize,
    different: usize,
    /// Cases that agree as far as the witness tells, which is not the whole.
    gaps: usize,
}

/// One case. Where the lines agree: whether the witness leaves something untold; otherwise the difference.
fn hold(
    number: usize,
    line: Option<&Line>,
    told: Option<&Told>,
    slip: bool,
) -> Result<bool, String> {
    let (Some(line), Some(told)) = (line, told) else {
        return Err(format!("only one of {line:?} and {told:?}"));
    };
    let text = if slip {
        told.slip(&line.text, number)
    } else {
        line.text.clone()
    };
    if told.agrees(line.bytes, &text) {
        Ok(told.has_gap())
    } else {
        Err(format!(
            "{text:?} for {:02X?}, but {:?}",
            line.bytes, told.own
        ))
    }
}

/// The counts of each operation, whose cases stand one after another.
fn compare(cases: usize, ours: &[Line], theirs: &[Told], slip: bool) -> Vec<Tally> {
    let mut shown = 0;
    let mut tallies = vec![Tally::default(); OPERATIONS.len()];
    let most = ours.len().max(theirs.len()).max(cases * OPERATIONS.len());
    for number in 0..most {
        let tally = &mut tallies[(number / cases).min(OPERATIONS.len() - 1)];
        tally.cases += 1;
        match hold(number, ours.get(number), theirs.get(number), slip) {
            Ok(has_gap) => tally.gaps += usize::from(has_gap),
            Err(difference) => {
                tally.different += 1;
                shown += 1;
                if shown <= SHOWN && !slip {
                    println!("DIFFERENT {difference}");
                }
            }
        }
    }
    tallies
}

fn report(tallies: &[Tally], version: &str) -> usize {
    println!("instruction  code    cases  differences");
    let mut total = Tally::default();
    for (operation, tally) in OPERATIONS.iter().zip(tallies) {
        print_line(operation.name, &format!("{:02X}", operation.code), tally);
        total.cases += tally.cases;
        total.different += tally.different;
        total.gaps += tally.gaps;
    }
    print_line("total", &OPERATIONS.len().to_string(), &total);
    println!(
        "Lines of {version} that leave something untold: {}.",
        total.gaps
    );
    total.different
}

fn print_line(name: &str, code: &str, tally: &Tally) {
    println!(
        "{name:<11}  {code}    {:>7}  {:>11}",
        tally.cases, tally.different
    );
}

/// All cases of an operation, one after another.
fn piece(operation: &Operation, cases: usize) -> Vec<u8> {
    let of_case = |number| cases::make(operation, number);
    (0..cases).flat_map(of_case).collect()
}

fn run(arguments: &[String]) -> Result<usize, String> {
    let [witness, folder, cases, rest @ ..] = arguments else {
        return Err("listing WITNESS FOLDER CASES [slip]".to_string());
    };
    let cases: usize = match cases.parse() {
        Ok(cases) if (1..=500).contains(&cases) => cases,
        _ => return Err(format!("not a number of cases from 1 to 500: {cases}")),
    };
    let pieces: Vec<Vec<u8>> = OPERATIONS.iter().map(|row| piece(row, cases)).collect();
    let code = pieces.concat();
    let folder = Path::new(folder);
    let (theirs, version) = match witness.as_str() {
        "objdump" => objdump::ask(folder, START, &code)?,
        "hercules" => unassembled::ask(folder, START, &pieces)?,
        _ => return Err(format!("no such witness: {witness}")),
    };
    if theirs.is_empty() {
        return Err(format!("{witness} lists nothing"));
    }
    let slip = rest.iter().any(|word| word == "slip");
    let tallies = compare(cases, &lines(&code, START), &theirs, slip);
    Ok(report(&tallies, &version))
}

fn main() -> ExitCode {
    let arguments: Vec<String> = std::env::args().skip(1).collect();
    status("listing", run(&arguments))
}
