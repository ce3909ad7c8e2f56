//! Many sheets on standard input, each after its length in decimal and a
//! line feed; the answers on standard output in the same way.

use std::io::{self, Read, Write};
use std::process::ExitCode;

fn main() -> ExitCode {
    match run() {
        Ok(()) => ExitCode::SUCCESS,
        Err(problem) => {
            eprintln!("many: {problem}");
            ExitCode::FAILURE
        }
    }
}

fn run() -> Result<(), String> {
    let mut text = Vec::new();
    io::stdin()
        .lock()
        .read_to_end(&mut text)
        .map_err(|error| error.to_string())?;
    let sheets = second::many::split(&text)
        .map_err(|offset| format!("input is not a list of sheets at byte {offset}"))?;
    let mut answers = Vec::new();
    for sheet in sheets {
        second::many::push(&mut answers, &second::answer(sheet));
    }
    let mut out = io::stdout().lock();
    out.write_all(&answers).map_err(|error| error.to_string())?;
    out.flush().map_err(|error| error.to_string())
}
