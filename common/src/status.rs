//! How a program that looks for differences ends: 0 none, 1 some, 2 it could not be run, which is said on standard error.

use std::process::ExitCode;

/// The status for so many differences, or for what stood in the way.
pub fn status(program: &str, differences: Result<usize, String>) -> ExitCode {
    match differences {
        Ok(0) => ExitCode::SUCCESS,
        Ok(_) => ExitCode::from(1),
        Err(problem) => {
            eprintln!("{program}: {problem}");
            ExitCode::from(2)
        }
    }
}
