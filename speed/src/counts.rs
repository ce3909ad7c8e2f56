//! Host instructions for a guest instruction, counted by callgrind: the same at every run, whatever else the machine does.

use crate::engine::{Engine, ENGINES};
use crate::programs::Program;
use common::bounded;
use std::env;
use std::fs;
use std::path::Path;
use std::process::Stdio;
use std::time::Duration;

const PATIENCE: Duration = Duration::from_secs(300);
/// Instructions of the guest, about, in the longer of two runs.
const GUEST: u64 = 40_000;

/// What a whole process executes for so many rounds.
fn executed(folder: &Path, engine: Engine, program: &Program, rounds: u64) -> Result<u64, String> {
    let profile = folder.join("callgrind");
    let mut command = bounded::command();
    command
        .args(["valgrind", "--tool=callgrind", "-q"])
        .arg(format!("--callgrind-out-file={}", profile.display()))
        .arg(env::current_exe().map_err(|error| error.to_string())?)
        .args(["once", engine.word(), &program.name.to_string()])
        .arg(rounds.to_string())
        .stdin(Stdio::null())
        .stdout(Stdio::null());
    let status = bounded::start(command)?.wait(PATIENCE)?;
    if !status.success() {
        return Err(format!("valgrind: {status}"));
    }
    let text = fs::read_to_string(&profile).map_err(|error| error.to_string())?;
    let total = |line: &str| line.strip_prefix("totals:")?.trim().parse().ok();
    text.lines()
        .find_map(total)
        .ok_or("callgrind wrote no total".to_string())
}

/// The difference of two runs, so that what is not the program falls out.
fn count(folder: &Path, engine: Engine, program: &Program) -> Result<f64, String> {
    let few = 1;
    let many = few + GUEST / program.instructions;
    let less = executed(folder, engine, program, few)?;
    let more = executed(folder, engine, program, many)?;
    Ok((more - less) as f64 / ((many - few) * program.units) as f64)
}

/// For each program, the count of each engine.
pub fn counts(folder: &Path, program: &Program) -> Result<Vec<f64>, String> {
    ENGINES
        .iter()
        .map(|engine| count(folder, *engine, program))
        .collect()
}
