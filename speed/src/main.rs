//! Times the engine beside an ordinary Rust engine and Hercules. `./speed/run` builds and starts it; its words are
//!
//!     table FOLDER PROGRAMS WITHOUT REPEATS
//!     check FOLDER PROGRAMS WITHOUT
//!     counts FOLDER PROGRAMS
//!     sheet REPEATS
//!     once ENGINE PROGRAM ROUNDS
//!
//! where FOLDER is for its files, PROGRAMS are letters, and WITHOUT says why there is no Hercules, or is empty.

mod cases;
mod check;
mod clock;
mod counts;
mod differ;
mod engine;
mod hercules;
mod machine;
mod month_end;
mod ordinary;
mod programs;
mod proved;
mod seam;
mod seam_guest;
mod sheet_timing;
mod sheets;
mod table;
mod timing;

use engine::ENGINES;
use hercules::Hercules;
use programs::{Program, PROGRAMS};
use sheet_timing::TimedSheet;
use sheets::SHEETS;
use std::env;
use std::path::Path;
use std::process::ExitCode;
use timing::Timed;

/// Why it did not come to its end: engines differ, or something else went wrong.
enum Trouble {
    Differs(String),
    Other(String),
}

fn other(message: impl Into<String>) -> Trouble {
    Trouble::Other(message.into())
}

fn chosen(letters: &str) -> Result<Vec<&'static Program>, Trouble> {
    let find = |letter| {
        let found = PROGRAMS.iter().find(|program| program.name == letter);
        found.ok_or(other(format!("no program {letter}")))
    };
    letters.chars().map(find).collect()
}

fn begin_hercules(folder: &str, without: &str) -> Result<Option<Hercules>, Trouble> {
    if !without.is_empty() {
        println!("skipped: Hercules: {without}");
        return Ok(None);
    }
    let hercules = Hercules::new(folder.into(), &PROGRAMS[0]).map_err(other)?;
    println!("hercules: {}", hercules.version);
    Ok(Some(hercules))
}

fn check_programs(programs: &[&Program], hercules: Option<&Hercules>) -> Result<u32, Trouble> {
    let mut agreed = 0;
    for program in programs {
        agreed += check::program(program, hercules).map_err(Trouble::Differs)?;
    }
    Ok(agreed)
}

fn check(folder: &str, letters: &str, without: &str) -> Result<(), Trouble> {
    let hercules = begin_hercules(folder, without)?;
    let mut agreed = check_programs(&chosen(letters)?, hercules.as_ref())?;
    agreed += check::generated().map_err(Trouble::Differs)?;
    agreed += seam::check(hercules.as_ref()).map_err(Trouble::Differs)?;
    agreed += sheets::check().map_err(Trouble::Differs)?;
    println!("speed: {agreed} checks passed");
    Ok(())
}

fn number(word: &str) -> Result<u32, Trouble> {
    word.parse().map_err(|_| other("not a number"))
}

fn times(folder: &str, letters: &str, without: &str, repeats: &str) -> Result<(), Trouble> {
    let repeats = number(repeats)?;
    let programs = chosen(letters)?;
    let hercules = begin_hercules(folder, without)?;
    let hercules = hercules.as_ref();
    let agreed = check_programs(&programs, hercules)?;
    println!("checked: the engines agree in {agreed} comparisons");
    let mut timed = Vec::new();
    for program in &programs {
        timed.push(Timed::new(program, hercules).map_err(other)?);
    }
    for _ in 0..repeats {
        for one in &mut timed {
            one.again(hercules).map_err(other)?;
        }
    }
    let units = table::units(&programs);
    println!("figures: processor time in ns, best of {repeats}: {units}\n");
    table::print_times(&timed);
    Ok(())
}

fn counts(folder: &str, letters: &str) -> Result<(), Trouble> {
    let mut counted = Vec::new();
    let programs = chosen(letters)?;
    for program in &programs {
        let counts = counts::counts(Path::new(folder), program).map_err(other)?;
        counted.push((*program, counts));
    }
    let units = table::units(&programs);
    println!("figures: instructions of this processor: {units}\n");
    table::print_counts(&counted);
    Ok(())
}

fn sheets(repeats: &str) -> Result<(), Trouble> {
    let repeats = number(repeats)?;
    let agreed = sheets::check().map_err(Trouble::Differs)?;
    println!("checked: {agreed} answers are as they should be");
    let mut timed: Vec<_> = SHEETS.iter().map(TimedSheet::new).collect();
    for _ in 0..repeats {
        timed.iter_mut().for_each(TimedSheet::again);
    }
    println!("figures: processor time, best of {repeats}: a whole sheet in us, and that divided by its moves and compares in ns\n");
    table::print_sheets(&timed);
    Ok(())
}

/// One program on one engine, for callgrind to count.
fn once(engine: &str, letters: &str, rounds: &str) -> Result<(), Trouble> {
    let engine = ENGINES.iter().find(|one| one.word() == engine);
    let engine = engine.ok_or(other("no such engine"))?;
    let rounds = number(rounds)?;
    for program in chosen(letters)? {
        engine.run_out(&mut program.machine(rounds));
    }
    Ok(())
}

fn main() -> ExitCode {
    let words: Vec<String> = env::args().skip(1).collect();
    let words: Vec<&str> = words.iter().map(String::as_str).collect();
    if let Err(wrong) = spectra46::check_library() {
        eprintln!("speed: {wrong}");
        return ExitCode::from(2);
    }
    let done = match words[..] {
        ["table", folder, letters, without, repeats] => times(folder, letters, without, repeats),
        ["check", folder, letters, without] => check(folder, letters, without),
        ["counts", folder, letters] => counts(folder, letters),
        ["sheet", repeats] => sheets(repeats),
        ["once", engine, letters, rounds] => once(engine, letters, rounds),
        _ => Err(other("started by ./speed/run")),
    };
    match done {
        Ok(()) => ExitCode::SUCCESS,
        Err(Trouble::Differs(found)) => {
            println!("speed: differs: {found}");
            ExitCode::from(1)
        }
        Err(Trouble::Other(message)) => {
            eprintln!("speed: {message}");
            ExitCode::from(2)
        }
    }
}
