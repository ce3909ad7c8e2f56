//! Sheets answered whole, text to text: by the proved library, and by an ordinary Rust program. The files are those of the folder
//! `sheets`: the loops of programs c, f and h, then some words of what was moved into registers, so that an answer tells of them.

use crate::engine::Engine;
use crate::machine::{Answer, Machine};
use second::machine::{Machine as Lists, Run};
use second::{print, set_up, sheet};
use std::mem::take;

pub struct Sheet {
    pub title: &'static str,
    pub text: &'static [u8],
    /// As the second program answers it.
    answer: &'static [u8],
}

pub const SHEETS: [Sheet; 4] = [
    Sheet {
        title: "moves of 256 bytes within a page",
        text: include_bytes!("../sheets/moves-256.sheet"),
        answer: include_bytes!("../sheets/moves-256.answer"),
    },
    Sheet {
        title: "moves of 256 bytes over a page's edge",
        text: include_bytes!("../sheets/moves-256-edge.sheet"),
        answer: include_bytes!("../sheets/moves-256-edge.answer"),
    },
    Sheet {
        title: "month end",
        text: include_bytes!("../sheets/month-end.sheet"),
        answer: include_bytes!("../sheets/month-end.answer"),
    },
    // What a sheet takes that moves nothing.
    Sheet {
        title: "the whole case: one step",
        text: include_bytes!("../../sheets/whole-case.sheet"),
        answer: include_bytes!("../../second/cases/whole-case.answer"),
    },
];

pub type Program = fn(&[u8]) -> Vec<u8>;

pub const PROGRAMS: [(&str, Program); 2] = [("this library", proved), ("ordinary Rust", ordinary)];

fn proved(text: &[u8]) -> Vec<u8> {
    spectra46::answer(text).expect("the library was asked for its version at the start")
}

/// Read and printed as the second program does it, and run by the ordinary engine by page.
fn ordinary(text: &[u8]) -> Vec<u8> {
    match sheet::read(text) {
        Err(line) => print::bad(line),
        Ok(sheet) => {
            let mut lists = set_up(&sheet);
            let before = lists.map.clone();
            let run = run(&mut lists, sheet.budget);
            print::answer(&run, &lists, &before)
        }
    }
}

/// The lists are lent to the engine here as they are, without a copy.
fn run(lists: &mut Lists, budget: u32) -> Run {
    let mut machine = Machine {
        memory: take(&mut lists.memory),
        map: take(&mut lists.map),
        registers: take(&mut lists.registers),
        counter: lists.counter,
        code: lists.code,
        mask: lists.mask,
    };
    let Answer {
        number,
        place,
        count,
    } = Engine::ByPage.run(&mut machine, budget);
    *lists = Lists {
        memory: machine.memory,
        map: machine.map,
        registers: machine.registers,
        counter: machine.counter,
        code: machine.code,
        mask: machine.mask,
    };
    Run {
        number,
        place,
        count,
    }
}

/// The first line of an answer that is not as it should be.
fn difference(got: &[u8], wanted: &[u8]) -> Option<String> {
    if got == wanted {
        return None;
    }
    let lines = |text| String::from_utf8_lossy(text).into_owned();
    let (got, wanted) = (lines(got), lines(wanted));
    let (mut got, mut wanted) = (got.split('\n'), wanted.split('\n'));
    loop {
        let (one, other) = (got.next(), wanted.next());
        if one != other || one.is_none() {
            let show = |line: Option<&str>| {
                let start: String = line.unwrap_or_default().chars().take(40).collect();
                format!("{start:?}")
            };
            return Some(format!("the line {}, not {}", show(one), show(other)));
        }
    }
}

/// That both programs answer each sheet as the second program does; how many answers there were.
pub fn check() -> Result<u32, String> {
    let mut agreed = 0;
    for sheet in &SHEETS {
        for (name, program) in PROGRAMS {
            if let Some(found) = difference(&program(sheet.text), sheet.answer) {
                return Err(format!("the sheet \"{}\", {name}: {found}", sheet.title));
            }
            agreed += 1;
        }
    }
    Ok(agreed)
}

/// How many moves and compares are done: of the set's operations, these alone have six bytes, and no branch here goes six bytes on.
pub fn moves(sheet: &Sheet) -> u32 {
    let read = sheet::read(sheet.text).expect("a sheet that was answered");
    let mut lists = set_up(&read);
    let mut moves = 0;
    for _ in 0..read.budget {
        let before = lists.counter;
        run(&mut lists, 1);
        moves += u32::from(lists.counter == before + 6);
    }
    moves
}

#[cfg(test)]
mod tests {
    use super::*;
    use crate::programs;

    /// The bytes of a program's code, but for the zeros at its end.
    fn code(letter: char) -> Vec<u8> {
        let mut all = programs::PROGRAMS.iter();
        let program = all.find(|one| one.name == letter).expect("a program");
        let place = &program.places()[0];
        let mut code = program.machine(1).memory[place.real..][..place.bytes].to_vec();
        let last = code.iter().rposition(|byte| *byte != 0).expect("code");
        code.truncate(last + 1);
        code
    }

    #[test]
    fn the_loops_are_those_of_programs() {
        for (sheet, letter) in SHEETS.iter().zip(['c', 'f', 'h']) {
            let read = sheet::read(sheet.text).expect(sheet.title);
            let memory = set_up(&read).memory;
            assert!(memory[7 * 4096..].starts_with(&code(letter)), "{letter}");
        }
    }

    #[test]
    fn the_ordinary_program_answers_them() {
        for sheet in &SHEETS {
            assert_eq!(difference(&ordinary(sheet.text), sheet.answer), None);
        }
        assert_eq!(ordinary(b"RUN\t1"), b"BAD\t1\n");
    }

    #[test]
    fn how_many_moves_there_are() {
        let rounds = [8 * 7_281, 8 * 7_281, 40 * 1_598, 0];
        assert_eq!(SHEETS.each_ref().map(moves), rounds);
    }

    #[test]
    fn a_difference_is_told() {
        assert!(difference(b"STOP\n", b"STOP\n\n").is_some());
        assert!(difference(b"", b"STOP\n").is_some());
        let told = "the line \"REG\", not \"START\"";
        assert_eq!(
            difference(b"STOP\nREG\n", b"STOP\nSTART\n").as_deref(),
            Some(told)
        );
    }
}
