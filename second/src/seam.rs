//! Sheets about the seam between two ways of a step (`common::seam` has the
//! programs): each program once, run to its end and a little further, or with
//! any budget up to there.

use crate::draft::Draft;
use crate::machine::Machine;
use common::dice::Dice;
use common::seam::{Program, KINDS, MOST_STEPS};

/// The sheets of a seed.
pub fn sheets(seed: u64) -> Vec<Vec<u8>> {
    let mut sheets = Vec::new();
    for kind in &KINDS {
        for case in 0..kind.cases {
            let mut dice = Dice::for_one(seed, sheets.len() as u64);
            let program = kind.program(seed, case);
            let most = steps(&program) + 2;
            let budget = match dice.below(2) {
                0 => most - dice.below(3),
                _ => dice.below(most + 1),
            };
            sheets.push(draft(&program, budget).text());
        }
    }
    sheets
}

/// The machine that the program runs on.
pub fn machine(program: &Program) -> Machine {
    Machine {
        registers: program.registers.clone(),
        counter: program.counter,
        code: program.code,
        mask: program.mask,
        memory: program.memory.clone(),
        map: program.map.clone(),
    }
}

/// How many steps a program does before it is refused.
pub fn steps(program: &Program) -> u32 {
    machine(program).run(MOST_STEPS).count
}

/// A sheet's memory may be more than the program's: a frame that is past that
/// is there, and holds zeros.
fn draft(program: &Program, budget: u32) -> Draft {
    let mut draft = Draft {
        counter: program.counter,
        code: program.code,
        mask: program.mask,
        budget,
        ..Draft::default()
    };
    for (page, word) in (0..).zip(&program.map) {
        if *word != 0 {
            draft.page(page, *word);
        }
    }
    for (place, piece) in (0..).zip(program.memory.chunks(16)) {
        if piece.iter().any(|byte| *byte != 0) {
            draft.put(16 * place, piece);
        }
    }
    for (number, word) in (0..).zip(&program.registers) {
        if *word != 0 {
            draft.register(number, *word);
        }
    }
    draft
}
