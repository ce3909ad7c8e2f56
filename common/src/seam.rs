//! Programs about the seam between two ways of a step. An engine may have a quick way for an instruction that begins in a code page which
//! has its mark G, or gets it, with six bytes of the page to go, and that is refused nothing: one that touches only pages which have the
//! marks it would set, or one that is sure to be done, and sets those that are missing; all else it does the plain way. Each program here
//! changes from one way to the other, for one of the reasons that there are: code that changes itself, the ends of pages, marks that are
//! set in the midst of a loop, branches, operands at the ends of pages; or goes through the lengths and distances of short fields, of
//! which a quick way has several.

mod branches;
mod good;
mod layout;
mod marks;
mod mixed;
mod moves;
mod operands;
mod own_code;
mod page_ends;

use crate::dice::Dice;

/// A machine with a program in it.
#[derive(Clone, Debug, PartialEq, Eq)]
pub struct Program {
    pub memory: Vec<u8>,
    pub map: Vec<u16>,
    pub registers: Vec<u32>,
    pub counter: u32,
    pub code: u32,
    pub mask: u32,
}

/// What programs are made for: so many cases, gone through one by one, with dice for what does not matter to them.
pub struct Kind {
    pub name: &'static str,
    pub cases: u32,
    make: fn(u32, &mut Dice) -> Program,
}

const fn kind(name: &'static str, cases: u32, make: fn(u32, &mut Dice) -> Program) -> Kind {
    Kind { name, cases, make }
}

pub const KINDS: [Kind; 7] = [
    kind("own-code", own_code::CASES, own_code::own_code),
    kind("page-ends", page_ends::CASES, page_ends::page_ends),
    kind("marks", marks::CASES, marks::marks),
    kind("branches", branches::CASES, branches::branches),
    kind("operands", operands::CASES, operands::operands),
    kind("mixed", mixed::CASES, mixed::mixed),
    kind("moves", moves::CASES, moves::moves),
];

/// Of a program that has no end, so many steps are enough.
pub const MOST_STEPS: u32 = 40;

/// A case by its number, taken apart: one thing after another, each out of a list or below a count.
struct Grid(u32);

impl Grid {
    fn below(&mut self, count: u32) -> u32 {
        let place = self.0 % count;
        self.0 /= count;
        place
    }

    fn pick<T: Copy>(&mut self, choices: &[T]) -> T {
        choices[self.below(choices.len() as u32) as usize]
    }
}

impl Kind {
    /// The program of a case.
    pub fn program(&self, seed: u64, case: u32) -> Program {
        let mut dice = Dice::for_one(seed, u64::from(case));
        (self.make)(case, &mut dice)
    }
}

#[cfg(test)]
mod tests {
    use super::*;

    #[test]
    fn every_program_is_let_in() {
        for kind in &KINDS {
            for case in 0..kind.cases {
                let program = kind.program(1, case);
                assert!(program.memory.len() % 4_096 == 0 && !program.memory.is_empty());
                assert!(program.memory.len() <= 65_536);
                assert_eq!((program.map.len(), program.registers.len()), (512, 16));
                assert!(program.counter < 1 << 24 && program.code < 4 && program.mask < 16);
            }
        }
    }

    #[test]
    fn the_same_seed_gives_the_same_programs() {
        for kind in &KINDS {
            let mut different = 0;
            for case in 0..kind.cases {
                let program = kind.program(1, case);
                assert_eq!(program, kind.program(1, case));
                different += u32::from(program != kind.program(2, case));
            }
            assert!(different * 10 > kind.cases * 9, "{}", kind.name);
        }
    }

    #[test]
    fn how_many_there_are() {
        let cases = KINDS.each_ref().map(|kind| kind.cases);
        assert_eq!(cases, [1_890, 1_200, 992, 1_344, 4_960, 2_000, 3_142]);
    }
}
