//! The three engines that run within this program, under one name each.

use crate::machine::{Answer, Machine, BUDGET, BUDGET_SPENT};
use crate::ordinary::{self, ByByte, ByPage};
use crate::proved;

#[derive(Clone, Copy, Debug, PartialEq, Eq)]
pub enum Engine {
    Proved,
    ByByte,
    ByPage,
}

pub const ENGINES: [Engine; 3] = [Engine::Proved, Engine::ByByte, Engine::ByPage];

impl Engine {
    pub fn title(self) -> &'static str {
        match self {
            Engine::Proved => "this engine",
            Engine::ByByte => "Rust by byte",
            Engine::ByPage => "Rust by page",
        }
    }

    /// Its name in one word.
    pub fn word(self) -> &'static str {
        match self {
            Engine::Proved => "proved",
            Engine::ByByte => "by-byte",
            Engine::ByPage => "by-page",
        }
    }

    pub fn step(self, machine: &mut Machine) -> Answer {
        match self {
            Engine::Proved => proved::step(machine),
            Engine::ByByte => ordinary::step::<ByByte>(machine),
            Engine::ByPage => ordinary::step::<ByPage>(machine),
        }
    }

    pub fn run(self, machine: &mut Machine, budget: u32) -> Answer {
        match self {
            Engine::Proved => proved::run(machine, budget),
            Engine::ByByte => ordinary::run::<ByByte>(machine, budget),
            Engine::ByPage => ordinary::run::<ByPage>(machine, budget),
        }
    }

    /// Runs of the greatest budget until something other than the budget stops the machine: the last one's number and place, and
    /// the count of all.
    pub fn run_out(self, machine: &mut Machine) -> (Answer, u64) {
        let mut total = 0;
        loop {
            let answer = self.run(machine, BUDGET);
            total += u64::from(answer.count);
            if answer.number != BUDGET_SPENT {
                return (answer, total);
            }
        }
    }
}
