//! Machines for comparing engines directly, with memories of every size and
//! now and then something wrong at the door: what a sheet cannot show.

use crate::generate::Generator;
use crate::look_ups;
use crate::machine::{Machine, FRAME};
use crate::probe::Case;
use crate::{set_up, sheet};
use common::dice::Dice;

/// Makes machines and budgets from the generated sheets of a seed.
pub struct Loose {
    generator: Generator,
    dice: Dice,
}

impl Loose {
    pub fn new(seed: u64) -> Loose {
        Loose {
            generator: Generator::new(seed),
            dice: Dice::new(seed ^ 0x7046),
        }
    }

    /// The next machine and the budget to run it with.
    pub fn make(&mut self) -> (Machine, u32) {
        let sheet = loop {
            if let Ok(sheet) = sheet::read(&self.generator.make().text) {
                break sheet;
            }
        };
        let mut machine = set_up(&sheet);
        let mut budget = sheet.budget;
        let pages = match self.dice.below(4) {
            0 => self.dice.pick(&[1, 2, 15, 16, 17, 32, 63, 64]),
            1 => 1 + self.dice.below(64),
            2 => 16,
            _ => 64,
        };
        resize(&mut machine, pages as usize, &mut self.dice);
        if self.dice.chance(1, 12) {
            spoil(&mut machine, &mut budget, &mut self.dice);
        }
        (machine, budget)
    }

    /// The next machine as a run and as a step; and a look-up in another.
    pub fn cases(&mut self) -> [Case; 3] {
        let (machine, budget) = self.make();
        [
            Case::run(machine.clone(), budget),
            Case::step(machine),
            look_ups::some(&mut self.dice),
        ]
    }
}

/// Gives the machine so many pages of memory. A larger memory has the old
/// one somewhere in it, and the page words go along.
fn resize(machine: &mut Machine, pages: usize, dice: &mut Dice) {
    let size = pages * 4_096;
    if pages <= 16 {
        machine.memory.truncate(size);
        return;
    }
    let moved = dice.below(pages as u32 - 15) as u16;
    let mut memory = vec![0; size];
    let start = usize::from(moved) * 4_096;
    memory[start..start + 65_536].copy_from_slice(&machine.memory);
    machine.memory = memory;
    for word in &mut machine.map {
        let frame = *word & FRAME;
        if frame < 16 {
            *word = (*word & !FRAME) | (frame + moved);
        }
    }
}

/// Makes one thing wrong, or leaves it right at its edge.
fn spoil(machine: &mut Machine, budget: &mut u32, dice: &mut Dice) {
    match dice.below(14) {
        0 => machine.registers.truncate(15),
        1 => machine.registers.push(0),
        2 => machine.map.truncate(511),
        3 => machine.map.push(0x3003),
        4 => machine.memory.push(0),
        5 => {
            machine.memory.pop();
        }
        6 => machine.memory.clear(),
        7 => machine.memory.resize(262_144 + 4_096, 0),
        8 => machine.counter += dice.pick(&[0x100_0000, 0x8000_0000]),
        9 => machine.code = dice.pick(&[4, 256, u32::MAX]),
        10 => machine.mask = dice.pick(&[16, 256, u32::MAX]),
        11 => *budget = dice.pick(&[65_536, 65_537, u32::MAX]),
        12 => {
            machine.counter = 0xFF_FFFF;
            machine.code = 3;
            machine.mask = 15;
        }
        _ => machine.registers.clear(),
    }
}

#[cfg(test)]
mod tests {
    use super::*;
    use crate::machine::{BUDGET_SPENT, DOOR, G};

    /// No step was completed: all is as it was, but for G where a refused one
    /// was fetched from.
    fn assert_at_most_fetched(before: &Machine, after: &Machine, number: u32) {
        let mut unmarked = after.clone();
        if number != DOOR && number != BUDGET_SPENT {
            unmarked.map.clone_from(&before.map);
            for (old, new) in before.map.iter().zip(&after.map) {
                assert!(new == old || *new == old | G);
            }
        }
        assert_eq!(unmarked, *before);
    }

    #[test]
    fn all_numbers_come_up() {
        let mut loose = Loose::new(1);
        let mut numbers = [0u32; 9];
        let mut sizes = std::collections::BTreeSet::new();
        for _ in 0..4_000 {
            let (mut machine, budget) = loose.make();
            let before = machine.clone();
            sizes.insert(machine.memory.len());
            let run = machine.run(budget);
            numbers[run.number as usize] += 1;
            if run.count == 0 {
                assert_at_most_fetched(&before, &machine, run.number);
            }
        }
        for number in [1, 2, 3, 4, 5, 6, 7, 8] {
            assert!(numbers[number] >= 50, "{number}: {}", numbers[number]);
        }
        assert_eq!(numbers[0], 0);
        assert!(sizes.len() >= 60);
    }
}
