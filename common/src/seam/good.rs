//! Instructions that complete as a rule: what they load and store lies in the pages of data, and branches go to what follows.

use super::layout::{Layout, PAGE};
use crate::assemble::{rr, rs, rx, si, ss, BCR};
use crate::dice::Dice;
use crate::set::{Instruction, Shape, SET};

/// How many instructions have an operand in storage.
pub const IN_STORAGE: u32 = 31;

/// An instruction with an operand in storage, by its number among them.
pub fn in_storage(number: u32) -> &'static Instruction {
    let mut all = SET.iter().filter(|one| width(one) > 0);
    all.nth(number as usize).expect("there are so many")
}

/// The boundary of an instruction's operands in storage; 0 of one that has none.
pub fn width(one: &Instruction) -> u32 {
    match one.shape {
        Shape::Storage { width, .. } => width,
        Shape::Multiple { .. } => 4,
        Shape::Immediate { .. } | Shape::Fields { .. } => 1,
        _ => 0,
    }
}

pub fn some_of_length(dice: &mut Dice, length: usize) -> &'static Instruction {
    loop {
        let one = &SET[dice.below(SET.len() as u32) as usize];
        if crate::set::length(one.operation) == length {
            return one;
        }
    }
}

/// R1, or the first of a pair, seldom an odd one, which is refused. None of them is a base.
pub fn first_register(dice: &mut Dice, one: &Instruction) -> u8 {
    if one.pair {
        return dice.pick(&[2, 2, 4, 4, 6, 6, 8, 8, 3]);
    }
    dice.below(10) as u8
}

/// Base and displacement of an operand: near either end of a page of data, or of its halves; now and then in the code itself.
fn operand(dice: &mut Dice, layout: &Layout, width: u32) -> (u8, u32) {
    if dice.once_in(12) {
        let start = layout.program.registers[12];
        let at = (start + dice.below(24) + width - 1) & !(width - 1);
        return (dice.pick(&[12, 13]), at - start);
    }
    let near = dice.pick(&[0, 0x40, 0x400, 0x7F4, 0x7FC, 0x800, 0xC00, 0xFF0, 0xFFC]);
    let displacement = (near + dice.below(4)) & !(width - 1);
    (dice.pick(&[14, 15]), displacement)
}

/// An instruction at the place where the layout's next one goes.
pub fn good(dice: &mut Dice, layout: &mut Layout, one: &Instruction) -> Vec<u8> {
    let code = one.operation;
    let r1 = first_register(dice, one);
    let onward = layout.here + 4 - layout.program.registers[12];
    match one.shape {
        Shape::Registers => rr(code, r1, dice.below(10) as u8),
        Shape::RegisterBranch => {
            let mask = if code == BCR { dice.pick(&[8, 15]) } else { r1 };
            layout.register(10, layout.here + 2);
            rr(code, mask, dice.pick(&[0, 10, 10]))
        }
        Shape::StorageBranch => rx(code, r1, 0, 12, onward),
        Shape::IndexBranch => rs(code, r1, dice.below(10) as u8, 12, onward),
        Shape::Shift => rs(code, r1, 0, 0, dice.below(64)),
        Shape::Address => rx(code, r1, dice.below(10) as u8, 12, dice.below(PAGE)),
        _ => stored(dice, layout, one, r1),
    }
}

/// The same of one with an operand in storage.
fn stored(dice: &mut Dice, layout: &Layout, one: &Instruction, r1: u8) -> Vec<u8> {
    let code = one.operation;
    let (base, displacement) = operand(dice, layout, width(one));
    match one.shape {
        Shape::Storage { .. } => {
            let (index, base) = dice.pick(&[(0, base), (0, base), (base, 0)]);
            rx(code, r1, index, base, displacement)
        }
        Shape::Multiple { stores } => {
            let last = if stores {
                dice.below(16) as u8
            } else {
                dice.below(10) as u8
            };
            rs(code, r1.min(last), last, base, displacement)
        }
        Shape::Immediate { .. } => si(code, dice.edge_byte(), base, displacement),
        _ => {
            let (other, there) = operand(dice, layout, 1);
            let length = dice.pick(&[0, 1, 3, 7, 15, 63, 255]);
            ss(code, length, base, displacement, other, there)
        }
    }
}

#[cfg(test)]
mod tests {
    use super::*;

    #[test]
    fn so_many_have_an_operand_in_storage() {
        let count = SET.iter().filter(|one| width(one) > 0).count();
        assert_eq!(count, IN_STORAGE as usize);
    }
}
