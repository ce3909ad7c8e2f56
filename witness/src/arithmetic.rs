//! Cases of multiply, divide, halfword arithmetic and the signed shifts, with operands at which they turn.

use crate::draft::Draft;
use crate::draw::Draw;
use crate::make::{four, nibbles};
use common::dice::{Dice, EDGE_WORDS};
use common::set::Instruction;
use common::turns;

/// The bytes after the operation code; none for an instruction of another kind.
pub fn fields(draft: &mut Draft, instruction: &Instruction) -> Option<Vec<u8>> {
    match instruction.name {
        "MR" | "DR" => Some(registers(draft, instruction)),
        "M" | "D" => Some(storage(draft, instruction, 4)),
        "MH" | "AH" | "SH" | "CH" => Some(storage(draft, instruction, 2)),
        "SLA" | "SRA" | "SLDA" | "SRDA" => Some(shift(draft, instruction)),
        _ => None,
    }
}

/// R1: for a pair even, and now and then odd, which has to be refused.
fn first(draft: &mut Draft, instruction: &Instruction) -> usize {
    let r1 = draft.dice.register();
    if instruction.pair && !draft.dice.once_in(8) {
        r1 & !1
    } else {
        r1
    }
}

fn set_pair(draft: &mut Draft, r1: usize, value: u64) {
    draft.regs[r1 & !1] = (value >> 32) as u32;
    draft.regs[r1 | 1] = value as u32;
}

/// A word, most often at an edge.
fn factor(dice: &mut Dice) -> u32 {
    if dice.once_in(3) {
        dice.edge_word()
    } else {
        dice.pick(&EDGE_WORDS)
    }
}

/// Sets R1 or its pair, and answers the second operand.
fn operands(draft: &mut Draft, instruction: &Instruction, r1: usize) -> u32 {
    let dice = &mut draft.dice;
    match instruction.name {
        "MR" | "M" => {
            let [high, low, other] = std::array::from_fn(|_| factor(dice));
            set_pair(draft, r1, u64::from(high) << 32 | u64::from(low));
            other
        }
        "DR" | "D" => {
            let (dividend, divisor) = turns::division(dice);
            set_pair(draft, r1, dividend);
            divisor
        }
        "MH" => {
            draft.regs[r1] = factor(dice);
            turns::half(dice)
        }
        _ => {
            let other = turns::half(dice);
            draft.regs[r1] = turns::term(dice, other);
            other
        }
    }
}

/// R2 is often in the pair. Then what is divided and what divides it are not drawn apart.
fn registers(draft: &mut Draft, instruction: &Instruction) -> Vec<u8> {
    let r1 = first(draft, instruction);
    let r2 = match draft.dice.below(8) {
        0 => r1,
        1 => r1 ^ 1,
        _ => draft.dice.register(),
    };
    if r1 | 1 == r2 | 1 {
        let value = turns::edge_pair(&mut draft.dice);
        set_pair(draft, r1, value);
    } else {
        draft.regs[r2] = operands(draft, instruction, r1);
    }
    vec![nibbles(r1, r2)]
}

/// The registers of the address come last: they may be those of the first operand.
fn storage(draft: &mut Draft, instruction: &Instruction, width: u32) -> Vec<u8> {
    let r1 = first(draft, instruction);
    let (index, base) = (draft.dice.register(), draft.dice.register());
    let other = operands(draft, instruction, r1);
    let at = draft.place(width, width, false, base == 0 && index == 0);
    let displacement = draft.reach(at, base, index);
    draft.plant(at, &other.to_be_bytes()[4 - width as usize..]);
    four(r1, index, base, displacement)
}

fn shift(draft: &mut Draft, instruction: &Instruction) -> Vec<u8> {
    let r1 = first(draft, instruction);
    let (r3, base) = (draft.dice.register(), draft.dice.register());
    let amount = match draft.dice.below(3) {
        0 => draft.dice.below(64),
        _ => draft.dice.pick(&turns::AMOUNTS),
    };
    if !draft.dice.once_in(4) {
        shifted(draft, instruction, r1, amount);
    }
    let held = if base == 0 { 0 } else { draft.regs[base] };
    let high = draft.dice.displacement() & 0xFC0;
    four(r1, r3, base, amount.wrapping_sub(held) & 63 | high)
}

/// What is shifted: something at which this amount turns, or the edges of words.
fn shifted(draft: &mut Draft, instruction: &Instruction, r1: usize, amount: u32) {
    let dice = &mut draft.dice;
    let bits = if instruction.pair { 64 } else { 32 };
    let value = match dice.below(3) {
        0 => turns::edge_pair(dice),
        _ => turns::shifted(dice, amount, bits),
    };
    if instruction.pair {
        set_pair(draft, r1, value);
    } else {
        draft.regs[r1] = value as u32;
    }
}
