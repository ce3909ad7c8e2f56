//! Loops with a branch: each to every kind of place, taken or not, with the marks of both pages there or not.

use super::layout::{Layout, G, HALF, M, NEXT, PAGE};
use super::{Grid, Program};
use crate::assemble::{rr, rs, rx, BAL, BALR, BC, BCR, BCT, BCTR, BXH, BXLE, LA};
use crate::dice::Dice;
use crate::set::length;

const BRANCHES: [u8; 8] = [BCR, BC, BALR, BAL, BCTR, BCT, BXH, BXLE];

/// Where a branch may go, see `target`.
const TARGETS: u32 = 21;

/// No branch by register 0; in the formats that have no such rule, an address in page 0.
const BY_ZERO: u32 = 20;

pub const CASES: u32 = BRANCHES.len() as u32 * TARGETS * 2 * 4;

pub fn branches(case: u32, dice: &mut Dice) -> Program {
    let mut grid = Grid(case);
    let code = grid.pick(&BRANCHES);
    let to = grid.below(TARGETS);
    let is_taken = grid.pick(&[true, false]);
    let (own, others) = (grid.pick(&[0, G]), grid.pick(&[0, G]));
    let mut layout = Layout::new(dice);
    let end = layout.shape(dice, layout.code);
    layout.mark(layout.code, own);
    for page in [layout.away, layout.away + 1, layout.code + 1] {
        layout.mark(page, others);
    }
    layout.begin(layout.code * PAGE + 2 * dice.below(800));
    layout.add(rx(LA, 1, 1, 0, 1));
    // Behind the branch.
    let back = layout.here + length(code) as u32;
    layout.register(10, back);
    let address = target(&mut layout, dice, to, (back, end));
    if to >= OUTSIDE {
        let mut away = rx(LA, 2, 2, 0, 16);
        away.extend(rr(BCR, 15, 10));
        layout.put(address, &away);
    }
    let branch = branch(&mut layout, dice, code, is_taken, (address, to == BY_ZERO));
    layout.add(branch);
    layout.add(rx(LA, 2, 2, 0, 1));
    layout.add(rx(BCT, 11, 0, 12, 0));
    layout.register(11, 3);
    layout.finish()
}

/// Targets from this one on lie outside the loop, and have code of their own that goes back to it.
const OUTSIDE: u32 = 5;

/// Of the code's page the end is known, and where the instruction behind the branch lies.
fn target(layout: &mut Layout, dice: &mut Dice, to: u32, (back, end): (u32, u32)) -> u32 {
    let start = layout.program.counter;
    let (code, away) = (layout.code * PAGE, layout.away * PAGE);
    match to {
        0 => start,
        // Itself.
        1 => layout.here,
        2 => back,
        // Over the next instruction.
        3 => back + 4,
        // The odd place in the loop at which there is an operation.
        4 => start + 1,
        // Odd, in the code's page or in another, with code there.
        5 => dice.pick(&[code, away]) + 0x701,
        6..=8 => code + end - 2 * (to - 5),
        // The first byte of the page behind.
        9 => code + PAGE,
        10..=15 => away + displacement_away(layout, dice, to),
        16 => 0x20_0000,
        17 => 0xFF_FFFE,
        18 => 0xFF_FFFF,
        // The loop itself, through another page.
        19 => layout.through_another(dice) + (back - start),
        _ => 2 * dice.below(100),
    }
}

/// In another page: anywhere; near its end; in one that is closed; past the end of one of 2,048 bytes.
fn displacement_away(layout: &mut Layout, dice: &mut Dice, to: u32) -> u32 {
    let page = layout.away;
    match to {
        10 => 2 * dice.below(1_000),
        11..=13 => {
            let next = dice.below(NEXT);
            layout.give_next(dice, page + 1, next);
            layout.shape(dice, page) - 2 * (to - 10)
        }
        14 => {
            let closed = 6 + dice.below(4);
            layout.give_next(dice, page, closed);
            0x100
        }
        _ => {
            let word = layout.word(page);
            layout.page(page, word | M);
            HALF
        }
    }
}

/// The branch, with R9 for its target, R3 for its link, count or sum, and R4 and R5 to be added and compared.
fn branch(
    layout: &mut Layout,
    dice: &mut Dice,
    code: u8,
    is_taken: bool,
    (address, by_zero): (u32, bool),
) -> Vec<u8> {
    let top = dice.pick(&[0, 0, 0x7F00_0000, 0xFF00_0000]);
    layout.register(9, address | top);
    // A link or a count may go where the target came from.
    let r1 = if dice.once_in(6) { 9 } else { 3 };
    let mask = if is_taken { 15 } else { dice.pick(&[0, 1, 8]) };
    match code {
        BCR | BALR | BCTR => {
            layout.register(3, if is_taken { 9 } else { 1 });
            let r1 = if code == BCR { mask } else { r1 };
            rr(code, r1, if by_zero { 0 } else { 9 })
        }
        BC | BAL | BCT => {
            layout.register(3, if is_taken { 9 } else { 1 });
            let r1 = if code == BC { mask } else { r1 };
            let (index, base) = dice.pick(&[(0, 9), (9, 0)]);
            match by_zero {
                true => rx(code, r1, 0, 0, address),
                false => rx(code, r1, index, base, 0),
            }
        }
        _ => {
            let is_above = is_taken == (code == BXH);
            give_index(layout, dice, is_above);
            let base = if by_zero { 0 } else { 9 };
            let displacement = if by_zero { address } else { 0 };
            rs(code, r1, dice.pick(&[4, 4, 5, 3]), base, displacement)
        }
    }
}

/// R3, with R4, R5 or itself added to it, comes out above the comparand, or does not; now and then just not.
fn give_index(layout: &mut Layout, dice: &mut Dice, is_above: bool) {
    let (term, comparand) = match is_above {
        true => (10_i32, 0_i32),
        false => (-10, dice.pick(&[1_000, -9])),
    };
    layout.register(3, term as u32);
    layout.register(4, 1);
    layout.register(5, comparand as u32);
}
