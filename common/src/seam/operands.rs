//! Loops with an operand at an end of its page, which may move from round to round: each instruction that has one, in pages of both kinds
//! and in both halves, and at the end of a memory that is a single frame.

use super::good::{first_register, in_storage, width, IN_STORAGE};
use super::layout::{any_marks, some_next, Layout, G, H, HALF, M, OPEN, PAGE, W};
use super::{Grid, Program};
use crate::assemble::{rr, rs, rx, si, ss, AR, BCT};
use crate::dice::Dice;
use crate::set::{Instruction, Shape};

/// Where the operand begins, see `displacement`.
const PLACES: u32 = 8;

/// A whole page, either half of a frame, and a whole page with which memory ends.
const SHAPES: u32 = 4;

/// Of the operand's page and of the one behind it.
const MARKS: [(u16, u16); 5] = [(0, 0), (G, G), (W | G, W | G), (W | G, 0), (W | G, G)];

pub const CASES: u32 = IN_STORAGE * PLACES * SHAPES * MARKS.len() as u32;

pub fn operands(case: u32, dice: &mut Dice) -> Program {
    let mut grid = Grid(case);
    let one = in_storage(grid.below(IN_STORAGE));
    let place = grid.below(PLACES);
    let shape = grid.below(SHAPES);
    let marks = grid.pick(&MARKS);
    let mut layout = Layout::new(dice);
    let end = give_pages(&mut layout, dice, shape, marks);
    layout.begin(layout.code * PAGE + 0x100 + 2 * dice.below(200));
    let bytes = bytes_of(dice, one);
    let at = layout.data * PAGE + displacement(place, end, bytes, width(one));
    layout.scatter(dice, at & !7, bytes.min(24));
    let instruction = reaching(&mut layout, dice, one, at, bytes);
    layout.add(rr(AR, 8, 1));
    layout.add(instruction);
    layout.add(rr(AR, 14, 9));
    layout.add(rx(BCT, 11, 0, 12, 0));
    let on = width(one);
    layout.register(9, dice.pick(&[0, 0, on, on.wrapping_neg()]));
    layout.register(11, 3);
    layout.finish()
}

/// Gives the pages their words; tells where the page of the operand ends.
fn give_pages(layout: &mut Layout, dice: &mut Dice, shape: u32, marks: (u16, u16)) -> u32 {
    let next = some_next(dice);
    layout.give_next(dice, layout.data + 1, next);
    let bits = [0, M, M | H, 0][shape as usize];
    let word = layout.word(layout.data);
    layout.page(layout.data, word | bits);
    if shape == 3 {
        // Of the frame that there is, code and operand have a page each.
        layout.program.memory.truncate(PAGE as usize);
        for page in [layout.code, layout.data, layout.away] {
            layout.page(page, OPEN | any_marks(dice));
        }
        layout.page(layout.data + 1, OPEN | dice.pick(&[0, 1, 1, 63]));
    }
    layout.mark(layout.data, marks.0);
    layout.mark(layout.data + 1, marks.1);
    if bits == 0 {
        PAGE
    } else {
        HALF
    }
}

/// How long the operand is.
fn bytes_of(dice: &mut Dice, one: &Instruction) -> u32 {
    match one.shape {
        Shape::Multiple { stores } => 4 * dice.pick(&[1, 2, 3, if stores { 16 } else { 7 }]),
        Shape::Fields { .. } => dice.pick(&[1, 2, 4, 8, 60, 256]),
        _ => width(one),
    }
}

/// Up to the end, one short of it, one past it, by a byte past it, off its boundary in the midst of the page, behind the end, at the
/// beginning, half past the end.
fn displacement(place: u32, end: u32, bytes: u32, width: u32) -> u32 {
    match place {
        0 => end - bytes,
        1 => end - bytes - width,
        2 => end - bytes + width,
        3 => end - bytes + 1,
        4 => 0x403 - width / 2,
        5 => end,
        6 => 0,
        _ => (end - bytes / 2) & !(width - 1),
    }
}

/// The instruction, with its operand at an address; of two fields, either one.
fn reaching(
    layout: &mut Layout,
    dice: &mut Dice,
    one: &Instruction,
    at: u32,
    bytes: u32,
) -> Vec<u8> {
    let code = one.operation;
    let r1 = first_register(dice, one) % 8;
    let shift = dice.pick(&[0, 0, 1, 0xFFF]);
    // Now and then past the map, where a page's number cut short is the operand's.
    let past = if dice.once_in(16) { 0x20_0000 } else { 0 };
    layout.register(14, (at + past).wrapping_sub(shift));
    match one.shape {
        Shape::Multiple { .. } => {
            let last = (u32::from(r1 % 2) + bytes / 4 - 1) as u8;
            rs(code, r1 % 2, last, 14, shift)
        }
        Shape::Immediate { .. } => si(code, dice.edge_byte(), 14, shift),
        Shape::Fields { .. } => {
            let other = dice.pick(&[layout.away * PAGE + 0x400, at ^ 0x40, at + 1, at - 1]);
            layout.register(15, other);
            match dice.once_in(2) {
                true => ss(code, (bytes - 1) as u8, 14, shift, 15, 0),
                false => ss(code, (bytes - 1) as u8, 15, 0, 14, shift),
            }
        }
        _ => rx(code, r1, 0, 14, shift),
    }
}
