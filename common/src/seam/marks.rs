//! Loops in which pages get their marks: each instruction with an operand in storage goes from one page to another and back, whose marks
//! are there or not, and a second one loads from one of them or stores there.

use super::good::{first_register, in_storage, width, IN_STORAGE};
use super::layout::{any_marks, Layout, E, G, PAGE, W};
use super::{Grid, Program};
use crate::assemble::{rr, rs, rx, si, ss, AR, BCT, CLI, IC, L, LCR, MVI, ST, STC};
use crate::dice::Dice;
use crate::set::{Instruction, Shape};

/// W without G may stand in a map that is lent.
const MARKS: [u16; 4] = [0, G, W, W | G];

pub const CASES: u32 = IN_STORAGE * 4 * 4 * 2;

pub fn marks(case: u32, dice: &mut Dice) -> Program {
    let mut grid = Grid(case);
    let one = in_storage(grid.below(IN_STORAGE));
    let (first, second) = (grid.pick(&MARKS), grid.pick(&MARKS));
    let marks = grid.pick(&[0, G]);
    let mut layout = Layout::new(dice);
    let code = layout.code;
    layout.mark(code, marks);
    for (page, marks) in [(layout.data, first), (layout.data + 1, second)] {
        layout.shape(dice, page);
        layout.mark(page, marks);
    }
    if dice.once_in(8) {
        let word = layout.word(layout.data + 1);
        layout.page(layout.data + 1, word | E);
    }
    layout.begin(code * PAGE + 2 * dice.below(600));
    let displacement = 4 * dice.below(0x100);
    layout.register(14, layout.data * PAGE + displacement);
    layout.register(7, PAGE);
    aim_second(&mut layout, dice, displacement);
    for page in [layout.data, layout.data + 1] {
        layout.scatter(dice, page * PAGE + displacement, 16);
    }
    let instruction = touching(dice, one);
    layout.add(instruction);
    layout.add(rr(AR, 14, 7));
    layout.add(rr(LCR, 7, 7));
    layout.add(touching_again(dice));
    layout.add(rx(BCT, 11, 0, 12, 0));
    layout.register(11, 4);
    layout.finish()
}

/// Where the second instruction goes, and the second of two fields: to the same pages, the code's own, or a third one.
fn aim_second(layout: &mut Layout, dice: &mut Dice, displacement: u32) {
    let data = layout.data * PAGE;
    let own = layout.code * PAGE + 0x800;
    let away = layout.away * PAGE;
    for register in [13, 15] {
        let page = dice.pick(&[data, data, data + PAGE, own, away]);
        layout.register(register, page + displacement);
    }
    let marks = any_marks(dice);
    layout.mark(layout.away, marks);
}

/// With its operand at R14, and a second field at R15. R7 and what is above it stay as they are.
fn touching(dice: &mut Dice, one: &Instruction) -> Vec<u8> {
    let code = one.operation;
    let r1 = first_register(dice, one) % 6;
    match one.shape {
        Shape::Multiple { stores } => {
            let last = if stores { 15 } else { 6 };
            rs(code, r1, last, 14, 0)
        }
        Shape::Immediate { .. } => si(code, dice.edge_byte(), 14, 0),
        Shape::Fields { .. } => ss(code, dice.pick(&[0, 3, 15]), 14, 0, 15, 0),
        _ => rx(code, r1, 0, 14, 4 - width(one)),
    }
}

fn touching_again(dice: &mut Dice) -> Vec<u8> {
    match dice.below(3) {
        0 => rx(dice.pick(&[L, IC]), 1, 0, 13, 0),
        1 => rx(dice.pick(&[ST, STC]), 1, 0, 13, 0),
        _ => si(dice.pick(&[CLI, MVI]), dice.edge_byte(), 13, 0),
    }
}
