//! Loops over the end of a page: an instruction of each length at each place before the end, in pages of both kinds, with a next page
//! of every kind.

use super::good::{good, some_of_length};
use super::layout::{Layout, G, H, HALF, M, NEXT, PAGE};
use super::{Grid, Program};
use crate::assemble::{rr, rx, AR, BCT, LA, LCR};
use crate::dice::Dice;

const LENGTHS: [usize; 3] = [2, 4, 6];

/// Bits of the page's word, and where it ends; or a place where nothing ends.
const SHAPES: [(u16, u32); 4] = [(0, PAGE), (M, HALF), (M | H, HALF), (0, HALF)];

/// So many bytes before the end the instruction begins.
const BEFORE: [u32; 5] = [2, 4, 6, 8, 10];

pub const CASES: u32 = (LENGTHS.len() * BEFORE.len() * SHAPES.len()) as u32 * NEXT * 2;

pub fn page_ends(case: u32, dice: &mut Dice) -> Program {
    let mut grid = Grid(case);
    let length = grid.pick(&LENGTHS);
    let before = grid.pick(&BEFORE);
    let (shape, end) = grid.pick(&SHAPES);
    let next = grid.below(NEXT);
    let marks = grid.pick(&[0, G]);
    // Behind the last page there is none.
    let mut layout = match dice.below(20) {
        0 => Layout::at(dice, 511),
        _ => Layout::new(dice),
    };
    let page = layout.code;
    layout.mark(page, marks);
    let word = layout.word(page);
    layout.page(page, word | shape);
    layout.give_next(dice, page + 1, next);
    layout.begin(page * PAGE + end - before - 4);
    layout.add(rr(AR, 1, 2));
    layout.add(rr(LCR, 2, 1));
    let one = some_of_length(dice, length);
    let instruction = good(dice, &mut layout, one);
    layout.add(instruction);
    layout.add(rx(LA, 5, 5, 0, 1));
    layout.add(rx(BCT, 11, 0, 12, 0));
    layout.register(11, 3);
    layout.finish()
}
