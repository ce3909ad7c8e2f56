//! Loops by dice, of any instructions of the set, anywhere in a page or over its end.

use super::good::good;
use super::layout::{some_next, Layout, E, PAGE};
use super::Program;
use crate::assemble::{rx, BCT};
use crate::dice::Dice;
use crate::set::SET;

pub const CASES: u32 = 2_000;

pub fn mixed(_: u32, dice: &mut Dice) -> Program {
    let mut layout = Layout::new(dice);
    let start = give_pages(&mut layout, dice);
    layout.begin(start);
    if dice.once_in(4) {
        let through = layout.through_another(dice);
        layout.register(13, through);
    }
    for page in [layout.data, layout.away] {
        for displacement in [0, 0x7F8, 0xFF4] {
            layout.scatter(dice, page * PAGE + displacement, 24);
        }
    }
    for _ in 0..3 + dice.below(5) {
        let one = &SET[dice.below(SET.len() as u32) as usize];
        let instruction = good(dice, &mut layout, one);
        layout.add(instruction);
    }
    layout.add(rx(BCT, 11, 0, 12, 0));
    layout.register(11, 2 + dice.below(3));
    layout.finish()
}

/// Gives the pages their words; tells where the code is to begin.
fn give_pages(layout: &mut Layout, dice: &mut Dice) -> u32 {
    let end = layout.shape(dice, layout.code);
    for page in [layout.data, layout.away] {
        layout.shape(dice, page);
    }
    for page in [layout.code, layout.data, layout.away] {
        let next = some_next(dice);
        layout.give_next(dice, page + 1, next);
        if dice.once_in(12) {
            let word = layout.word(page);
            layout.page(page, word | E);
        }
    }
    let before = match dice.below(2) {
        0 => 2 * (1 + dice.below(16)),
        _ => 2 * (1 + dice.below(end / 2 - 1)),
    };
    layout.code * PAGE + end - before
}
