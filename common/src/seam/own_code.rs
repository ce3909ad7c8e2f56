//! Loops that change their own code: each store, into each instruction of the loop, with the end of the page at each halfword of it.

use super::layout::{some_next, Layout, E, G, PAGE, W};
use super::{Grid, Program};
use crate::assemble::{
    rr, rs, rx, si, ss, AR, BC, BCT, BCTR, CLC, IC, LA, LR, MVC, MVI, NI, OI, ST, STC, STH, STM, XI,
};
use crate::dice::Dice;
use crate::set::length;

const STORES: [u8; 9] = [ST, STH, STC, STM, MVI, NI, OI, XI, MVC];

/// Which instruction is changed: the one before the store, the store itself, the next one, the one after, the branch at the end.
const TARGETS: u32 = 5;

/// Which of its bytes: the operation, the registers, the end of the displacement.
const CHANGED: [u32; 3] = [0, 1, 3];

/// 0 for a loop that lies in one page; else the page ends so many halfwords behind the loop's beginning. The loop has 11 or 12.
const CUTS: u32 = 14;

pub const CASES: u32 = (STORES.len() * CHANGED.len()) as u32 * TARGETS * CUTS;

/// What an operation may be changed to: of every length, and none at all.
const OPERATIONS: [u8; 7] = [0x00, AR, LR, BCTR, BC, IC, CLC];

/// Where a store goes: from an address on, so many bytes, one of which is to change.
struct Unit {
    first: u32,
    bytes: u32,
    changes: u32,
}

pub fn own_code(case: u32, dice: &mut Dice) -> Program {
    let mut grid = Grid(case);
    let store = grid.pick(&STORES);
    let target = grid.below(TARGETS);
    let changed = grid.pick(&CHANGED);
    let cut = grid.below(CUTS);
    let mut layout = Layout::new(dice);
    let start = place(&mut layout, dice, cut);
    layout.begin(start);
    // Of some stores the first alone changes anything: often it is a quick one.
    let is_marked = dice.once_in(2);
    if is_marked {
        layout.mark(layout.code, W | G);
    }
    if dice.once_in(2) {
        let through = layout.through_another(dice);
        layout.register(13, through);
        if is_marked {
            layout.mark(layout.other, W | G);
        }
    }
    let size = length(store) as u32;
    let before = [2, 6, 6 + size, 10 + size, 14 + size][target as usize];
    let unit = unit(dice, store, start + before, changed);
    let code = stored(dice, store, &unit, changed, unit.first - start);
    layout.add(rr(AR, if store == MVC { 14 } else { 8 }, 6));
    layout.add(rx(LA, 2, 2, 0, 1));
    layout.add(code);
    layout.add(rx(LA, 3, 3, 0, 1));
    layout.add(rx(LA, 4, 4, 0, 1));
    layout.add(rx(BCT, 11, 0, 12, 0));
    layout.register(11, 3);
    give(&mut layout, dice, store, &unit, changed);
    layout.finish()
}

/// Where the loop begins: anywhere in a page, or before its end. Stores into the page are seldom barred.
fn place(layout: &mut Layout, dice: &mut Dice, cut: u32) -> u32 {
    let end = layout.shape(dice, layout.code);
    let barred = if dice.once_in(16) { E } else { 0 };
    let word = layout.word(layout.code);
    layout.page(layout.code, word | barred);
    let next = some_next(dice);
    layout.give_next(dice, layout.code + 1, next);
    let displacement = match cut {
        0 => 2 * dice.below(end / 2 - 20),
        _ => end - 2 * cut,
    };
    layout.code * PAGE + displacement
}

fn unit(dice: &mut Dice, store: u8, target: u32, changed: u32) -> Unit {
    let changes = target + changed;
    let (first, bytes) = match store {
        ST => (changes & !3, 4),
        STH => (changes & !1, 2),
        STM => (changes & !3, 8),
        MVC => (target, changed + 1 + dice.below(3)),
        _ => (changes, 1),
    };
    Unit {
        first,
        bytes,
        changes,
    }
}

/// The store itself. R8 and R9 are stored, R14 says where bytes are moved from.
fn stored(dice: &mut Dice, store: u8, unit: &Unit, changed: u32, displacement: u32) -> Vec<u8> {
    match store {
        ST | STH | STC => rx(store, 8, 0, 13, displacement),
        STM => rs(STM, 8, 9, 13, displacement),
        MVC => ss(MVC, unit.bytes as u8 - 1, 13, displacement, 14, 0),
        MVI => si(MVI, fresh(dice, changed, 0x22), 13, displacement),
        NI => si(NI, dice.pick(&[0x0F, 0xBF, 0xFE, 0x00]), 13, displacement),
        _ => si(
            store,
            dice.pick(&[0x01, 0x02, 0x04, 0x10]),
            13,
            displacement,
        ),
    }
}

/// A byte in another's place.
fn fresh(dice: &mut Dice, changed: u32, old: u8) -> u8 {
    match changed {
        0 => dice.pick(&OPERATIONS),
        1 => old ^ dice.pick(&[0x01, 0x10, 0x11]),
        _ => old.wrapping_add(dice.pick(&[1, 2, 4])),
    }
}

/// What is stored: the bytes that are there, but for one, which in the next round may be another again.
fn give(layout: &mut Layout, dice: &mut Dice, store: u8, unit: &Unit, changed: u32) {
    let mut bytes: Vec<u8> = (0..unit.bytes)
        .map(|i| layout.byte(unit.first + i))
        .collect();
    let at = (unit.changes - unit.first) as usize;
    bytes[at] = fresh(dice, changed, bytes[at]);
    let step = if changed == 3 { dice.below(3) } else { 0 };
    if store == MVC {
        return give_rows(layout, dice, bytes, at, step as u8);
    }
    let mut rest = bytes.split_off(bytes.len().min(4));
    rest.resize(4, 0);
    let word = |bytes: &[u8]| {
        bytes
            .iter()
            .fold(0, |word, byte| word << 8 | u32::from(*byte))
    };
    // The round's first instruction has added this once before the first store.
    let step = step << (8 * (bytes.len() - 1 - at));
    layout.register(6, step);
    layout.register(8, word(&bytes).wrapping_sub(step));
    layout.register(9, word(&rest));
}

/// The bytes of each round in a row, in the pages of data. R14 goes on by their length before each move.
fn give_rows(layout: &mut Layout, dice: &mut Dice, mut bytes: Vec<u8>, at: usize, step: u8) {
    let length = bytes.len() as u32;
    let first = layout.data * PAGE + dice.pick(&[0x40, 0x7FE, 0xFFE]);
    for round in 0..MOST_ROUNDS {
        layout.put(first + round * length, &bytes);
        bytes[at] = bytes[at].wrapping_add(step);
    }
    layout.register(6, length);
    layout.register(14, first - length);
}

/// As many as a loop may come to that changes its own count.
const MOST_ROUNDS: u32 = 6;
