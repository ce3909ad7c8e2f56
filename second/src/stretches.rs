//! Stretches of code for comparing listings, each with a start and a room for
//! the text, most of them at the edges where an answer turns.

use crate::listing::{lines, ADDRESSES};
use crate::operations::{find, length, OPERATIONS};
use common::dice::Dice;

/// One call of a listing.
#[derive(Clone, Debug, PartialEq, Eq)]
pub struct Case {
    pub code: Vec<u8>,
    pub start: u32,
    /// How many bytes the output has.
    pub room: usize,
}

/// How many cases are drawn from the whole mixture.
const MIXED: u64 = 12_000;

/// Halfwords that stand in one stretch together.
const PACKED: u64 = 32;

/// Every stretch of up to so many bytes has cases with every room.
const SHORT: u64 = 40;

/// Sizes of the long stretches.
const LONG: [usize; 4] = [4_095, 4_096, 65_537, 100_001];

/// The cases of a seed, the same everywhere.
pub fn cases(seed: u64) -> impl Iterator<Item = Case> {
    let each = move |kind: u64, count: u64, make: fn(u64, &mut Dice) -> Case| {
        (0..count).map(move |index| make(index, &mut Dice::for_one(seed, kind << 32 | index)))
    };
    let short = (0..=SHORT)
        .flat_map(move |size| every_room(size as usize, &mut Dice::for_one(seed, 5 << 32 | size)));
    each(1, 256 * 8, first_byte)
        .chain(each(2, 1 << 16, alone))
        .chain(each(3, (1 << 16) / PACKED, packed))
        .chain(each(4, MIXED, mixed))
        .chain(short)
        .chain(each(6, LONG.len() as u64, long))
}

/// Each first byte, with up to seven bytes after it.
fn first_byte(index: u64, dice: &mut Dice) -> Case {
    let mut code = vec![(index >> 3) as u8];
    code.extend(bytes(dice, index as usize & 7));
    let room = whole(&code) + dice.below(3) as usize;
    let start = start(dice, code.len());
    Case { code, start, room }
}

/// Each first halfword, with up to four bytes after it.
fn alone(index: u64, dice: &mut Dice) -> Case {
    let mut code = (index as u16).to_be_bytes().to_vec();
    let more = dice.below(5) as usize;
    code.extend(bytes(dice, more));
    anywhere(code, dice)
}

/// Many first halfwords, each with the rest of its instruction; all are listed.
fn packed(index: u64, dice: &mut Dice) -> Case {
    let mut code = Vec::new();
    for number in index * PACKED..(index + 1) * PACKED {
        // An odd factor leaves none out, and puts unlike ones side by side.
        let halfword = (number as u16).wrapping_mul(40_503).to_be_bytes();
        code.extend(halfword);
        if find(halfword[0]).is_some() {
            code.extend(bytes(dice, length(halfword[0]) as usize - 2));
        }
    }
    let start = inside(dice, code.len());
    let room = whole(&code);
    Case { code, start, room }
}

fn mixed(_: u64, dice: &mut Dice) -> Case {
    let size = dice.below(80) as usize;
    let code = program(dice, size);
    anywhere(code, dice)
}

/// A stretch of this size with each room up to one byte more than it needs.
fn every_room(size: usize, dice: &mut Dice) -> impl Iterator<Item = Case> {
    let code = program(dice, size);
    let start = inside(dice, size);
    (0..=whole(&code) + 1).map(move |room| Case {
        code: code.clone(),
        start,
        room,
    })
}

fn long(index: u64, dice: &mut Dice) -> Case {
    let size = LONG[index as usize];
    let code = program(dice, size);
    let room = whole(&code) - dice.below(2) as usize;
    let start = inside(dice, size);
    Case { code, start, room }
}

/// Code with a start and a room by dice.
fn anywhere(code: Vec<u8>, dice: &mut Dice) -> Case {
    let room = room(dice, &code);
    let start = start(dice, code.len());
    Case { code, start, room }
}

fn bytes(dice: &mut Dice, count: usize) -> Vec<u8> {
    (0..count).map(|_| dice.edge_byte()).collect()
}

/// Instructions of the set for the most part, cut to this size.
fn program(dice: &mut Dice, size: usize) -> Vec<u8> {
    let mut code = Vec::new();
    while code.len() < size {
        let first = if dice.chance(3, 4) {
            let row = dice.pick(&OPERATIONS);
            row.code
        } else {
            dice.byte()
        };
        code.push(first);
        code.extend(bytes(dice, length(first) as usize - 1));
    }
    code.truncate(size);
    code
}

/// A start; once in sixteen it is out of range.
fn start(dice: &mut Dice, size: usize) -> u32 {
    match dice.below(16) {
        0 => dice.pick(&[ADDRESSES, ADDRESSES + 1, 1 << 31, u32::MAX]),
        _ => inside(dice, size),
    }
}

/// A start in range, often such that addresses wrap within the stretch.
fn inside(dice: &mut Dice, size: usize) -> u32 {
    match dice.below(4) {
        0 => ADDRESSES - 1 - dice.below(size as u32 + 2),
        1 => dice.pick(&[0, 1, 0x00_FFFF, 0x0F_FFFF, ADDRESSES - 2, ADDRESSES - 1]),
        _ => dice.below(ADDRESSES),
    }
}

/// How many bytes all lines take.
fn whole(code: &[u8]) -> usize {
    lines(code, 0).iter().map(|line| line.text.len()).sum()
}

/// A room, most often at the end of some line or a byte beside it.
fn room(dice: &mut Dice, code: &[u8]) -> usize {
    let all = lines(code, 0);
    let before = dice.below(all.len() as u32 + 1) as usize;
    let end: usize = all[..before].iter().map(|line| line.text.len()).sum();
    match dice.below(8) {
        0 => 0,
        1 => whole(code) + dice.below(5_000) as usize,
        2 => dice.below(whole(code) as u32 + 2) as usize,
        3 | 4 => end,
        5 => end + 1,
        6 => end.saturating_sub(1),
        _ => whole(code),
    }
}
