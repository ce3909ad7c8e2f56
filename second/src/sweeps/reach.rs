//! Sweeps over what lies at the end of a page, whole or of 2,048 bytes: code,
//! single operands, and LM and STM. The page after it may be anything.

use super::{keep_code, some_operation};
use crate::draft::{rr, rs, rx, Draft};
use crate::machine::{E, H, M, S, U};
use crate::operations as op;
use crate::scene::{Scene, OPEN};
use common::dice::Dice;

/// Bits of a page word, with the displacement at which something ends: a whole
/// page, the midst of one (where nothing does), the lower half and the upper.
pub const SHAPES: [(u16, u32); 4] = [(0, 4_096), (0, 2_048), (M, 2_048), (M | H, 2_048)];

const ALL_SHAPES: u32 = SHAPES.len() as u32;

/// What the page after may be.
pub const NEXT: u32 = 9;

pub const CODE_CASES: u32 = 3 * ALL_SHAPES * 4 * NEXT;
pub const OPERAND_CASES: u32 = OPERANDS.len() as u32 * ALL_SHAPES * 4;
pub const MULTIPLE_CASES: u32 = 2 * 16 * ALL_SHAPES * 4;

const OPERANDS: [u8; 10] = [
    op::L,
    op::ST,
    op::LH,
    op::STH,
    op::IC,
    op::STC,
    op::CLI,
    op::MVI,
    op::TM,
    op::XI,
];

/// The word of a page after one on the frame `before`.
fn next_word(dice: &mut Dice, kind: u32, before: u16, frame: u16) -> u16 {
    match kind {
        0 => OPEN | frame,
        1 => OPEN | E | frame,
        2 => OPEN | M | frame,
        3 => OPEN | M | H | frame,
        4 => S | frame,
        5 => U | frame,
        6 => OPEN | dice.pick(&[0x0040, 0x0080, 0x0100]) | frame,
        7 => OPEN | dice.pick(&[16, 63]),
        _ => OPEN | before,
    }
}

/// Any of them, most often open.
pub fn some_next(dice: &mut Dice) -> u32 {
    if dice.chance(2, 3) {
        0
    } else {
        dice.below(NEXT)
    }
}

/// Two frames apart from these, the second right behind the first in memory or
/// anywhere.
pub fn some_frames(dice: &mut Dice, taken: &[u16]) -> [u16; 2] {
    let is_behind = dice.chance(1, 2);
    loop {
        let first = dice.below(15) as u16;
        let second = match is_behind {
            true => first + 1,
            false => dice.below(16) as u16,
        };
        if first != second && !taken.contains(&first) && !taken.contains(&second) {
            return [first, second];
        }
    }
}

/// Gives two pages their words: the first of this shape, the second of this
/// kind.
pub fn give_pages(
    scene: &mut Scene,
    dice: &mut Dice,
    page: u32,
    frames: [u16; 2],
    (shape, next): (u16, u32),
) {
    scene.draft.page(page, OPEN | shape | frames[0]);
    let word = next_word(dice, next, frames[0], frames[1]);
    scene.draft.page(page + 1, word);
}

/// Gives the data pages new frames and their words.
pub fn give_data(scene: &mut Scene, dice: &mut Dice, shape: u16, next: u32) {
    scene.data_frames = some_frames(dice, &scene.code_frames);
    let (page, frames) = (scene.data_page, scene.data_frames);
    give_pages(scene, dice, page, frames, (shape, next));
}

/// Code that runs up to the end of its page and over it: an instruction of each
/// length at each place before the end, some steps before it and after it.
pub fn code(case: u32, dice: &mut Dice) -> Draft {
    let length = 2 * (case % 3) + 2;
    let (shape, end) = SHAPES[(case / 3 % ALL_SHAPES) as usize];
    let before = 2 * (case / (3 * ALL_SHAPES) % 4) + 2;
    let next = case / (3 * ALL_SHAPES * 4);
    let mut scene = Scene::new(dice);
    scene.code_frames = some_frames(dice, &scene.data_frames);
    let (page, frames) = (scene.code_page, scene.code_frames);
    give_pages(&mut scene, dice, page, frames, (shape, next));
    let lead = dice.below(4);
    scene.offset = end - before - 2 * lead;
    for _ in 0..lead {
        add_two_bytes(&mut scene, dice);
    }
    let code = some_operation(dice, length);
    let instruction = scene.good(dice, code);
    scene.add(instruction);
    let number = scene.take();
    scene.add(rx(op::LA, number, 0, 0, dice.below(4_096)));
    for _ in 0..3 {
        add_two_bytes(&mut scene, dice);
    }
    scene.finish(dice)
}

fn add_two_bytes(scene: &mut Scene, dice: &mut Dice) {
    let code = dice.pick(&[op::LR, op::LTR, op::AR, op::XR, op::LCR]);
    let number = scene.take();
    let other = dice.below(16) as u8;
    scene.add(rr(code, number, other));
}

/// An operand that is the last in its page, the last but one, the first past it,
/// or the first of all.
pub fn operands(case: u32, dice: &mut Dice) -> Draft {
    let all = OPERANDS.len() as u32;
    let code = OPERANDS[(case % all) as usize];
    let (shape, end) = SHAPES[(case / all % ALL_SHAPES) as usize];
    let size = op::boundary(code);
    let displacement = [end - size, end - 2 * size, end, 0][(case / (all * ALL_SHAPES)) as usize];
    let mut scene = Scene::new(dice);
    let next = some_next(dice);
    give_data(&mut scene, dice, shape, next);
    let target = scene.data_at(displacement);
    let content: Vec<u8> = (0..12).map(|_| dice.edge_byte()).collect();
    scene.put(target & !3, &content);
    let instruction = scene.aimed(dice, code, target);
    scene.add(instruction);
    keep_code(&mut scene, dice);
    if op::stores(code) {
        // The word before it too, where the page has one.
        let start = scene.data_at((displacement & !3).saturating_sub(4));
        scene.fold(dice, start, 2);
    }
    scene.finish(dice)
}

/// LM and STM of each number of words, up to the end of a page, a word short of
/// it, a word past it, or anywhere over it.
pub fn multiples(case: u32, dice: &mut Dice) -> Draft {
    let code = [op::LM, op::STM][(case % 2) as usize];
    let words = case / 2 % 16 + 1;
    let (shape, end) = SHAPES[(case / 32 % ALL_SHAPES) as usize];
    let left = match case / (32 * ALL_SHAPES) {
        0 => words + 1,
        1 => words,
        2 => words - 1,
        _ => dice.below(words),
    };
    let mut scene = Scene::new(dice);
    let next = some_next(dice);
    give_data(&mut scene, dice, shape, next);
    let target = scene.data_at(end - 4 * left);
    let r1 = dice.below(16) as u8;
    let r3 = ((u32::from(r1) + words - 1) % 16) as u8;
    if code == op::LM {
        let content: Vec<u8> = (0..4 * words).map(|_| dice.byte()).collect();
        scene.put(target, &content);
        let (base, d) = scene.based(dice, target);
        scene.add(rs(code, r1, r3, base, d));
        return scene.finish(dice);
    }
    for number in 0..16 {
        scene.draft.register(number, dice.word());
    }
    let (base, d) = scene.based(dice, target);
    scene.add(rs(code, r1, r3, base, d));
    scene.fold(dice, target - 4, words + 2);
    scene.finish(dice)
}
