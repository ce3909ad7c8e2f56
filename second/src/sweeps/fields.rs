//! Sweeps over long operands: moves, compares, LM and STM.

use super::keep_code;
use crate::draft::{rs, rx, si, ss, Draft};
use crate::machine::{E, G, H, M, W};
use crate::operations::{self as op};
use crate::scene::{fault_word, open_word, Scene, FAULTS, OPEN};
use common::dice::Dice;

/// A move or compare with one field or both in a bad page, at once or from
/// the second page on.
pub fn two_fields(case: u32, dice: &mut Dice) -> Draft {
    let code = [op::MVC, op::CLC][(case % 2) as usize];
    let which = case / 2 % 3;
    let fault = case / 6 % FAULTS;
    let straddle = case / (6 * FAULTS) == 1;
    let mut scene = Scene::new(dice);
    // The first field in the data pages, the second in two pages of its own.
    let (other_page, other_frames) = two_more_pages(&mut scene, dice);
    let bad = u32::from(straddle);
    if which != 1 {
        let word = fault_word(dice, fault, scene.data_frames[bad as usize]);
        scene.draft.page(scene.data_page + bad, word);
    }
    if which != 0 {
        let kind = match which {
            2 => dice.below(FAULTS),
            _ => fault,
        };
        let word = fault_word(dice, kind, other_frames[bad as usize]);
        scene.draft.page(other_page + bad, word);
    }
    let length = dice.pick(&[3u8, 7, 20, 255]);
    let from_end = |dice: &mut Dice| match straddle {
        true => 4_095 - dice.below(u32::from(length)),
        false => dice.pick(&[0, 500, 2_040, 2_048]),
    };
    let first = scene.data_at(from_end(dice));
    let second = other_page * 4_096 + from_end(dice);
    let content: Vec<u8> = (0..12).map(|_| dice.edge_byte()).collect();
    scene.put(second, &content);
    if code == op::CLC {
        scene.put(first, &content);
    }
    add_two_fields(&mut scene, dice, (code, length), first, second);
    keep_code(&mut scene, dice);
    scene.finish(dice)
}

/// Two open pages apart from the code and the data, with their frames.
fn two_more_pages(scene: &mut Scene, dice: &mut Dice) -> (u32, [u16; 2]) {
    let first = loop {
        let page = dice.below(510);
        let apart = |a: u32| page > a + 1 || page + 1 < a;
        if apart(scene.code_page) && apart(scene.data_page) {
            break page;
        }
    };
    let frames = [scene.data_frames[0] ^ 1, dice.below(16) as u16];
    for index in 0..2 {
        let word = open_word(dice, frames[index as usize], false);
        scene.draft.page(first + index, word);
    }
    (first, frames)
}

/// LM and STM over the end of a page.
pub fn multiple_straddle(case: u32, dice: &mut Dice) -> Draft {
    let code = [op::LM, op::STM][(case % 2) as usize];
    let fault = case / 2 % FAULTS;
    let mut scene = Scene::new(dice);
    let word = fault_word(dice, fault, scene.data_frames[1]);
    scene.draft.page(scene.data_page + 1, word);
    let before = [4, 32, 60][(case / (2 * FAULTS)) as usize];
    let target = scene.data_at(4_096 - before);
    let content: Vec<u8> = (0..64).map(|_| dice.byte()).collect();
    scene.put(target, &content);
    let r1 = dice.below(16) as u8;
    let r3 = (r1 + 15) % 16;
    let (base, d) = scene.based(dice, target);
    scene.add(rs(code, r1, r3, base, d));
    scene.finish(dice)
}

/// LM and STM with every pair of registers.
pub fn multiple_registers(case: u32, dice: &mut Dice) -> Draft {
    let r1 = (case / 16 % 16) as u8;
    let r3 = (case % 16) as u8;
    let words = (u32::from(r3) + 16 - u32::from(r1)) % 16 + 1;
    let mut scene = Scene::new(dice);
    let displacement = dice.pick(&[64, 2_040, 4_096 - 4 * words, 4_092, 4_096]);
    let target = scene.data_at(displacement);
    if case < 256 {
        let content: Vec<u8> = (0..4 * words).map(|_| dice.byte()).collect();
        scene.put(target, &content);
        let (base, d) = scene.based(dice, target);
        scene.add(rs(op::LM, r1, r3, base, d));
        return scene.finish(dice);
    }
    for number in 0..16 {
        if dice.chance(3, 4) {
            scene.draft.register(number, dice.word());
        }
    }
    let (base, d) = scene.based(dice, target);
    scene.add(rs(op::STM, r1, r3, base, d));
    // Read back from one word before on, into other registers.
    if dice.chance(3, 4) {
        let low = dice.below(16) as u8;
        let high = (low + (words.min(15)) as u8) % 16;
        let near = d.saturating_sub(4);
        scene.add(rs(op::LM, low, high, base, near));
    }
    scene.finish(dice)
}

/// Moves and compares of every kind of overlap, read back by folding.
pub fn moves(case: u32, dice: &mut Dice) -> Draft {
    let code = [op::MVC, op::CLC][(case % 2) as usize];
    let length = [0u8, 1, 2, 3, 15, 100, 254, 255][(case / 2 % 8) as usize];
    let apart = [0i64, 1, -1, 2, -2, 3, -3, 255, -255, 256, 1_000][(case / 16 % 11) as usize];
    let mut scene = Scene::new(dice);
    let (first, second) = match case / 176 {
        // In one page, or over its end.
        0 => {
            let first = scene.data_at(dice.pick(&[1_100, 2_040, 2_100]));
            (first, first)
        }
        1 => {
            let first = scene.data_at(4_096 - dice.below(u32::from(length) + 1));
            (first, first)
        }
        // Through two pages that share a frame.
        _ => {
            let alias = alias_of_data(&mut scene, dice);
            let near = dice.pick(&[1_100, 2_040, 2_100]);
            (scene.data_at(near), alias * 4_096 + near)
        }
    };
    let second = (i64::from(second) - apart) as u32;
    let content: Vec<u8> = (0..24).map(|_| dice.byte()).collect();
    scene.put(second, &content);
    if code == op::CLC {
        let same = nearly_same(dice, content);
        scene.put(first, &same);
    }
    add_two_fields(&mut scene, dice, (code, length), first, second);
    if code == op::MVC {
        let start = (first & !3) - 4;
        scene.fold(dice, start, u32::from(length) / 4 + 4);
    } else {
        keep_code(&mut scene, dice);
    }
    scene.finish(dice)
}

/// The content, or half of the time perhaps another byte in it.
fn nearly_same(dice: &mut Dice, mut content: Vec<u8>) -> Vec<u8> {
    let at = dice.below(content.len() as u32) as usize;
    if dice.chance(1, 2) {
        content[at] ^= dice.edge_byte();
    }
    content
}

/// Another page on the frame of the first data page.
fn alias_of_data(scene: &mut Scene, dice: &mut Dice) -> u32 {
    let mut alias = if scene.code_page > 250 { 100 } else { 400 };
    if alias == scene.data_page || alias == scene.data_page + 1 {
        alias += 3;
    }
    let word = open_word(dice, scene.data_frames[0], false);
    scene.draft.page(alias, word);
    alias
}

/// Two pages on one frame: stores through one seen through the other.
pub fn shared_frames(case: u32, dice: &mut Dice) -> Draft {
    let mut scene = Scene::new(dice);
    let frame = scene.data_frames[0];
    let (first, second) = match case % 4 {
        0 => (0, 0),
        1 => (M, M),
        2 => (M, M | H),
        _ => (0, M | H),
    };
    let marks = dice.pick(&[0, 0, W, G, W | G]);
    let closed = dice.pick(&[0, 0, 0, E]);
    scene
        .draft
        .page(scene.data_page, OPEN | first | marks | frame);
    scene
        .draft
        .page(scene.data_page + 1, OPEN | second | closed | frame);
    let near = dice.pick(&[0u32, 4, 100, 1_000, 2_000]);
    let shift = if case % 4 == 3 { 2_048 } else { 0 };
    let a = scene.data_at(near + shift);
    let b = scene.data_at(4_096 + near);
    let content: Vec<u8> = (0..16).map(|_| dice.byte()).collect();
    scene.put(a, &content);
    if case % 4 == 2 {
        scene.put(b, &content[8..]);
    }
    add_through_both(&mut scene, dice, case / 4 % 6, a, b);
    scene.finish(dice)
}

/// Instructions on two places that may share bytes.
fn add_through_both(scene: &mut Scene, dice: &mut Dice, kind: u32, a: u32, b: u32) {
    match kind {
        0 => {
            let r = scene.valued(dice);
            let (x, base, d) = scene.indexed(dice, a);
            scene.add(rx(op::ST, r, x, base, d));
            let r = scene.take();
            let (x, base, d) = scene.indexed(dice, b);
            scene.add(rx(op::L, r, x, base, d));
        }
        1 => {
            let (base, d) = scene.based(dice, b);
            scene.add(si(op::MVI, dice.byte(), base, d));
            let r = scene.take();
            let (x, base, d) = scene.indexed(dice, a);
            scene.add(rx(op::L, r, x, base, d));
        }
        2 => {
            add_fields_of_some_length(scene, dice, op::MVC, a + 1, b);
            scene.fold(dice, a, 4);
        }
        3 => {
            add_fields_of_some_length(scene, dice, op::MVC, a, b + 1);
            scene.fold(dice, a, 4);
        }
        4 => {
            add_fields_of_some_length(scene, dice, op::CLC, a, b);
            keep_code(scene, dice);
        }
        _ => {
            let (base, d) = scene.based(dice, a);
            scene.add(rs(op::STM, 14, 1, base, d));
            let (base, d) = scene.based(dice, b);
            scene.add(rs(op::LM, 4, 7, base, d));
        }
    }
}

fn add_fields_of_some_length(
    scene: &mut Scene,
    dice: &mut Dice,
    code: u8,
    first: u32,
    second: u32,
) {
    let (b1, d1) = scene.based(dice, first);
    let (b2, d2) = scene.based(dice, second);
    scene.add(ss(code, dice.pick(&[3, 7, 30]), b1, d1, b2, d2));
}

fn add_two_fields(
    scene: &mut Scene,
    dice: &mut Dice,
    (code, length): (u8, u8),
    first: u32,
    second: u32,
) {
    let (b1, d1) = scene.based(dice, first);
    let (b2, d2) = scene.based(dice, second);
    scene.add(ss(code, length, b1, d1, b2, d2));
}
