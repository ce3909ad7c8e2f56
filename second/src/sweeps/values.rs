//! Sweeps over values: registers, words, bytes, shifts and address sums.

use super::{keep_code, longer, BYTE_OPS, LONGER, REGISTER_OPS, WORD_OPS};
use crate::draft::{rr, rs, rx, si, ss, Draft};
use crate::operations::{self as op, Form};
use crate::scene::{open_word, Scene, OPEN};
use common::dice::{Dice, EDGE_BYTES, EDGE_WORDS};

pub fn register_values(case: u32, dice: &mut Dice) -> Draft {
    let code = REGISTER_OPS[(case / 64) as usize];
    let a = EDGE_WORDS[(case / 8 % 8) as usize];
    let b = EDGE_WORDS[(case % 8) as usize];
    let mut scene = Scene::new(dice);
    let r1 = dice.below(16) as u8;
    let r2 = if dice.chance(1, 8) {
        r1
    } else {
        dice.below(16) as u8
    };
    scene.reserve(r1);
    scene.reserve(r2);
    scene.draft.register(r2, b);
    scene.draft.register(r1, a);
    scene.add(rr(code, r1, r2));
    keep_code(&mut scene, dice);
    scene.finish(dice)
}

pub fn word_values(case: u32, dice: &mut Dice) -> Draft {
    let code = WORD_OPS[(case / 64) as usize];
    let a = EDGE_WORDS[(case / 8 % 8) as usize];
    let b = EDGE_WORDS[(case % 8) as usize];
    let mut scene = Scene::new(dice);
    let displacement = dice.pick(&[0, 4, 2_044, 2_048, 4_092, 4_096, 5_000]);
    let target = scene.data_at(displacement);
    scene.put_word(target, b);
    let (x, base, d) = scene.indexed(dice, target);
    let r1 = scene.take_or_zero(dice);
    scene.draft.register(r1, a);
    scene.add(rx(code, r1, x, base, d));
    keep_code(&mut scene, dice);
    scene.finish(dice)
}

pub fn halfword_loads(case: u32, dice: &mut Dice) -> Draft {
    let value: u16 = [0x0000, 0x0001, 0x7FFF, 0x8000, 0x8001, 0xFFFF][(case % 6) as usize];
    let mut scene = Scene::new(dice);
    let target = scene.data_at([0, 2, 2_046, 4_094][(case / 6) as usize]);
    scene.put(target, &value.to_be_bytes());
    let (x, base, d) = scene.indexed(dice, target);
    let r1 = scene.valued(dice);
    scene.add(rx(op::LH, r1, x, base, d));
    scene.finish(dice)
}

pub fn inserts(case: u32, dice: &mut Dice) -> Draft {
    let value = EDGE_BYTES[(case % 7) as usize];
    let mut scene = Scene::new(dice);
    let target = scene.data_at([0, 1, 2_047, 4_095][(case / 7) as usize]);
    scene.put(target, &[value, dice.byte()]);
    let (x, base, d) = scene.indexed(dice, target);
    let r1 = scene.valued(dice);
    scene.add(rx(op::IC, r1, x, base, d));
    scene.finish(dice)
}

pub fn small_stores(case: u32, dice: &mut Dice) -> Draft {
    let (code, size) = [(op::ST, 4), (op::STH, 2), (op::STC, 1)][(case % 3) as usize];
    let value = match EDGE_WORDS[(case / 3 % 8) as usize] {
        0 => 0x1234_5678,
        other => other,
    };
    let mut scene = Scene::new(dice);
    let middle = scene.data_at([8, 2_044, 4_092, 4_096][(case / 24) as usize]);
    let mut around = Vec::new();
    for _ in 0..12 {
        around.push(dice.byte());
    }
    scene.put(middle - 4, &around);
    let target = middle + size * dice.below(4 / size);
    let (x, base, d) = scene.indexed(dice, target);
    let r1 = scene.take_or_zero(dice);
    scene.draft.register(r1, value);
    scene.add(rx(code, r1, x, base, d));
    if dice.chance(3, 4) {
        for step in 0..3 {
            let (x, base, d) = scene.indexed(dice, middle - 4 + 4 * step);
            let r = scene.take();
            scene.add(rx(op::L, r, x, base, d));
        }
    }
    scene.finish(dice)
}

pub fn immediate_bytes(case: u32, dice: &mut Dice) -> Draft {
    let code = BYTE_OPS[(case / 49) as usize];
    let byte = EDGE_BYTES[(case / 7 % 7) as usize];
    let immediate = EDGE_BYTES[(case % 7) as usize];
    immediate_case(dice, code, byte, immediate)
}

pub fn test_masks(case: u32, dice: &mut Dice) -> Draft {
    // Each single bit of the byte against each single bit of the mask, and
    // the same with all the other bits.
    let byte = 0x80u8 >> (case % 8);
    let mask = 0x80u8 >> (case / 8 % 8);
    if case < 64 {
        immediate_case(dice, op::TM, byte, mask)
    } else {
        immediate_case(dice, op::TM, !byte, !mask)
    }
}

fn immediate_case(dice: &mut Dice, code: u8, byte: u8, immediate: u8) -> Draft {
    let mut scene = Scene::new(dice);
    let displacement = dice.pick(&[1, 2, 2_047, 2_048, 4_095, 4_096, 4_097]);
    let target = scene.data_at(displacement);
    scene.put(target - 1, &[dice.byte(), byte, dice.byte()]);
    let (base, d) = scene.based(dice, target);
    scene.add(si(code, immediate, base, d));
    keep_code(&mut scene, dice);
    if dice.chance(1, 2) {
        for at in [target - 1, target, target + 1] {
            let (x, base, d) = scene.indexed(dice, at);
            let r = scene.take();
            scene.add(rx(op::IC, r, x, base, d));
        }
    }
    scene.finish(dice)
}

pub fn shifts(case: u32, dice: &mut Dice) -> Draft {
    let code = [op::SLL, op::SRL][(case % 2) as usize];
    let amount = [0, 1, 2, 8, 30, 31, 32, 33, 62, 63, 64, 65, 127][(case / 2 % 13) as usize];
    let value = [
        0x0000_0001,
        0x7FFF_FFFF,
        0x8000_0000,
        0xFFFF_FFFF,
        0x1234_5678,
        0x8000_0001,
    ][(case / 26 % 6) as usize];
    let mut scene = Scene::new(dice);
    let r1 = scene.take_or_zero(dice);
    scene.draft.register(r1, value);
    let r3 = dice.below(16) as u8;
    if case / 156 == 0 {
        scene.add(rs(code, r1, r3, 0, amount));
    } else {
        let d = dice.pick(&[0, 1, 63, 64, 4_095]);
        let base = scene.take();
        let high = dice.word() & !63;
        scene.draft.register(base, (amount + high).wrapping_sub(d));
        scene.add(rs(code, r1, r3, base, d));
    }
    keep_code(&mut scene, dice);
    scene.finish(dice)
}

/// Words about the wrap at 24 bits.
const SUMMANDS: [u32; 8] = [
    0,
    1,
    0x00FF_FFFF,
    0x0100_0000,
    0x7FFF_FFFF,
    0x80FF_F000,
    0xFFFF_FFFF,
    0xFF00_0001,
];

/// Sums of base, index and displacement, shown by LA and used by IC.
pub fn address_sums(case: u32, dice: &mut Dice) -> Draft {
    let mut scene = Scene::new(dice);
    let first = scene.take();
    let second = scene.take();
    let mut a = SUMMANDS[(case % 8) as usize];
    let b = SUMMANDS[(case / 8 % 8) as usize];
    let d = dice.pick(&[0, 1, 0xFFE, 0xFFF]);
    let reach = case >= 128;
    if reach {
        // Make the sum come out in the data page.
        a = scene.data_at(7).wrapping_sub(b).wrapping_sub(d);
    }
    scene.draft.register(first, a);
    scene.draft.register(second, b);
    let r0 = dice.word();
    scene.draft.register(0, r0);
    let (x, base) = match dice.below(6) {
        _ if reach => (first, second),
        0 => (first, 0),
        1 => (0, first),
        2 => (0, 0),
        3 => (first, first),
        _ => (first, second),
    };
    let r1 = match dice.below(4) {
        0 => first,
        1 => 0,
        2 => second,
        _ => scene.take(),
    };
    if reach {
        scene.put(scene.data_at(7), &[dice.byte()]);
        scene.add(rx(op::IC, r1, x, base, d));
    } else {
        scene.add(rx(op::LA, r1, x, base, d));
    }
    scene.finish(dice)
}

/// A scene with its data in pages 0 and 1.
fn low_scene(dice: &mut Dice) -> Scene {
    let mut scene = Scene::new(dice);
    if scene.code_page <= 1 {
        scene.draft.pages.clear();
        scene.code_page = 10;
        scene.draft.page(10, OPEN | scene.code_frames[0]);
    }
    scene.data_page = 0;
    for index in 0..2 {
        let word = open_word(dice, scene.data_frames[index as usize], true);
        scene.draft.page(index, word);
    }
    scene
}

/// Base and displacement whose sum goes past 24 bits and comes out at the
/// low end, for each instruction that has them.
pub fn sums_past_the_end(case: u32, dice: &mut Dice) -> Draft {
    let row = longer(case % LONGER);
    let mut scene = low_scene(dice);
    let target = 4 * dice.below(20);
    let other = dice.below(80);
    let content: Vec<u8> = (0..32).map(|_| dice.byte()).collect();
    scene.put(target, &content);
    let mut low = |scene: &mut Scene, at: u32| {
        let d = (at + 4 + 4 * dice.below(900)).min(4_095);
        (scene.pointer(dice, at.wrapping_sub(d)), d)
    };
    let (base, d) = low(&mut scene, target);
    let (other_base, other_d) = low(&mut scene, other);
    let r1 = scene.first_register(dice, row.code);
    let instruction = match row.form {
        Form::SI => si(row.code, dice.edge_byte(), base, d),
        Form::SS => ss(
            row.code,
            dice.pick(&[0, 3, 12]),
            base,
            d,
            other_base,
            other_d,
        ),
        Form::RS => {
            let r3 = scene.valued(dice);
            rs(row.code, r1, r3, base, d)
        }
        _ if dice.chance(1, 2) => rx(row.code, r1, base, 0, d),
        _ => rx(row.code, r1, 0, base, d),
    };
    scene.add(instruction);
    if op::stores(row.code) {
        let r = scene.take();
        scene.add(rx(op::L, r, 0, 0, target));
    }
    scene.finish(dice)
}
