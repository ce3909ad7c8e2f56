//! Sweeps over the branches.

use super::BRANCHES;
use crate::draft::{rr, rs, rx, Draft};
use crate::operations::{self as op};
use crate::scene::{fault_word, Scene, OPEN};
use common::dice::{Dice, EDGE_WORDS};

pub fn conditions(case: u32, dice: &mut Dice) -> Draft {
    let mask = (case % 16) as u8;
    let mut scene = Scene::new(dice);
    scene.draft.code = case / 16 % 4;
    let plain = case / 128 == 0;
    // Not taken: one mark; taken: another.
    let mark = scene.take();
    if case / 64 % 2 == 0 {
        let target = scene.here() + 6;
        let r2 = if plain || dice.chance(1, 3) {
            scene.pointer(dice, target)
        } else {
            0
        };
        scene.add(rr(op::BCR, mask, r2));
    } else if plain {
        let (x, base, d) = {
            let target = scene.here() + 8;
            scene.indexed(dice, target)
        };
        scene.add(rx(op::BC, mask, x, base, d));
    } else {
        // No base and no index: the target is the displacement itself, most
        // often in an absent page.
        let d = 2 * dice.below(2_048);
        scene.add(rx(op::BC, mask, 0, 0, d));
    }
    scene.add(rx(op::LA, mark, 0, 0, 1));
    let second = scene.take();
    scene.add(rx(op::LA, second, 0, 0, 2));
    let budget = dice.pick(&[1, 2, 2, 3]);
    scene.finish_with(budget)
}

pub fn links(case: u32, dice: &mut Dice) -> Draft {
    let mut scene = Scene::new(dice);
    scene.draft.code = case / 2 % 4;
    scene.draft.mask = dice.pick(&[0, 1, 8, 15, 6]);
    let form = case / 8 % 6;
    let away = scene.code_at(dice.pick(&[0, 2, 100, 0xFFE, 0x1000, 0x1FFE, 0xFF_0000]));
    let r1 = if form == 5 { 0 } else { scene.take() };
    if case % 2 == 0 {
        add_balr(&mut scene, dice, form, r1, away);
    } else {
        add_bal(&mut scene, dice, form, r1, away);
    }
    let budget = dice.pick(&[1, 1, 2]);
    if case / 48 == 1 {
        // At the very end of a page, so that the link names the next one.
        scene.offset = if case % 2 == 0 { 0xFFE } else { 0xFFC };
    }
    scene.finish_with(budget)
}

fn add_balr(scene: &mut Scene, dice: &mut Dice, form: u32, r1: u8, away: u32) {
    let r2 = match form {
        0 => {
            scene.draft.register(r1, dice.word());
            0
        }
        1 => {
            scene.draft.register(r1, away | 0xFF00_0000);
            r1
        }
        _ => scene.pointer(dice, away),
    };
    scene.add(rr(op::BALR, r1, r2));
}

fn add_bal(scene: &mut Scene, dice: &mut Dice, form: u32, r1: u8, away: u32) {
    let (x, base, d) = match form {
        0 => (0, 0, dice.below(4_096)),
        1 => {
            scene.draft.register(r1, away);
            (0, r1, 4)
        }
        2 => {
            scene.draft.register(r1, away);
            (r1, 0, 0)
        }
        _ => scene.indexed(dice, away),
    };
    scene.add(rx(op::BAL, r1, x, base, d));
}

pub fn counts(case: u32, dice: &mut Dice) -> Draft {
    let value =
        [0, 1, 2, 0x7FFF_FFFF, 0x8000_0000, 0x8000_0001, 0xFFFF_FFFF][(case / 2 % 7) as usize];
    let mut scene = Scene::new(dice);
    let form = case / 14 % 6;
    let away = scene.code_at(scene.offset + 8);
    let r1 = if form == 3 { 0 } else { scene.take() };
    scene.draft.register(r1, value);
    if case % 2 == 0 {
        let r2 = match form {
            0 | 3 | 5 => scene.pointer(dice, away),
            1 => r1,
            2 => 0,
            _ => scene.take(),
        };
        scene.add(rr(op::BCTR, r1, r2));
    } else {
        match form {
            0 | 3 | 5 => {
                let (x, base, d) = scene.indexed(dice, away);
                scene.add(rx(op::BCT, r1, x, base, d));
            }
            1 => scene.add(rx(op::BCT, r1, 0, r1, 6)),
            2 => scene.add(rx(op::BCT, r1, 0, 0, 2 * dice.below(2_048))),
            _ => {
                let base = scene.pointer(dice, away);
                scene.add(rx(op::BCT, r1, r1, base, 0));
            }
        }
    }
    let first = scene.take();
    let second = scene.take();
    scene.add(rx(op::LA, first, 0, 0, 1));
    scene.add(rx(op::LA, second, 0, 0, 2));
    let budget = dice.pick(&[1, 1, 2, 3]);
    scene.finish_with(budget)
}

pub fn index_registers(case: u32, dice: &mut Dice) -> Draft {
    let code = [op::BXH, op::BXLE][(case / 256) as usize];
    let r1 = (case / 16 % 16) as u8;
    let r3 = (case % 16) as u8;
    let mut scene = Scene::new(dice);
    for number in [r1, r3, r3 | 1] {
        scene.reserve(number);
    }
    let increment = dice.edge_word();
    let start = dice.edge_word();
    let limit = match dice.below(4) {
        0 => start.wrapping_add(increment),
        1 => start.wrapping_add(increment).wrapping_sub(1),
        2 => start.wrapping_add(increment).wrapping_add(1),
        _ => dice.edge_word(),
    };
    scene.draft.register(r3 | 1, limit);
    scene.draft.register(r3, increment);
    scene.draft.register(r1, start);
    let target = scene.here() + 8;
    let (base, d) = if dice.chance(1, 10) {
        (r1, 2 * dice.below(100))
    } else {
        scene.based(dice, target)
    };
    scene.add(rs(code, r1, r3, base, d));
    scene.finish(dice)
}

pub fn index_values(case: u32, dice: &mut Dice) -> Draft {
    let code = [op::BXH, op::BXLE][(case / 64) as usize];
    let increment = EDGE_WORDS[(case / 8 % 8) as usize];
    let start = EDGE_WORDS[(case % 8) as usize];
    let mut scene = Scene::new(dice);
    let even = scene.take_pair();
    let r1 = scene.take();
    let sum = start.wrapping_add(increment);
    let near = [sum, sum.wrapping_add(1), sum.wrapping_sub(1)];
    scene.draft.register(r1, start);
    scene.draft.register(even, increment);
    scene.draft.register(even + 1, dice.pick(&near));
    let target = scene.here() + 8;
    let (base, d) = scene.based(dice, target);
    scene.add(rs(code, r1, even, base, d));
    scene.finish(dice)
}

/// Branches to places where the next fetch fails, or just does not.
pub fn targets(case: u32, dice: &mut Dice) -> Draft {
    let code = BRANCHES[(case % 8) as usize];
    let mut scene = Scene::new(dice);
    let page = scene.code_page + 1;
    let frame = scene.code_frames[1];
    let away = match case / 8 % 12 {
        0 => scene.here() + 7,
        1 => scene.code_at(4_096),
        2 => 0x20_0000,
        3 => 0x1F_FFFE,
        4 => 0xFF_FFFE,
        5 => 0xFF_FFFF,
        6 => 0x1F_FFFF,
        other => {
            let fault = [3, 7, 9, 12, 14][other as usize - 7];
            let word = fault_word(dice, fault, frame);
            scene.draft.page(page, word);
            scene.code_at(4_096 + dice.pick(&[0, 2_046, 2_048]))
        }
    };
    if dice.chance(1, 2) {
        scene.draft.page(511, OPEN | scene.data_frames[0]);
    }
    let r1 = scene.take();
    scene.draft.register(r1, 5);
    scene.put(away, &rr(op::LTR, r1, r1));
    add_taken(&mut scene, dice, code, r1, away);
    let budget = dice.pick(&[1, 2, 2, 2, 3]);
    scene.finish_with(budget)
}

/// A branch that is taken; the register holds 5.
fn add_taken(scene: &mut Scene, dice: &mut Dice, code: u8, r1: u8, away: u32) {
    match code {
        op::BCR | op::BALR | op::BCTR => {
            let r2 = scene.pointer(dice, away);
            let first = if code == op::BCR { 15 } else { r1 };
            scene.add(rr(code, first, r2));
        }
        op::BC | op::BAL | op::BCT => {
            let (x, base, d) = scene.indexed(dice, away);
            let first = if code == op::BC { 15 } else { r1 };
            scene.add(rx(code, first, x, base, d));
        }
        _ => {
            let even = scene.take_pair();
            scene.draft.register(even, 0);
            let limit = if code == op::BXH { 4 } else { 5 };
            scene.draft.register(even + 1, limit);
            let (base, d) = scene.based(dice, away);
            scene.add(rs(code, r1, even, base, d));
        }
    }
}
