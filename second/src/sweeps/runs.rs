//! Sweeps over operation codes, budgets and programs that change themselves.

use crate::draft::{rr, rs, rx, si, ss, Draft};
use crate::operations::{self as op};
use crate::scene::{fault_word, Scene, FAULTS, OPEN};
use common::dice::Dice;

/// Every operation byte, the page after absent or there.
pub fn operation_bytes(case: u32, dice: &mut Dice) -> Draft {
    let code = (case % 256) as u8;
    let mut scene = Scene::new(dice);
    if case < 256 {
        scene.offset = 0xFFE;
        let fault = dice.below(FAULTS);
        let word = fault_word(dice, fault, scene.code_frames[1]);
        scene.draft.page(scene.code_page + 1, word);
    }
    if dice.chance(1, 2) {
        let link = scene.take();
        let at = scene.offset;
        scene.offset = at.saturating_sub(2);
        scene.add(rr(op::BALR, link, 0));
    }
    let mut text = vec![code];
    for _ in 0..5 {
        text.push(dice.byte());
    }
    if op::find(code).is_some() && dice.chance(1, 2) {
        text = scene.good(dice, code);
    }
    scene.add(text);
    scene.finish(dice)
}

/// Loops that end and loops that do not, with budgets around their length.
pub fn budgets(case: u32, dice: &mut Dice) -> Draft {
    let kind = case % 7;
    let turns = match case / 42 {
        0 => dice.pick(&[1, 2, 3]),
        1 => 50 + dice.below(500),
        _ => dice.pick(&[1_000, 3_000, 20_000, 65_535]),
    };
    let mut scene = Scene::new(dice);
    let whole = turns * add_loop(&mut scene, dice, kind, turns);
    let budget = match case / 7 % 6 {
        0 => dice.pick(&[0, 1, 2]),
        1 => whole - 1,
        2 => whole,
        3 => whole + 1,
        4 => whole / 2,
        _ => 65_535,
    };
    scene.finish_with(budget.min(65_535))
}

/// A loop of so many turns; tells how many steps a turn has.
fn add_loop(scene: &mut Scene, dice: &mut Dice, kind: u32, turns: u32) -> u32 {
    let start = scene.here();
    let base = scene.pointer(dice, start);
    let count = scene.take();
    if kind == 2 || kind == 3 {
        return add_index_loop(scene, kind == 2, base, count, turns);
    }
    if kind == 5 {
        // No end: a branch to itself.
        scene.add(rx(op::BC, 15, 0, base, 0));
        return 1;
    }
    match kind {
        0 => {}
        1 => {
            scene.draft.register(count, turns);
            scene.add(rr(op::BCTR, count, base));
            return 1;
        }
        4 => {
            let sum = scene.take();
            scene.add(rr(op::AR, sum, count));
        }
        _ => {
            // A store and a load before each count.
            let target = scene.data_at(8);
            let data = scene.pointer(dice, target);
            let seen = scene.take();
            scene.add(rx(op::ST, count, 0, data, 0));
            scene.add(rx(op::AL, seen, 0, data, 0));
        }
    }
    scene.draft.register(count, turns);
    scene.add(rx(op::BCT, count, 0, base, 0));
    [1, 1, 1, 1, 2, 1, 3][kind as usize]
}

/// BXLE upwards, or BXH downwards.
fn add_index_loop(scene: &mut Scene, is_up: bool, base: u8, count: u8, turns: u32) -> u32 {
    let even = scene.take_pair();
    if is_up {
        scene.draft.register(even, 3);
        scene.draft.register(even + 1, 3 * turns - 1);
        scene.add(rs(op::BXLE, count, even, base, 0));
    } else {
        scene.draft.register(even, 0xFFFF_FFFE);
        scene.draft.register(even + 1, 0);
        scene.draft.register(count, 2 * turns);
        scene.add(rs(op::BXH, count, even, base, 0));
    }
    1
}

/// What a program that changes itself works with.
struct Own {
    r: u8,
    s: u8,
    /// Where stores go: the code page, or another page on its frame.
    alias: u32,
    offset: u32,
    /// Points to the code, for stores.
    base: u8,
}

/// Programs that change the instructions they are about to do.
pub fn own_code(case: u32, dice: &mut Dice) -> Draft {
    let mut scene = Scene::new(dice);
    let frame = scene.code_frames[0];
    scene.draft.page(scene.code_page, OPEN | frame);
    // Stores may go through another page on the same frame.
    let alias = if dice.chance(1, 2) {
        scene.code_page * 4_096
    } else {
        scene.draft.page(scene.data_page + 1, OPEN | frame);
        (scene.data_page + 1) * 4_096
    };
    let r = scene.take();
    let s = scene.take();
    let offset = scene.offset;
    let base = scene.pointer(dice, alias + offset);
    let own = Own {
        r,
        s,
        alias,
        offset,
        base,
    };
    match case % 12 {
        kind @ 0..=4 => change_a_byte(&mut scene, dice, &own, kind),
        kind @ 6..=8 => move_over_code(&mut scene, dice, &own, kind),
        9 => count_in_code(&mut scene, dice, &own),
        kind => store_code(&mut scene, dice, &own, kind),
    }
    scene.finish(dice)
}

/// One byte of the instruction after this one.
fn change_a_byte(scene: &mut Scene, dice: &mut Dice, own: &Own, kind: u32) {
    let &Own { r, s, base, .. } = own;
    let (change, changed) = match kind {
        0 => (si(op::MVI, s * 16, base, 5), rx(op::LA, r, 0, 0, 7)),
        1 => (si(op::OI, 0x0F, base, 7), rx(op::LA, r, 0, 0, 0xF0)),
        2 => (si(op::NI, 0x00, base, 4), rx(op::LA, r, 0, 0, 1)),
        3 => {
            let other = si(op::XI, op::LA ^ op::BC, base, 4);
            (other, rx(op::LA, 15, 0, 0, 0xABC))
        }
        _ => {
            scene.draft.register(r, dice.word());
            (rx(op::STC, r, 0, base, 7), rx(op::LA, s, 0, 0, 0))
        }
    };
    scene.add(change);
    scene.add(changed);
}

/// A move over what follows it, or over itself.
fn move_over_code(scene: &mut Scene, dice: &mut Dice, own: &Own, kind: u32) {
    let &Own { s, base, .. } = own;
    if kind == 8 {
        // The move spreads its own second byte over what follows.
        scene.add(ss(op::MVC, dice.pick(&[1, 3, 15]), base, 6, base, 1));
        scene.add(vec![0, 0, 0, 0]);
        return;
    }
    let target = scene.data_at(16);
    if kind == 6 {
        // A move of four bytes over what follows the move.
        scene.put(target, &rx(op::LA, s, 0, 0, dice.below(4_096)));
        let data = scene.pointer(dice, target);
        scene.add(ss(op::MVC, 3, base, 6, data, 0));
        scene.add(vec![0, 0, 0, 0]);
    } else {
        // A move over itself: the instruction is done as it was fetched.
        scene.put(target, &[0; 6]);
        let data = scene.pointer(dice, target);
        scene.add(ss(op::MVC, 5, base, 0, data, 0));
        scene.add(rx(op::LA, s, 0, 0, 9));
    }
}

/// Counts up the displacement of an LA in a loop.
fn count_in_code(scene: &mut Scene, dice: &mut Dice, own: &Own) {
    let again = scene.pointer(dice, scene.code_page * 4_096 + own.offset);
    let count = scene.take();
    let turns = 2 + dice.below(40);
    scene.draft.register(count, turns);
    scene.add(rx(op::LA, own.s, own.s, 0, 1));
    scene.add(rx(op::STC, own.s, 0, own.base, 3));
    scene.add(rx(op::BCT, count, 0, again, 0));
    scene.steps = 3 * turns;
}

/// Registers stored as the instructions that come next.
fn store_code(scene: &mut Scene, dice: &mut Dice, own: &Own, kind: u32) {
    let &Own { r, s, alias, .. } = own;
    let number = |text: &[u8]| text.iter().fold(0, |n, byte| n << 8 | u32::from(*byte));
    let (at, store, room) = match kind {
        5 => {
            let at = own.offset & !3;
            let word = number(&rx(op::LA, s, 0, 0, dice.below(4_096)));
            let base = scene.pointer(dice, alias + at);
            scene.draft.register(r, word);
            (at, rx(op::ST, r, 0, base, 4), 4)
        }
        10 => {
            let at = own.offset & !1;
            scene.draft.register(r, number(&rr(op::BALR, s, 0)));
            let base = scene.pointer(dice, alias + at);
            (at, rx(op::STH, r, 0, base, 4), 2)
        }
        _ => {
            let at = own.offset & !3;
            let even = scene.take_pair();
            let first = rx(op::LA, s, 0, 0, dice.below(4_096));
            let second = rx(op::LA, r, s, 0, dice.below(4_096));
            scene.draft.register(even, number(&first));
            scene.draft.register(even + 1, number(&second));
            let base = scene.pointer(dice, alias + at);
            (at, rs(op::STM, even, even + 1, base, 4), 8)
        }
    };
    scene.offset = at;
    scene.add(store);
    for piece in [0; 8][..room].chunks(4) {
        scene.add(piece.to_vec());
    }
}
