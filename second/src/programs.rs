//! Sheets thrown wholly by dice: longer programs that mostly work, wild
//! bytes that mostly do not, and a few long runs.

use crate::draft::{rr, rs, rx, si, ss, Draft};
use crate::operations::{self as op, Form, Operation, OPERATIONS};
use crate::scene::{fault_word, open_word, Scene, FAULTS};
use common::dice::Dice;

/// What the instructions of a program share.
struct Shared {
    base: u8,
    index: u8,
    usable: Vec<u8>,
    /// The even registers whose pairs are usable.
    pairs: Vec<u8>,
}

/// A program of several instructions on shared pointers, its stores folded
/// into a register at the end.
pub fn program(dice: &mut Dice) -> Draft {
    let mut scene = Scene::new(dice);
    let hot = hot_place(&mut scene, dice);
    let base = scene.pointer(dice, hot - 64);
    let index = scene.pointer(dice, 8);
    // Keep what the folding at the end needs apart from the program.
    let fold = dice.chance(1, 2);
    let mut kept = Vec::new();
    if fold {
        let even = scene.take_pair();
        kept = vec![even, even + 1];
        for _ in 0..4 {
            kept.push(scene.take());
        }
    }
    let mut usable = scene.free.clone();
    usable.push(0);
    for &number in &usable {
        if dice.chance(2, 3) {
            let value = dice.edge_word();
            scene.draft.register(number, value);
        }
    }
    let shared = Shared {
        base,
        index,
        pairs: pairs(&usable),
        usable,
    };
    for _ in 0..2 + dice.below(8) {
        let instruction = instruction(&mut scene, dice, &shared);
        scene.add(instruction);
    }
    if fold {
        return folded(scene, dice, &kept, hot & !3);
    }
    scene.finish(dice)
}

/// The even ones among registers that have the odd one after them there too.
fn pairs(usable: &[u8]) -> Vec<u8> {
    let is_pair = |even: &u8| even % 2 == 0 && usable.contains(&(even + 1));
    usable.iter().copied().filter(is_pair).collect()
}

/// A place in the data pages with something in it.
fn hot_place(scene: &mut Scene, dice: &mut Dice) -> u32 {
    if dice.chance(1, 10) {
        let fault = dice.below(FAULTS);
        let word = fault_word(dice, fault, scene.data_frames[1]);
        scene.draft.page(scene.data_page + 1, word);
    }
    let hot = scene.data_at(dice.pick(&[64, 1_024, 2_000, 4_000, 4_064]));
    let content: Vec<u8> = (0..32).map(|_| dice.edge_byte()).collect();
    scene.put(hot, &content);
    if dice.chance(1, 2) {
        let content: Vec<u8> = (0..32).map(|_| dice.byte()).collect();
        scene.put(hot + 32, &content);
    }
    hot
}

/// The end of a program: what it stored, folded with the registers kept.
fn folded(mut scene: Scene, dice: &mut Dice, kept: &[u8], start: u32) -> Draft {
    scene.free = kept[2..].to_vec();
    scene.free.extend(&kept[..2]);
    let registers = &mut scene.draft.registers;
    registers.retain(|&(number, _)| !kept.contains(&number));
    scene.fold(dice, start, 16);
    let budget = scene.steps;
    scene.finish_with(budget)
}

/// Any instruction, such that the program most often goes on.
fn instruction(scene: &mut Scene, dice: &mut Dice, shared: &Shared) -> Vec<u8> {
    let row = operation(dice, shared);
    let any = dice.chance(1, 40);
    let r1 = if op::needs_pair(row.code) && !any {
        dice.pick(&shared.pairs)
    } else {
        register(dice, &shared.usable, any)
    };
    let r2 = register(dice, &shared.usable, any);
    let boundary = op::boundary(row.code).max(1);
    let mut reach = 64 + boundary * dice.below(48 / boundary);
    if dice.chance(1, 40) {
        reach += dice.below(4);
    }
    let other = 64 + dice.below(48);
    let base = shared.base;
    if matches!(row.code, op::DR | op::D) && dice.chance(7, 8) {
        prepare_division(scene, dice, base, (row.code, r1, r2), reach);
    }
    match row.form {
        Form::RR => match row.code {
            // Only what falls through or goes on right here.
            op::BCR => rr(row.code, dice.below(16) as u8, 0),
            op::BALR | op::BCTR => rr(row.code, r1, 0),
            _ => rr(row.code, r1, r2),
        },
        Form::RX => any_rx(scene, dice, shared, row.code, r1, reach),
        Form::RS => any_rs(scene, dice, shared, row.code, (r1, r2), reach),
        Form::SI => si(row.code, dice.edge_byte(), base, reach),
        Form::SS => {
            let length = dice.pick(&[0, 1, 3, 7, 12]);
            ss(row.code, length, base, reach, base, other)
        }
    }
}

/// Any operation for whose first register there is one.
fn operation(dice: &mut Dice, shared: &Shared) -> Operation {
    loop {
        let row = dice.pick(&OPERATIONS);
        if !op::needs_pair(row.code) || !shared.pairs.is_empty() {
            return row;
        }
    }
}

/// Adds what makes the dividend one word long and the divisor not zero, so that
/// the quotient most often fits.
fn prepare_division(
    scene: &mut Scene,
    dice: &mut Dice,
    base: u8,
    (code, r1, r2): (u8, u8, u8),
    reach: u32,
) {
    scene.add(rs(op::SRDA, r1 & !1, 0, 0, 32));
    if code == op::D {
        let bit = 1 << dice.below(8);
        scene.add(si(op::OI, bit, base, reach + dice.below(4)));
        return;
    }
    let more = 1 + dice.below(4_095);
    scene.add(rx(op::LA, r2, 0, r2, more));
    if dice.chance(1, 2) {
        scene.add(rr(op::LNR, r2, r2));
    }
}

fn any_rx(
    scene: &mut Scene,
    dice: &mut Dice,
    shared: &Shared,
    code: u8,
    r1: u8,
    reach: u32,
) -> Vec<u8> {
    if matches!(code, op::BC | op::BAL | op::BCT) {
        // Over the next halfword, through a register loaded on the way: LA
        // cannot know its place, BALR does.
        let at = register(dice, &shared.usable, false);
        if at == 0 {
            return rx(op::LA, r1, 0, shared.base, reach);
        }
        scene.add(rr(op::BALR, at, 0));
        return rx(code, r1, 0, at, 4);
    }
    if dice.chance(1, 3) && shared.index != 0 {
        rx(code, r1, shared.index, shared.base, reach - 8)
    } else {
        rx(code, r1, 0, shared.base, reach)
    }
}

fn any_rs(
    scene: &mut Scene,
    dice: &mut Dice,
    shared: &Shared,
    code: u8,
    (r1, r2): (u8, u8),
    reach: u32,
) -> Vec<u8> {
    match code {
        _ if op::shifts(code) => {
            let b = dice.pick(&[0, 0, r2]);
            rs(code, r1, r2, b, dice.below(80))
        }
        op::BXH | op::BXLE => {
            let at = register(dice, &shared.usable, false);
            if at == 0 {
                return rs(op::SLL, r1, r2, 0, 3);
            }
            scene.add(rr(op::BALR, at, 0));
            rs(code, r1, r2, at, 4)
        }
        // One register, so that the pointers last.
        op::LM => rs(code, r1, r1, shared.base, reach & !3),
        _ => rs(code, r1, r2, shared.base, reach & !3),
    }
}

fn register(dice: &mut Dice, usable: &[u8], any: bool) -> u8 {
    if any {
        dice.below(16) as u8
    } else {
        dice.pick(usable)
    }
}

/// Instructions whose every field is thrown, over many pages.
pub fn wild(dice: &mut Dice) -> Draft {
    let mut scene = Scene::new(dice);
    for _ in 0..dice.below(6) {
        let page = dice.below(512);
        if page == scene.code_page {
            continue;
        }
        let fault = dice.below(FAULTS);
        let frame = dice.below(16) as u16;
        let word = fault_word(dice, fault, frame);
        scene.draft.page(page, word);
    }
    let first = open_word(dice, scene.code_frames[0], false);
    scene.draft.page(scene.code_page, first);
    let pages: Vec<u32> = scene.draft.pages.iter().map(|&(page, _)| page).collect();
    for number in 0..16 {
        if dice.chance(3, 4) {
            let value = match dice.below(3) {
                0 => dice.edge_word(),
                1 => dice.pick(&pages) * 4_096 + dice.pick(&[0, 4, 2_044, 2_047, 4_092, 4_095]),
                _ => dice.word() & 0x00FF_FFFF,
            };
            scene.draft.register(number, value);
        }
    }
    scene.offset = dice.pick(&[0, 0, 2, 2_040, 4_080, 4_090]);
    for _ in 0..1 + dice.below(6) {
        scene.add(wild_text(dice));
    }
    let budget = dice.pick(&[1, 2, 5, 10, 50, 200]);
    scene.finish_with(budget)
}

/// An instruction whose every field is thrown.
fn wild_text(dice: &mut Dice) -> Vec<u8> {
    let code = if dice.chance(9, 10) {
        dice.pick(&OPERATIONS).code
    } else {
        dice.byte()
    };
    let mut text = vec![code];
    for _ in 1..op::length(code) {
        text.push(dice.byte());
    }
    // Small displacements and aligned ones now and then.
    if text.len() == 4 && dice.chance(1, 2) {
        text[2] &= 0xF0;
        text[3] &= 0xFC;
    }
    text
}

/// A long run: fill a field by a move, then fold it again and again.
pub fn long(dice: &mut Dice) -> Draft {
    let mut scene = Scene::new(dice);
    let start = scene.data_at(dice.pick(&[0, 4, 2_048, 4_000]));
    let words = 100 + dice.below(900);
    let content: Vec<u8> = (0..32).map(|_| dice.byte()).collect();
    scene.put(start, &content);
    let (b1, d1) = scene.based(dice, start + 32);
    let (b2, d2) = scene.based(dice, start);
    scene.add(ss(op::MVC, 255, b1, d1, b2, d2));
    scene.fold(dice, start, words);
    scene.finish(dice)
}
