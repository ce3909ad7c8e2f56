//! Sweeps over what is refused to an operation on a pair: an odd first
//! register, a quotient that does not fit, and which refusal comes first.

use crate::draft::{rr, rs, rx, Draft};
use crate::machine::{G, W};
use crate::operations as op;
use crate::scene::{fault_word, Scene, FAULTS, OPEN};
use common::dice::Dice;

const PAIR_OPS: [u8; 6] = [op::MR, op::M, op::DR, op::D, op::SLDA, op::SRDA];

/// Each odd first register, with something else wrong as well.
pub fn odd_pairs(case: u32, dice: &mut Dice) -> Draft {
    let code = PAIR_OPS[(case % 6) as usize];
    let odd = 2 * (case / 6 % 8) as u8 + 1;
    let mut scene = Scene::new(dice);
    for number in [odd - 1, odd, (odd + 1) % 16] {
        scene.reserve(number);
        scene.draft.register(number, dice.edge_word());
    }
    let mut target = scene.data_at(dice.pick(&[0, 4, 2_044, 4_092]));
    scene.put_word(target, dice.edge_word());
    match case / 48 {
        0 => {}
        // Off the boundary, in an open page or in another.
        1 => {
            target += 1 + dice.below(3);
            if dice.chance(1, 2) {
                spoil_data_page(&mut scene, dice);
            }
        }
        2 => spoil_data_page(&mut scene, dice),
        3 => scene.put_word(target, 0),
        4 => target = dice.pick(&[0x20_0000, 0x20_0002, 0xFF_FFFC, 0xFF_FFFE]),
        _ => {
            // Halfwords that cannot be fetched come first.
            scene.offset = 0xFFE;
            let fault = dice.below(FAULTS);
            let word = fault_word(dice, fault, scene.code_frames[1]);
            scene.draft.page(scene.code_page + 1, word);
        }
    }
    let second = if case / 48 == 3 { 0 } else { dice.edge_word() };
    add_aimed(&mut scene, dice, (code, odd), target, second);
    scene.finish(dice)
}

/// Gives the first data page a word that fails a test, or nearly.
fn spoil_data_page(scene: &mut Scene, dice: &mut Dice) {
    let fault = dice.below(FAULTS);
    let word = fault_word(dice, fault, scene.data_frames[0]);
    scene.draft.page(scene.data_page, word);
}

/// Adds the operation on these registers; RR has its second operand in a
/// register, a shift any amount.
fn add_aimed(scene: &mut Scene, dice: &mut Dice, (code, r1): (u8, u8), target: u32, second: u32) {
    let instruction = if op::length(code) == 2 {
        let r2 = scene.take();
        scene.draft.register(r2, second);
        rr(code, r1, r2)
    } else if op::shifts(code) {
        let amount = dice.pick(&[0, 1, 31, 32, 63, 64]);
        let (base, d) = scene.based(dice, amount);
        rs(code, r1, dice.below(16) as u8, base, d)
    } else {
        let (x, base, d) = scene.indexed(dice, target);
        rx(code, r1, x, base, d)
    };
    scene.add(instruction);
}

/// D against each kind of page word, by zero, with a quotient that does not
/// fit, and with one that does.
pub fn divisors_in_bad_pages(case: u32, dice: &mut Dice) -> Draft {
    let fault = case % FAULTS;
    let mut scene = Scene::new(dice);
    let word = fault_word(dice, fault, scene.data_frames[0]);
    scene.draft.page(scene.data_page, word);
    let displacement = if case / (FAULTS * 3) == 0 {
        dice.pick(&[0, 8, 1_024, 2_044])
    } else {
        dice.pick(&[2_048, 2_056, 3_000, 4_092])
    };
    let target = scene.data_at(displacement);
    let (high, divisor) = match case / FAULTS % 3 {
        0 => (dice.edge_word(), 0),
        1 => (dice.pick(&[1, 0x8000_0000]), dice.pick(&[1, 0xFFFF_FFFF])),
        _ => (0, 2 + dice.below(1_000)),
    };
    scene.put_word(target, divisor);
    let even = scene.any_pair(dice);
    scene.draft.register(even, high);
    scene.draft.register(even + 1, dice.edge_word());
    add_aimed(&mut scene, dice, (op::D, even), target, divisor);
    scene.finish(dice)
}

/// DR and D that fail, with every setting of the marks beforehand: none may
/// change but G of the pages of the instruction.
pub fn divide_errors(case: u32, dice: &mut Dice) -> Draft {
    let code = [op::DR, op::D][(case % 2) as usize];
    let divisor = [0, dice.pick(&[1, 0xFFFF_FFFF])][(case / 2 % 2) as usize];
    let marks = [0, G, W, W | G];
    let code_marks = marks[(case / 4 % 4) as usize];
    let data_marks = marks[(case / 16) as usize];
    let mut scene = Scene::new(dice);
    let frames = [
        scene.code_frames[0],
        scene.code_frames[1],
        scene.data_frames[0],
    ];
    scene
        .draft
        .page(scene.code_page, OPEN | code_marks | frames[0]);
    scene
        .draft
        .page(scene.data_page, OPEN | data_marks | frames[2]);
    let even = scene.any_pair(dice);
    scene
        .draft
        .register(even, dice.pick(&[1, 0x7FFF_FFFF, 0x8000_0000]));
    scene.draft.register(even + 1, dice.edge_word());
    if dice.chance(1, 2) {
        // What completes before it lies in the page before, and marks that.
        scene.offset = 0xFFE;
        scene
            .draft
            .page(scene.code_page + 1, OPEN | code_marks | frames[1]);
        let link = scene.take();
        scene.add(rr(op::BALR, link, 0));
    }
    let target = scene.data_at(dice.pick(&[0, 2_048, 4_092]));
    scene.put_word(target, divisor);
    add_aimed(&mut scene, dice, (code, even), target, divisor);
    scene.finish(dice)
}
