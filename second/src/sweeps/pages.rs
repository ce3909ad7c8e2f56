//! Sweeps over page words, addresses and fetches.

use super::{keep_code, longer, BOUND, LONGER, MEMORY, MEMORY_OPS};
use crate::draft::{rr, rx, si, ss, Draft};
use crate::machine::{H, M};
use crate::operations::{self as op, OPERATIONS};
use crate::scene::{fault_word, open_word, Scene, ADDRESS_BITS, FAULTS, OPEN};
use common::dice::Dice;

/// Each operation with a memory operand against each kind of page word.
pub fn operand_words(case: u32, dice: &mut Dice) -> Draft {
    let code = MEMORY_OPS[(case % MEMORY) as usize];
    let fault = case / MEMORY % FAULTS;
    let mut scene = Scene::new(dice);
    let word = fault_word(dice, fault, scene.data_frames[0]);
    scene.draft.page(scene.data_page, word);
    let displacement = if case / (MEMORY * FAULTS) == 0 {
        dice.pick(&[0, 8, 1_024, 2_040])
    } else {
        dice.pick(&[2_048, 2_056, 3_000, 4_088])
    };
    let target = scene.data_at(displacement);
    scene.put_word(target, dice.edge_word());
    let instruction = scene.aimed(dice, code, target);
    scene.add(instruction);
    keep_code(&mut scene, dice);
    scene.finish(dice)
}

/// Operands off their boundary, in pages of several kinds.
pub fn boundaries(case: u32, dice: &mut Dice) -> Draft {
    let code = MEMORY_OPS[(case % BOUND) as usize];
    let off = case / BOUND % 3 + 1;
    let mut scene = Scene::new(dice);
    let displacement = dice.pick(&[0, 4, 2_044, 4_092]);
    let mut target = scene.data_at(displacement + off);
    match case / (BOUND * 3) {
        0 => {}
        1 => {
            let fault = dice.below(FAULTS);
            let word = fault_word(dice, fault, scene.data_frames[0]);
            scene.draft.page(scene.data_page, word);
        }
        2 => target = dice.pick(&[0x20_0000, 0x1F_FFFC, 0xFF_FFFC, 0x80_0000]) + off,
        _ => {
            // The rest of the instruction cannot be fetched: that comes first.
            scene.offset = 0xFFE;
            let fault = dice.below(FAULTS);
            let word = fault_word(dice, fault, scene.code_frames[1]);
            scene.draft.page(scene.code_page + 1, word);
        }
    }
    let instruction = scene.aimed(dice, code, target);
    scene.add(instruction);
    scene.finish(dice)
}

/// Operands at the ends of virtual memory.
pub fn address_ends(case: u32, dice: &mut Dice) -> Draft {
    let code = MEMORY_OPS[(case % MEMORY) as usize];
    let boundary = op::boundary(code);
    let mut scene = Scene::new(dice);
    let target = match case / MEMORY {
        0 => 0x20_0000 - boundary,
        1 => 0x20_0000,
        2 => 0x1F_FFFF,
        3 => 0x1F_FFC0,
        4 => 0xFF_FFFF,
        5 => 0x100_0000 - boundary,
        6 => 0xFF_FFC0,
        7 => 0,
        8 => 0x40_0000 + scene.data_at(8),
        9 => 0x80_0000 + scene.data_at(8),
        10 => 0x1F_F000,
        _ => 0xFFC,
    };
    let frame = scene.data_frames[0];
    if dice.chance(3, 4) && scene.code_page != 511 {
        let word = open_word(dice, frame, true);
        scene.draft.page(511, word);
    }
    if scene.code_page != 0 {
        let word = open_word(dice, scene.data_frames[1], true);
        scene.draft.page(0, word);
    }
    let value = dice.word();
    scene.put_word(target & ADDRESS_BITS, value);
    let instruction = scene.aimed(dice, code, target & ADDRESS_BITS);
    scene.add(instruction);
    scene.finish(dice)
}

/// Every setting of the seven flags for a fetch, a load and a store, low and
/// high in the page; now and then an X bit with them.
pub fn word_flags(case: u32, dice: &mut Dice) -> Draft {
    let access = case / 128 % 3;
    let high = case / 384 == 1;
    let mut scene = Scene::new(dice);
    let flags = ((case % 128) << 9) as u16 | perhaps_x(dice);
    let displacement = if high {
        dice.pick(&[2_048, 2_050, 4_094])
    } else {
        dice.pick(&[0, 2, 2_046])
    };
    if access == 0 {
        let word = flags | scene.code_frames[0];
        scene.draft.page(scene.code_page, word);
        scene.offset = displacement;
        let r1 = scene.valued(dice);
        let r2 = scene.valued(dice);
        scene.add(rr(op::LTR, r1, r2));
        return scene.finish(dice);
    }
    let word = flags | scene.data_frames[0];
    scene.draft.page(scene.data_page, word);
    let target = scene.data_at(displacement);
    // The byte where it should be, and others in the other half.
    let real = u32::from(scene.data_frames[0]) * 4_096 + displacement;
    scene.draft.put(real ^ 2_048, &[0x11, 0x22]);
    scene.put(target, &[0x33, 0x44]);
    let (base, d) = scene.based(dice, target);
    if access == 1 {
        add_load(&mut scene, dice, base, d);
    } else {
        add_store(&mut scene, dice, base, d);
    }
    scene.finish(dice)
}

/// X bits, once in five times.
fn perhaps_x(dice: &mut Dice) -> u16 {
    if dice.chance(1, 5) {
        (dice.below(7) as u16 + 1) << 6
    } else {
        0
    }
}

fn add_load(scene: &mut Scene, dice: &mut Dice, base: u8, d: u32) {
    let r = scene.take();
    let instruction = match dice.below(4) {
        0 => rx(op::IC, r, 0, base, d),
        1 => rx(op::LH, r, 0, base, d),
        2 => si(op::CLI, 0x33, base, d),
        _ => si(op::TM, 0x12, base, d),
    };
    scene.add(instruction);
}

/// A store, and a load of what it stored.
fn add_store(scene: &mut Scene, dice: &mut Dice, base: u8, d: u32) {
    let r = scene.valued(dice);
    let instruction = match dice.below(5) {
        0 => rx(op::STC, r, 0, base, d),
        1 => rx(op::STH, r, 0, base, d),
        2 => si(op::MVI, 0x55, base, d),
        3 => si(op::XI, 0xFF, base, d),
        _ => ss(op::MVC, 1, base, d, base, d),
    };
    scene.add(instruction);
    let r = scene.take();
    scene.add(rx(op::LH, r, 0, base, d));
}

/// Every page number, with pages of like numbers beside it; present, or
/// absent.
pub fn page_numbers(case: u32, dice: &mut Dice) -> Draft {
    let page = case % 512;
    let present = case < 512;
    let fetch = dice.chance(1, 2);
    let mut scene = Scene::new(dice);
    let likes = like_numbers(page);
    let [frame, like_frame] = scene.data_frames;
    let start = |frame: u16| u32::from(frame) * 4_096;
    scene.draft.put(start(frame), &[0x41, 0x50, 0x01, 0x11]);
    scene
        .draft
        .put(start(like_frame), &[0x41, 0x60, 0x02, 0x22]);
    scene.draft.pages.clear();
    if !fetch {
        // From a code page that is none of these.
        let is_free = |code: &u32| *code != page && !likes.contains(code);
        scene.code_page = (5..512).find(is_free).unwrap_or(5);
        let word = OPEN | scene.code_frames[0];
        scene.draft.page(scene.code_page, word);
    }
    for like in likes {
        if like != page && dice.chance(2, 3) {
            scene.draft.page(like, OPEN | like_frame);
        }
    }
    if present {
        scene.draft.page(page, OPEN | frame);
    }
    if fetch {
        scene.code_page = page;
        scene.offset = 0;
        // The code already lies in its frame.
        return scene.finish_with(1);
    }
    let (x, base, d) = scene.indexed(dice, page * 4_096);
    let r = scene.take();
    scene.add(rx(op::L, r, x, base, d));
    scene.finish(dice)
}

/// Page numbers that a slip might take for this one.
fn like_numbers(page: u32) -> [u32; 9] {
    [
        page % 64,
        page ^ 64,
        page ^ 128,
        page ^ 256,
        page % 100,
        page % 256,
        page / 2,
        (page * 2) % 512,
        page.reverse_bits() >> 23,
    ]
}

/// Every frame number for a fetch, a load and a store.
pub fn frames(case: u32, dice: &mut Dice) -> Draft {
    let frame = (case % 64) as u16;
    let mut scene = Scene::new(dice);
    let halves = dice.pick(&[0, 0, 0, M, M | H, H]);
    let displacement = if halves & M != 0 {
        2 * dice.below(1_024)
    } else {
        2 * dice.below(2_048)
    };
    let word = OPEN | halves | frame;
    if case / 64 == 0 {
        scene.draft.page(scene.code_page, word);
        scene.offset = displacement;
        let r = scene.take();
        scene.add(rr(op::BALR, r, 0));
        return scene.finish(dice);
    }
    while scene.code_frames[0] == frame {
        scene.code_frames[0] = (frame + 1) % 16;
        scene
            .draft
            .page(scene.code_page, OPEN | scene.code_frames[0]);
    }
    scene.draft.page(scene.data_page, word);
    let target = scene.data_at(displacement);
    scene.put(target, &dice.word().to_be_bytes()[..2]);
    let (base, d) = scene.based(dice, target);
    if case / 64 == 2 {
        let r = scene.valued(dice);
        scene.add(rx(op::STH, r, 0, base, d));
    }
    let r = scene.take();
    scene.add(rx(op::LH, r, 0, base, d));
    scene.finish(dice)
}

/// Each operation where its own fetch is in danger.
pub fn fetches(case: u32, dice: &mut Dice) -> Draft {
    let all = OPERATIONS.len() as u32;
    let row = OPERATIONS[(case % all) as usize];
    let mut scene = Scene::new(dice);
    put_in_danger(&mut scene, dice, case / all, op::length(row.code));
    let instruction = scene.good(dice, row.code);
    scene.add(instruction);
    scene.finish(dice)
}

/// Moves the code to the end of virtual memory, or of all addresses.
fn put_at_an_end(scene: &mut Scene, dice: &mut Dice, of_all: bool) {
    let open = OPEN | scene.code_frames[0];
    if of_all {
        scene.draft.page(0, open);
        scene.draft.page(511, open);
        scene.code_page = 4_095;
        scene.offset = 4_096 - dice.pick(&[2, 4, 6, 1]);
    } else {
        scene.draft.page(511, open);
        scene.code_page = 511;
        scene.offset = 4_096 - dice.pick(&[2, 4, 6]);
    }
}

/// Gives the code's page a word that fails a test, or nearly.
fn spoil_code_page(scene: &mut Scene, dice: &mut Dice) {
    let fault = dice.below(FAULTS);
    let word = fault_word(dice, fault, scene.code_frames[0]);
    scene.draft.page(scene.code_page, word);
}

/// Moves the code, of so many bytes, to where its fetch may be refused.
fn put_in_danger(scene: &mut Scene, dice: &mut Dice, kind: u32, length: u32) {
    let page = scene.code_page;
    let open = OPEN | scene.code_frames[0];
    match kind {
        // The first halfword's page.
        0..=2 => {
            spoil_code_page(scene, dice);
            scene.offset = dice.pick(&[0, 2_046, 2_048, 2_050]);
        }
        // The end of a half page.
        3 | 4 => {
            let half = dice.pick(&[0, H]);
            scene.draft.page(page, open | M | half);
            scene.offset = 2_048 - dice.pick(&[2, 4, 6]);
        }
        // An odd counter.
        5 => {
            scene.offset = 1 + 2 * dice.below(200);
            if dice.chance(1, 2) {
                spoil_code_page(scene, dice);
            }
        }
        6..=8 => put_at_an_end(scene, dice, kind == 8),
        // Across into a page that is open.
        _ => {
            let word = open_word(dice, scene.code_frames[1], false);
            scene.draft.page(page + 1, word);
            scene.offset = 4_096 - length + 2 * dice.below(length / 2 + 1);
        }
    }
}

/// Each instruction of four or six bytes over the end of a page, against
/// each kind of word for the page after.
pub fn fetch_rests(case: u32, dice: &mut Dice) -> Draft {
    let code = longer(case % LONGER).code;
    let fault = case / LONGER;
    let mut scene = Scene::new(dice);
    let word = fault_word(dice, fault, scene.code_frames[1]);
    scene.draft.page(scene.code_page + 1, word);
    scene.offset = 0xFFE;
    if op::length(code) == 6 && dice.chance(1, 2) {
        scene.offset = 0xFFC;
    }
    let instruction = scene.good(dice, code);
    scene.add(instruction);
    scene.finish(dice)
}
