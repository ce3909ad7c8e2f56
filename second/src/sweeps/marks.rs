//! Sweeps over the marks that a refused instruction leaves: refused at each
//! point of the order, within a page and over its end, with marks there before
//! or not, at once or after some steps.

use super::{some_operation, BOUND, MEMORY_OPS};
use crate::draft::{rr, rs, rx, ss, Draft};
use crate::machine::{ADDRESSING, E, FRAME, G, H, M, PAGING_ERROR, PAGING_QUEUE, S, U, W};
use crate::operations as op;
use crate::scene::{Scene, OPEN};
use common::dice::Dice;

/// Every setting of the marks.
const MARKS: [u16; 4] = [0, G, W, W | G];

/// What a look-up can be refused with.
const NUMBERS: [u32; 3] = [ADDRESSING, PAGING_QUEUE, PAGING_ERROR];

/// The first halfword of 2, 4 and 6 bytes, the second of 4 and 6, the third.
const HALFWORDS: [(u32, u32); 6] = [(2, 0), (4, 0), (6, 0), (4, 2), (6, 2), (6, 4)];

/// What can be wrong where a halfword is to be fetched.
const FAULTS: u32 = 7;

/// An odd counter, operations outside the set, and halfwords.
const FETCH_WAYS: u32 = 3 + 4 * 3 + HALFWORDS.len() as u32 * FAULTS;

pub const FETCH_CASES: u32 = 4 * 2 * FETCH_WAYS;

/// What is refused before the operands, or among them.
const OPERAND_WAYS: u32 = 12;

pub const OPERAND_CASES: u32 = 4 * 2 * 3 * 4 * OPERAND_WAYS;

/// Refused while it is fetched.
pub fn at_the_fetch(case: u32, dice: &mut Dice) -> Draft {
    let mut scene = Scene::new(dice);
    mark_pages(&mut scene, dice, MARKS[(case % 4) as usize]);
    let (at, text) = match case / 8 {
        way @ 0..=2 => {
            let at = scene.code_at(2 * dice.below(2_048) + 1);
            (at, some_text(&mut scene, dice, 2 * way + 2, at))
        }
        way @ 3..=14 => outside_the_set(&mut scene, dice, way - 3),
        way => {
            let (length, halfword) = HALFWORDS[((way - 15) / FAULTS) as usize];
            let at = at_fault(&mut scene, dice, halfword, (way - 15) % FAULTS);
            (at, some_text(&mut scene, dice, length, at))
        }
    };
    finish(scene, dice, at, text, case / 4 % 2 == 1)
}

/// An instruction of this length that would complete.
fn some_text(scene: &mut Scene, dice: &mut Dice, length: u32, at: u32) -> Vec<u8> {
    move_code(scene, at);
    let code = some_operation(dice, length);
    scene.good(dice, code)
}

/// Gives both pages of code and both of data their words, with these marks on
/// the first page of code.
fn mark_pages(scene: &mut Scene, dice: &mut Dice, marks: u16) {
    let first = OPEN | marks | dice.pick(&[0, 0, E, H]) | scene.code_frames[0];
    scene.draft.page(scene.code_page, first);
    let half = dice.pick(&[0, H, M, M | H]);
    let second = OPEN | dice.pick(&[0, 0, W, G]) | half | scene.code_frames[1];
    scene.draft.page(scene.code_page + 1, second);
    for index in 0..2 {
        let word = OPEN | dice.pick(&MARKS) | scene.data_frames[index as usize];
        scene.draft.page(scene.data_page + index, word);
    }
}

/// An operation outside the set for each setting of the length bits, with all
/// bytes that they ask for in the page, or only the first two, before a page
/// that is open or closed.
fn outside_the_set(scene: &mut Scene, dice: &mut Dice, way: u32) -> (u32, Vec<u8>) {
    let mut text: Vec<u8> = (0..6).map(|_| dice.byte()).collect();
    while op::find(text[0]).is_some() || u32::from(text[0] >> 6) != way % 4 {
        text[0] = dice.byte();
    }
    let offset = match way / 4 {
        0 => {
            let half = dice.pick(&[0, M, M | H]);
            let word = scene.word_of(scene.code_page) | half;
            scene.draft.page(scene.code_page, word);
            dice.pick(&[0, 2, 1_024, 2_046])
        }
        1 => 0xFFE,
        _ => {
            let number = dice.pick(&NUMBERS);
            close_for(scene, dice, scene.code_page + 1, number);
            0xFFE
        }
    };
    (scene.code_at(offset), text)
}

/// Where an instruction lies whose halfword at this offset cannot be fetched.
fn at_fault(scene: &mut Scene, dice: &mut Dice, halfword: u32, fault: u32) -> u32 {
    let page = scene.code_page;
    let word = scene.word_of(page);
    match (fault, halfword) {
        // Past virtual memory.
        (5, _) => {
            scene.draft.page(0, OPEN | scene.code_frames[1]);
            scene.draft.page(511, word);
            let more = dice.pick(&[0, 0, 2, 0x1000, 0xDF_FFFE]);
            0x20_0000 - halfword + if halfword == 0 { more } else { 0 }
        }
        // Past the end of a half page.
        (6, _) => {
            scene.draft.page(page, word | M | dice.pick(&[0, H]));
            let more = dice.pick(&[0, 2, 1_000, 2_040]);
            scene.code_at(2_048 - halfword + if halfword == 0 { more } else { 0 })
        }
        (kind, 0) => {
            close(scene, dice, page, kind);
            scene.code_at(dice.pick(&[0, 2, 1_024, 2_046, 4_090]))
        }
        (kind, _) => {
            close(scene, dice, page + 1, kind);
            scene.code_at(4_096 - halfword)
        }
    }
}

/// Closes a page. Its marks stay as they are, but in the last kind.
fn close(scene: &mut Scene, dice: &mut Dice, page: u32, kind: u32) {
    let word = scene.word_of(page);
    let word = match kind {
        0 => word & !U,
        1 => word & !S,
        2 => word | dice.pick(&[0x0040, 0x0080, 0x0100, 0x01C0]),
        3 => word & !(M | H | FRAME) | dice.pick(&[16, 17, 32, 63]),
        _ => 0,
    };
    scene.draft.page(page, word);
}

/// Closes a page so that one of the three numbers comes of it.
fn close_for(scene: &mut Scene, dice: &mut Dice, page: u32, number: u32) {
    let kind = match number {
        ADDRESSING => 3,
        PAGING_QUEUE => dice.pick(&[0, 4]),
        _ => dice.pick(&[1, 2]),
    };
    close(scene, dice, page, kind);
}

fn move_code(scene: &mut Scene, at: u32) {
    scene.code_page = at / 4_096;
    scene.offset = at % 4_096;
}

/// Ends the sheet with the instruction to be refused, at once or after some
/// steps in a page of their own.
fn finish(mut scene: Scene, dice: &mut Dice, at: u32, text: Vec<u8>, has_lead: bool) -> Draft {
    if !has_lead {
        move_code(&mut scene, at);
        scene.add(text);
        return scene.finish(dice);
    }
    scene.put(at, &text);
    let used = [scene.code_frames, scene.data_frames].concat();
    let frame = (0..16).find(|frame| !used.contains(frame)).unwrap_or(0);
    // From the end of the page before straight on, or by a branch.
    let before = at.wrapping_sub(4_096) / 4_096;
    let goes_on = at % 4_096 == 0 && before < 512 && scene.word_of(before) == 0;
    let lead = match goes_on {
        true => before,
        false => other_page(&scene, dice),
    };
    scene
        .draft
        .page(lead, OPEN | dice.pick(&MARKS) | dice.pick(&[0, H]) | frame);
    let steps = 1 + dice.below(3);
    move_code(&mut scene, lead * 4_096 + 4_096 - 4 * steps);
    for _ in 1..steps {
        add_load(&mut scene, dice);
    }
    if goes_on {
        add_load(&mut scene, dice);
    } else {
        let base = scene.pointer(dice, at);
        scene.add(rx(op::BC, 15, 0, base, 0));
    }
    scene.steps += 1;
    scene.finish(dice)
}

fn add_load(scene: &mut Scene, dice: &mut Dice) {
    let number = scene.take();
    scene.add(rx(op::LA, number, 0, 0, dice.below(4_096)));
}

/// A page that has no word yet.
fn other_page(scene: &Scene, dice: &mut Dice) -> u32 {
    loop {
        let page = dice.below(512);
        if scene.word_of(page) == 0 {
            return page;
        }
    }
}

/// An instruction in the making that is fetched whole.
struct Stage {
    scene: Scene,
    at: u32,
    /// Does it lie over the end of its page?
    has_two: bool,
    /// The page of what is found of its operands.
    home: u32,
    /// What a look-up is to be refused with, where there is a choice.
    number: u32,
}

/// Refused after it was fetched.
pub fn at_the_operands(case: u32, dice: &mut Dice) -> Draft {
    let mut scene = Scene::new(dice);
    mark_pages(&mut scene, dice, MARKS[(case % 4) as usize]);
    let [lead, cut, home, way] = [case / 4 % 2, case / 8 % 3, case / 24 % 4, case / 96];
    let length = [2, 4, 4, 4, 4, 4, 6, 6, 6, 6, 2, 4][way as usize];
    let offset = spot(&mut scene, dice, length, cut);
    let mut stage = Stage {
        at: scene.code_at(offset),
        has_two: offset + length > 4_096,
        home: match home {
            0 => scene.code_page,
            1 => scene.code_page + 1,
            _ => scene.data_page,
        },
        // Each number comes with and without marks.
        number: NUMBERS[((case % 4 + 2 * lead + cut + home) % 3) as usize],
        scene,
    };
    let text = match way {
        0 | 1 => odd_register(&mut stage, dice, length),
        2 => off_boundary(&mut stage, dice),
        3 | 4 => first_byte(&mut stage, dice, way == 4),
        5 => later_word(&mut stage, dice),
        6 | 7 => first_field(&mut stage, dice, way == 7),
        8 | 9 => second_field(&mut stage, dice, way == 9),
        10 => bad_quotient(&mut stage, dice, op::DR),
        _ => bad_quotient(&mut stage, dice, op::D),
    };
    finish(stage.scene, dice, stage.at, text, lead == 1)
}

/// Where the instruction lies: all of it in one page, or over the end of it after
/// the first halfword, or before the last.
fn spot(scene: &mut Scene, dice: &mut Dice, length: u32, cut: u32) -> u32 {
    if cut == 1 {
        return 0xFFE;
    }
    if cut == 2 {
        return 0x1000 - (length - 2).max(2);
    }
    if dice.chance(1, 3) {
        let word = scene.word_of(scene.code_page) | M | dice.pick(&[0, H]);
        scene.draft.page(scene.code_page, word);
        return dice.pick(&[0, 1_024, 2_048 - length]);
    }
    dice.pick(&[0, 0, 2, 1_024, 2_046, 4_096 - length])
}

impl Stage {
    fn home_at(&self, displacement: u32) -> u32 {
        self.home * 4_096 + displacement
    }

    /// Is the home a page that the instruction is fetched from?
    fn is_own(&self) -> bool {
        let first = self.at / 4_096;
        self.home == first || self.has_two && self.home == first + 1
    }

    fn set_home(&mut self, change: impl Fn(u16) -> u16) {
        let word = change(self.scene.word_of(self.home));
        self.scene.draft.page(self.home, word);
    }

    /// An address whose first byte is refused to a load, or to a store.
    fn trap(&mut self, dice: &mut Dice, stores: bool) -> u32 {
        if !self.is_own() && dice.chance(1, 5) {
            self.set_home(|word| word | M);
        }
        let word = self.scene.word_of(self.home);
        if word & M != 0 && dice.chance(1, 2) {
            return self.home_at(2_048 + 4 * dice.below(100));
        }
        if stores && (self.is_own() || dice.chance(1, 4)) {
            self.set_home(|word| word | E);
            return self.home_at(512);
        }
        if self.is_own() {
            return dice.pick(&[0x20_0000, 0x20_0200, 0xFF_FFF8]);
        }
        close_for(&mut self.scene, dice, self.home, self.number);
        self.home_at(512)
    }

    /// The address of a first byte that is refused where those before it are
    /// found: a page after the home, or the upper half of it.
    fn seam(&mut self, dice: &mut Dice) -> u32 {
        self.set_home(|word| word & !E);
        if self.scene.word_of(self.home) & M != 0 {
            return self.home_at(2_048);
        }
        let next = self.home + 1;
        let word = match self.scene.word_of(next) {
            0 => OPEN | dice.pick(&MARKS) | dice.below(16) as u16,
            word => word,
        };
        if self.needs_store() {
            self.scene.draft.page(next, word | E);
        } else {
            self.scene.draft.page(next, word);
            close_for(&mut self.scene, dice, next, self.number);
        }
        self.home_at(4_096)
    }

    /// Is the page after the home fetched from, so that it can be closed to
    /// stores alone?
    fn needs_store(&self) -> bool {
        self.has_two && self.home == self.at / 4_096
    }
}

/// MR, DR; or M, D, SLDA, SRDA.
fn odd_register(stage: &mut Stage, dice: &mut Dice, length: u32) -> Vec<u8> {
    let odd = 2 * dice.below(8) as u8 + 1;
    stage.scene.reserve(odd);
    if length == 2 {
        return rr(dice.pick(&[op::MR, op::DR]), odd, dice.below(16) as u8);
    }
    let target = stage.home_at(dice.pick(&[512, 514, 1_024]));
    let (x, base, d) = stage.scene.indexed(dice, target);
    let code = dice.pick(&[op::M, op::D, op::SLDA, op::SRDA]);
    rx(code, odd, x, base, d)
}

fn off_boundary(stage: &mut Stage, dice: &mut Dice) -> Vec<u8> {
    let code = dice.pick(&MEMORY_OPS[..BOUND as usize]);
    let off = match op::boundary(code) {
        2 => 2 * dice.below(2) + 1,
        _ => dice.below(3) + 1,
    };
    let target = stage.home_at(dice.pick(&[512, 2_044, 4_092]) + off);
    stage.scene.aimed(dice, code, target)
}

/// Any instruction with one operand, refused at its first byte.
fn first_byte(stage: &mut Stage, dice: &mut Dice, stores: bool) -> Vec<u8> {
    let codes: Vec<u8> = MEMORY_OPS
        .into_iter()
        .filter(|&code| op::length(code) == 4 && op::stores(code) == stores)
        .collect();
    let target = stage.trap(dice, stores);
    let code = dice.pick(&codes);
    stage.scene.aimed(dice, code, target)
}

/// LM or STM, refused at a later word.
fn later_word(stage: &mut Stage, dice: &mut Dice) -> Vec<u8> {
    let stores = stage.needs_store() || dice.chance(1, 2);
    let code = if stores { op::STM } else { op::LM };
    let found = 1 + dice.below(8);
    let target = stage.seam(dice) - 4 * found;
    let (base, d) = stage.scene.based(dice, target);
    let r1 = dice.below(16);
    let r3 = (r1 + found + dice.below(8)) % 16;
    rs(code, r1 as u8, r3 as u8, base, d)
}

/// MVC or CLC refused in its first field, at once or later. The second field
/// lies in the page of the instruction, or where it would be refused as well.
fn first_field(stage: &mut Stage, dice: &mut Dice, later: bool) -> Vec<u8> {
    let stores = later && stage.needs_store() || dice.chance(2, 3);
    let code = if stores { op::MVC } else { op::CLC };
    let found = if later { 1 + dice.below(12) } else { 0 };
    let first = match later {
        true => stage.seam(dice) - found,
        false => stage.trap(dice, stores),
    };
    let own = stage.at / 4_096 * 4_096 + 600;
    let second = dice.pick(&[own, own, own, 0x20_0000]);
    let length = found + dice.below(12);
    two_fields(stage, dice, (code, length), first, second)
}

/// MVC or CLC refused in its second field, at once or later; the first is found
/// whole.
fn second_field(stage: &mut Stage, dice: &mut Dice, later: bool) -> Vec<u8> {
    stage.set_home(|word| word & !E);
    let code = dice.pick(&[op::MVC, op::MVC, op::CLC]);
    let first = stage.home_at(512 + dice.below(100));
    // Page after page: the first is found, the second refused.
    let edge = stage.scene.data_at(4_096);
    let closed = stage.scene.data_page + 1;
    close_for(&mut stage.scene, dice, closed, stage.number);
    let found = if later { 1 + dice.below(12) } else { 0 };
    let length = found + dice.below(12);
    two_fields(stage, dice, (code, length), first, edge - found)
}

fn two_fields(
    stage: &mut Stage,
    dice: &mut Dice,
    (code, length): (u8, u32),
    first: u32,
    second: u32,
) -> Vec<u8> {
    let (b1, d1) = stage.scene.based(dice, first);
    let (b2, d2) = stage.scene.based(dice, second);
    ss(code, length as u8, b1, d1, b2, d2)
}

/// DR or D by zero, or by something too small.
fn bad_quotient(stage: &mut Stage, dice: &mut Dice, code: u8) -> Vec<u8> {
    let divisor = dice.pick(&[0, 0, 1, 0xFFFF_FFFF]);
    let even = stage.scene.any_pair(dice);
    let high = dice.pick(&[1, 0x7FFF_FFFF, 0x8000_0000]);
    stage.scene.draft.register(even, high);
    if code == op::DR {
        let number = stage.scene.take();
        stage.scene.draft.register(number, divisor);
        return rr(code, even, number);
    }
    let target = stage.home_at(512);
    stage.scene.put_word(target, divisor);
    let (x, base, d) = stage.scene.indexed(dice, target);
    rx(code, even, x, base, d)
}
