//! A scene: a sheet with a page of code, two pages of data that follow each
//! other, and registers not yet spoken for. The sweeps write their
//! instructions into a scene.

use crate::draft::{rr, rs, rx, si, ss, Draft};
use crate::machine::{E, FRAME, G, H, M, S, U, W, XXX};
use crate::operations::{self as op, Form};
use common::dice::Dice;

pub const ADDRESS_BITS: u32 = 0x00FF_FFFF;
pub const OPEN: u16 = U | S;

pub struct Scene {
    pub draft: Draft,
    /// Pages and frames of the scene; the second of each follows the first
    /// in virtual memory, not in real memory.
    pub code_page: u32,
    pub code_frames: [u16; 2],
    pub data_page: u32,
    pub data_frames: [u16; 2],
    /// Where the code starts within its page, and the code so far.
    pub offset: u32,
    pub code: Vec<u8>,
    /// Registers from 1 to 15 still free.
    pub free: Vec<u8>,
    /// Steps that the code takes when nothing is refused.
    pub steps: u32,
}

impl Scene {
    pub fn new(dice: &mut Dice) -> Scene {
        let (code_page, data_page) = two_pages(dice);
        let mut frames: Vec<u16> = (0..16).collect();
        dice.shuffle(&mut frames);
        let mut scene = Scene {
            draft: Draft::default(),
            code_page,
            code_frames: [frames[0], frames[1]],
            data_page,
            data_frames: [frames[2], frames[3]],
            offset: if dice.chance(1, 4) {
                2 * dice.below(900)
            } else {
                0
            },
            code: Vec::new(),
            free: registers_in_some_order(dice),
            steps: 0,
        };
        let word = open_word(dice, scene.code_frames[0], false);
        scene.draft.page(code_page, word);
        for index in 0..2 {
            let word = open_word(dice, scene.data_frames[index as usize], true);
            scene.draft.page(data_page + index, word);
        }
        scene.draft.code = dice.below(4);
        scene.draft.mask = dice.below(16);
        if dice.chance(1, 3) {
            let junk = dice.edge_word();
            scene.draft.register(0, junk);
        }
        scene
    }

    /// The virtual address of a displacement in the code page.
    pub fn code_at(&self, displacement: u32) -> u32 {
        (self.code_page * 4_096 + displacement) & ADDRESS_BITS
    }

    /// The virtual address of a displacement in the data pages.
    pub fn data_at(&self, displacement: u32) -> u32 {
        (self.data_page * 4_096 + displacement) & ADDRESS_BITS
    }

    /// Where the next instruction will lie.
    pub fn here(&self) -> u32 {
        self.code_at(self.offset + self.code.len() as u32)
    }

    /// Adds an instruction that takes one step.
    pub fn add(&mut self, instruction: Vec<u8>) {
        self.code.extend_from_slice(&instruction);
        self.steps += 1;
    }

    /// Takes a free register.
    pub fn take(&mut self) -> u8 {
        self.free.pop().unwrap_or(15)
    }

    /// Marks a register as not free.
    pub fn reserve(&mut self, number: u8) {
        self.free.retain(|&other| other != number);
    }

    /// Any even register and the odd one after it, 0 and 1 as well.
    pub fn any_pair(&mut self, dice: &mut Dice) -> u8 {
        let even = 2 * dice.below(8) as u8;
        self.reserve(even);
        self.reserve(even + 1);
        even
    }

    /// An even register and the odd one after it, both free.
    pub fn take_pair(&mut self) -> u8 {
        for even in [2, 4, 6, 8, 10, 12, 14] {
            if self.free.contains(&even) && self.free.contains(&(even + 1)) {
                self.reserve(even);
                self.reserve(even + 1);
                return even;
            }
        }
        14
    }

    /// Takes a register, or sometimes register 0.
    pub fn take_or_zero(&mut self, dice: &mut Dice) -> u8 {
        if dice.chance(1, 8) {
            0
        } else {
            self.take()
        }
    }

    /// A register, freshly loaded with an address whose top byte may be
    /// anything.
    pub fn pointer(&mut self, dice: &mut Dice, address: u32) -> u8 {
        let number = self.take();
        let top = if dice.chance(1, 3) {
            dice.word() & !ADDRESS_BITS
        } else {
            0
        };
        self.draft.register(number, (address & ADDRESS_BITS) | top);
        number
    }

    /// A base register and displacement for an address.
    pub fn based(&mut self, dice: &mut Dice, target: u32) -> (u8, u32) {
        if target < 4_096 && dice.chance(1, 2) {
            return (0, target);
        }
        let d = displacement(dice);
        (self.pointer(dice, target.wrapping_sub(d)), d)
    }

    /// Index register, base register and displacement for an address.
    pub fn indexed(&mut self, dice: &mut Dice, target: u32) -> (u8, u8, u32) {
        if target < 4_096 && dice.chance(1, 2) {
            return (0, 0, target);
        }
        let d = displacement(dice);
        let rest = target.wrapping_sub(d) & ADDRESS_BITS;
        match dice.below(8) {
            0 | 1 => (self.pointer(dice, rest), 0, d),
            2 | 3 => {
                let index = match dice.below(3) {
                    0 => dice.below(64) * 4,
                    1 => dice.word() & ADDRESS_BITS,
                    _ => 0u32.wrapping_sub(4 * dice.below(64)) & ADDRESS_BITS,
                };
                let x = self.pointer(dice, index);
                let b = self.pointer(dice, rest.wrapping_sub(index));
                (x, b, d)
            }
            4 if rest % 2 == 0 => {
                let half = rest / 2 + dice.pick(&[0, 0x80_0000]);
                let both = self.pointer(dice, half);
                (both, both, d)
            }
            _ => (0, self.pointer(dice, rest), d),
        }
    }

    /// The word of a page in this sheet.
    pub fn word_of(&self, page: u32) -> u16 {
        for &(other, word) in &self.draft.pages {
            if other == page {
                return word;
            }
        }
        0
    }

    /// Where a virtual byte would lie, tests left out; nothing when that is
    /// outside memory.
    pub fn real_of(&self, address: u32) -> Option<u32> {
        if address >= 2_097_152 {
            return None;
        }
        let word = self.word_of(address / 4_096);
        let mut real = u32::from(word & FRAME) * 4_096 + address % 4_096;
        if word & M != 0 && word & H != 0 {
            real += 2_048;
        }
        if real < 65_536 {
            Some(real)
        } else {
            None
        }
    }

    /// Puts bytes at a virtual address, as far as they have a place.
    pub fn put(&mut self, address: u32, content: &[u8]) {
        let mut start = 0;
        while start < content.len() {
            let first = self.real_of((address + start as u32) & ADDRESS_BITS);
            let mut end = start + 1;
            while end < content.len() {
                let next = self.real_of((address + end as u32) & ADDRESS_BITS);
                if first.is_none() != next.is_none() {
                    break;
                }
                if let (Some(first), Some(next)) = (first, next) {
                    if next != first + (end - start) as u32 {
                        break;
                    }
                }
                end += 1;
            }
            if let Some(real) = first {
                self.draft.put(real, &content[start..end]);
            }
            start = end;
        }
    }

    pub fn put_word(&mut self, address: u32, value: u32) {
        self.put(address, &value.to_be_bytes());
    }

    /// Code that folds `words` words from an address into one register:
    /// what was stored shows in the answer. The link of the first
    /// instruction also keeps the condition code.
    pub fn fold(&mut self, dice: &mut Dice, start: u32, words: u32) {
        let increment = self.take_pair();
        let base = self.take();
        let hash = self.take();
        let spare = self.take();
        let pointer = self.pointer(dice, start);
        // The pointer is compared as a signed word, so no top byte here.
        self.draft.register(pointer, start);
        self.draft.register(increment, 4);
        self.draft.register(increment + 1, start + 4 * (words - 1));
        self.add(rr(op::BALR, base, 0));
        let mut body = rr(op::LR, spare, hash);
        body.extend(rs(op::SRL, spare, 0, 0, 31));
        body.extend(rs(op::SLL, hash, 0, 0, 1));
        body.extend(rr(op::OR, hash, spare));
        body.extend(rx(op::X, hash, 0, pointer, 0));
        body.extend(rs(op::BXLE, pointer, increment, base, 0));
        self.code.extend_from_slice(&body);
        self.steps += 6 * words;
    }

    /// Some good instruction with this operation code: its memory operands
    /// lie in the data pages. A branch goes to the instruction after it.
    pub fn good(&mut self, dice: &mut Dice, code: u8) -> Vec<u8> {
        let displacement = self.data_displacement(dice, code);
        let target = self.data_at(displacement);
        if code == op::D {
            // Memory is zero elsewhere, and no divisor.
            self.put_word(target, dice.edge_word() | 1);
        }
        self.aimed(dice, code, target)
    }

    /// A displacement in the data pages at which the operation is allowed.
    pub fn data_displacement(&self, dice: &mut Dice, code: u8) -> u32 {
        let near = dice.pick(&[0, 4, 64, 1_000, 2_044, 2_048, 3_600, 4_092]);
        let boundary = op::boundary(code).max(1);
        match boundary {
            1 => near + dice.below(4),
            _ => near,
        }
    }

    /// An instruction with this operation code whose memory operands start
    /// at this address (the second of two fields nearby in the data pages).
    pub fn aimed(&mut self, dice: &mut Dice, code: u8, target: u32) -> Vec<u8> {
        let Some(row) = op::find(code) else {
            return vec![code, dice.byte()];
        };
        match row.form {
            Form::RR => self.aimed_rr(dice, code),
            Form::RX => self.aimed_rx(dice, code, target),
            Form::RS => self.aimed_rs(dice, code, target),
            Form::SI => {
                let (b, d) = self.based(dice, target);
                si(code, dice.edge_byte(), b, d)
            }
            Form::SS => {
                let length = dice.pick(&[0, 1, 2, 3, 7, 30]);
                let (b1, d1) = self.based(dice, target);
                let other = self.data_at(dice.pick(&[8, 65, 1_001, 2_040, 3_700, 4_090]));
                let (b2, d2) = self.based(dice, other);
                ss(code, length, b1, d1, b2, d2)
            }
        }
    }

    fn aimed_rr(&mut self, dice: &mut Dice, code: u8) -> Vec<u8> {
        if !matches!(code, op::BCR | op::BALR | op::BCTR) {
            let r1 = self.first_register(dice, code);
            let r2 = if dice.chance(1, 8) {
                r1
            } else {
                self.valued(dice)
            };
            return rr(code, r1, r2);
        }
        let next = self.here().wrapping_add(2);
        let r1 = if dice.chance(1, 8) {
            0
        } else {
            let taken = self.take();
            let value = dice.edge_word();
            self.draft.register(taken, value);
            taken
        };
        let r2 = match dice.below(6) {
            0 => 0,
            1 if r1 != 0 => {
                self.draft.register(r1, next);
                r1
            }
            _ => self.pointer(dice, next),
        };
        let r1 = if code == op::BCR {
            dice.below(16) as u8
        } else {
            r1
        };
        rr(code, r1, r2)
    }

    fn aimed_rx(&mut self, dice: &mut Dice, code: u8, target: u32) -> Vec<u8> {
        if matches!(code, op::BC | op::BAL | op::BCT) {
            let next = self.here().wrapping_add(4);
            let (x, b, d) = self.indexed(dice, next);
            let r1 = self.valued(dice);
            return rx(code, r1, x, b, d);
        }
        let (x, b, d) = self.indexed(dice, target);
        let r1 = match dice.chance(1, 12) {
            // The base among the registers that the operation changes.
            true if b != 0 && op::needs_pair(code) => b & !1,
            true if b != 0 => b,
            _ => self.first_register(dice, code),
        };
        rx(code, r1, x, b, d)
    }

    fn aimed_rs(&mut self, dice: &mut Dice, code: u8, target: u32) -> Vec<u8> {
        match code {
            _ if op::shifts(code) => {
                let amount = dice.pick(&[0, 1, 8, 31, 32, 63, 64, 100]);
                let (b, d) = self.based(dice, amount);
                let r1 = self.first_register(dice, code);
                rs(code, r1, dice.below(16) as u8, b, d)
            }
            op::BXH | op::BXLE => {
                let next = self.here().wrapping_add(4);
                let (b, d) = self.based(dice, next);
                let r1 = self.valued(dice);
                let r3 = self.valued(dice);
                rs(code, r1, r3, b, d)
            }
            _ => {
                let (b, d) = self.based(dice, target);
                let r1 = dice.below(16) as u8;
                let words = dice.pick(&[1, 1, 2, 3, 16]);
                let r3 = ((u32::from(r1) + words - 1) % 16) as u8;
                rs(code, r1, r3, b, d)
            }
        }
    }

    /// A register with some value in it, or register 0 as it is.
    pub fn valued(&mut self, dice: &mut Dice) -> u8 {
        if dice.chance(1, 10) {
            return 0;
        }
        let number = self.take();
        let value = dice.edge_word();
        self.register_if_new(number, value);
        number
    }

    /// Gives a register its value, unless it has one.
    fn register_if_new(&mut self, number: u8, value: u32) {
        let registers = &self.draft.registers;
        if !registers.iter().any(|&(other, _)| other == number) {
            self.draft.register(number, value);
        }
    }

    /// A register with some value in it, as this operation needs one: where
    /// that is a pair, most often with a number that a word could hold, so
    /// that most quotients fit.
    pub fn first_register(&mut self, dice: &mut Dice, code: u8) -> u8 {
        if !op::needs_pair(code) {
            return self.valued(dice);
        }
        let even = self.take_pair();
        let odd_word = dice.edge_word();
        let even_word = match dice.below(4) {
            0 => dice.edge_word(),
            _ if odd_word >= 0x8000_0000 => 0xFFFF_FFFF,
            _ => 0,
        };
        self.register_if_new(even, even_word);
        self.register_if_new(even + 1, odd_word);
        even + u8::from(dice.chance(1, 20))
    }

    /// Ends the sheet: puts the code in its place and chooses the budget,
    /// most often just what the code needs.
    pub fn finish(mut self, dice: &mut Dice) -> Draft {
        let budget = match dice.below(20) {
            0 => self.steps.saturating_sub(1),
            1..=3 => self.steps + 1,
            4 => self.steps + 2 + dice.below(20),
            _ => self.steps,
        };
        self.draft.budget = budget.min(65_535);
        self.place_code();
        self.draft
    }

    /// Ends the sheet with this budget.
    pub fn finish_with(mut self, budget: u32) -> Draft {
        self.draft.budget = budget;
        self.place_code();
        self.draft
    }

    fn place_code(&mut self) {
        let start = self.code_at(self.offset);
        let code = std::mem::take(&mut self.code);
        self.put(start, &code);
        self.draft.counter = start;
    }
}

/// A page for code and one for data; neither is the one after the other.
fn two_pages(dice: &mut Dice) -> (u32, u32) {
    let code_page = match dice.below(3) {
        0 => 10,
        1 => dice.pick(&[0, 1, 9, 63, 64, 110, 127, 255, 256, 448, 509]),
        _ => dice.below(510),
    };
    loop {
        let page = match dice.below(3) {
            0 => 20,
            1 => dice.pick(&[0, 2, 62, 63, 128, 383, 505, 509]),
            _ => dice.below(510),
        };
        if page > code_page + 1 || page + 1 < code_page {
            return (code_page, page);
        }
    }
}

/// The numbers 1 to 15 in some order.
fn registers_in_some_order(dice: &mut Dice) -> Vec<u8> {
    let mut order: Vec<u8> = (1..16).collect();
    dice.shuffle(&mut order);
    order
}

/// The word of an open page: marks may be up already, H may be up without M.
pub fn open_word(dice: &mut Dice, frame: u16, writable: bool) -> u16 {
    let mut word = OPEN | frame;
    if dice.chance(1, 8) {
        word |= W;
    }
    if dice.chance(1, 8) {
        word |= G;
    }
    if dice.chance(1, 8) {
        word |= H;
    }
    if !writable && dice.chance(1, 4) {
        word |= E;
    }
    word
}

pub fn displacement(dice: &mut Dice) -> u32 {
    match dice.below(3) {
        0 => 0,
        1 => dice.pick(&[0, 1, 2, 4, 2_047, 2_048, 4_092, 4_095]),
        _ => dice.below(4_096),
    }
}

/// Ways in which a page word can stand in the way (and some in which it
/// does not).
pub const FAULTS: u32 = 20;

/// The page word of a fault.
pub fn fault_word(dice: &mut Dice, fault: u32, frame: u16) -> u16 {
    let past = dice.pick(&[16, 17, 31, 32, 47, 48, 63]);
    match fault {
        0 => 0,
        1 => S | (dice.roll() as u16 & (W | G | E | M | H)) | frame,
        2 => S | (dice.roll() as u16 & (E | M | H)) | some_x(dice) | frame,
        3 => OPEN | 0x0040 | frame,
        4 => OPEN | 0x0080 | frame,
        5 => OPEN | 0x0100 | frame,
        6 => U | (dice.roll() as u16 & (S | E | M | H | W)) | some_x(dice) | frame,
        7 => U | frame,
        8 => U | (dice.roll() as u16 & (E | M | H)) | frame,
        9 => OPEN | 16,
        10 => OPEN | 63,
        11 => OPEN | past,
        12 => OPEN | M | frame,
        13 => OPEN | M | H | frame,
        14 => OPEN | E | frame,
        15 => W | G | frame,
        16 => U | past,
        17 => OPEN | E | past,
        18 => OPEN | M | (dice.roll() as u16 & (H | E)) | past,
        _ => OPEN | (dice.roll() as u16 & (W | G | H)) | frame,
    }
}

fn some_x(dice: &mut Dice) -> u16 {
    (1 + dice.below(7) as u16) << 6 & XXX
}
