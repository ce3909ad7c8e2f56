//! A case in the making: registers, bytes, and addresses that are reached from them.

use crate::case::{Case, ADDRESS, WINDOW, ZONE, ZONE_AT};
use crate::draw::{self, Draw};
use common::dice::Dice;
use common::set::{length, Instruction};

/// From here to the end of storage all is zero in Hercules: a branch to it is caught.
const HIGH: u32 = 0x30_0000;

/// SVC, which ends a case wherever the counter went.
const SVC: [u8; 2] = [0x0A, 0x01];

pub struct Draft {
    pub dice: Dice,
    pub regs: [u32; 16],
    pub counter: u32,
    size: u32,
    window_at: u32,
    window: Vec<u8>,
    zone: Vec<u8>,
    crosses: bool,
}

impl Draft {
    pub fn new(instruction: &Instruction, number: usize, window_at: u32) -> Draft {
        let mut dice = draw::dice(instruction.operation, number);
        let mut draft = Draft {
            regs: std::array::from_fn(|_| dice.content_word()),
            window: (0..WINDOW).map(|_| dice.content_byte()).collect(),
            zone: (0..ZONE).map(|_| dice.content_byte()).collect(),
            size: length(instruction.operation) as u32,
            counter: 0,
            crosses: false,
            window_at,
            dice,
        };
        draft.counter = draft.choose_counter();
        draft.note(draft.counter, draft.size);
        draft
    }

    /// The edge of a page inside the window, if there is one.
    fn edge(&self) -> Option<u32> {
        let edge = (self.window_at + WINDOW as u32 - 1) & !0xFFF;
        (edge > self.window_at).then_some(edge)
    }

    /// An even place for the code and the SVC after it; often before, across or after the edge of a page, if there is one.
    fn choose_counter(&mut self) -> u32 {
        match self.edge() {
            Some(edge) if self.dice.once_in(2) => edge - 2 * self.dice.below(self.size / 2 + 1),
            _ => self.window_at + 2 * self.dice.below((WINDOW as u32 - self.size - 2) / 2),
        }
    }

    /// Notes bytes that lie across the edge of a page.
    pub fn note(&mut self, at: u32, len: u32) {
        self.crosses |= at / 4096 != (at + len - 1) / 4096;
    }

    /// Whether bytes lie apart from the code and the SVC after it.
    fn is_apart(&self, at: u32, len: u32) -> bool {
        at + len <= self.counter || at >= self.counter + self.size + 2
    }

    /// A place for an operand; in page 0 if that is all the registers can reach.
    pub fn place(&mut self, len: u32, align: u32, stores: bool, low: bool) -> u32 {
        if low || self.dice.once_in(8) {
            let room = ZONE as u32 - len;
            let back = match self.dice.below(3) {
                0 => 0,
                _ => self.dice.below(room + 1),
            };
            return (ZONE_AT + room - back) & !(align - 1);
        }
        loop {
            let room = WINDOW as u32 - len;
            let at = match self.edge() {
                Some(edge) if self.dice.once_in(2) => edge - self.dice.below(len + 1),
                _ => self.window_at + self.dice.below(room + 1),
            };
            let at = at & !(align - 1);
            if at >= self.window_at
                && at <= self.window_at + room
                && (!stores || self.is_apart(at, len))
            {
                return at;
            }
        }
    }

    /// Whether a field lies wholly in the case's own bytes, and can be stored to.
    pub fn may_hold(&self, at: u32, len: u32, stores: bool) -> bool {
        let in_zone = at >= ZONE_AT && at + len <= ZONE_AT + ZONE as u32;
        let in_window = at >= self.window_at && at + len <= self.window_at + WINDOW as u32;
        in_zone || in_window && (!stores || self.is_apart(at, len))
    }

    /// A place to branch to: own bytes, storage far off, and odd addresses.
    pub fn target(&mut self, low: bool) -> u32 {
        let odd = u32::from(self.dice.once_in(8));
        if !low && self.dice.once_in(6) {
            let far = match self.dice.below(3) {
                0 => self.dice.pick(&[ADDRESS - 1, HIGH, 0x7F_FFFE, 0x80_0000]),
                _ => HIGH + (self.dice.below(ADDRESS - HIGH) & !1),
            };
            return far + odd;
        }
        loop {
            let at = self.place(2, 2, false, low);
            if at < self.counter || at >= self.counter + self.size {
                return at + odd;
            }
        }
    }

    /// Sets the base (and the index) so that the address is `at`, and answers the displacement. Their top bytes are anything.
    pub fn reach(&mut self, at: u32, base: usize, index: usize) -> u32 {
        let mut displacement = self.dice.displacement();
        let left = |displacement: u32| at.wrapping_sub(displacement);
        match (base, index) {
            (0, 0) => return at,
            (0, register) | (register, 0) => self.set_address(register, left(displacement)),
            (base, index) if base == index => {
                displacement ^= (at ^ displacement) & 1;
                let half = (left(displacement) & ADDRESS) / 2;
                let high = 0x80_0000 * self.dice.below(2);
                self.set_address(base, half + high);
            }
            (base, index) => {
                let rest = left(displacement).wrapping_sub(self.regs[index]);
                self.set_address(base, rest);
            }
        }
        displacement
    }

    pub fn set_address(&mut self, register: usize, at: u32) {
        let top = self.dice.content_byte();
        self.regs[register] = u32::from(top) << 24 | at & ADDRESS;
    }

    /// The own byte at an address.
    fn own(&mut self, at: u32) -> Option<&mut u8> {
        if at >= ZONE_AT && at < ZONE_AT + ZONE as u32 {
            return self.zone.get_mut((at - ZONE_AT) as usize);
        }
        let offset = at.checked_sub(self.window_at)?;
        self.window.get_mut(offset as usize)
    }

    pub fn plant(&mut self, at: u32, bytes: &[u8]) {
        for (i, byte) in bytes.iter().enumerate() {
            if let Some(own) = self.own(at + i as u32) {
                *own = *byte;
            }
        }
    }

    pub fn look(&mut self, at: u32, len: u32) -> Vec<u8> {
        (0..len).filter_map(|i| self.own(at + i).copied()).collect()
    }

    /// The case, with SVC after the code and where a branch may go.
    pub fn finish(
        mut self,
        instruction: &'static Instruction,
        number: usize,
        text: &[u8],
        target: Option<u32>,
    ) -> Case {
        let counter = self.counter;
        if let Some(at) = target.filter(|at| at % 2 == 0) {
            self.plant(at, &SVC);
        }
        self.plant(counter, text);
        self.plant(counter + self.size, &SVC);
        Case {
            instruction,
            number,
            counter,
            code: self.dice.below(4) as u8,
            mask: self.dice.below(16) as u8,
            regs: self.regs,
            window_at: self.window_at,
            window: self.window,
            zone: self.zone,
            crosses: self.crosses,
            order: self.dice.below(6) as usize,
        }
    }
}
