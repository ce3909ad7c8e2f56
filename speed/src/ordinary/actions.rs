//! What the operations are made of.

use super::cpu::Cpu;
use super::results::{compared, tested};
use super::store::{refuse, Access, Purpose, Refusal, ADDRESS, SPECIFICATION};

/// The words of LM and STM.
const MULTIPLE: usize = 64;

#[inline(always)]
pub fn on_boundary(at: u32, bytes: usize) -> Result<(), Refusal> {
    if at % bytes as u32 == 0 {
        Ok(())
    } else {
        refuse(SPECIFICATION, at)
    }
}

/// How many registers LM and STM name.
#[inline(always)]
fn named(r1: usize, r3: usize) -> usize {
    (r3.wrapping_sub(r1) & 15) + 1
}

impl<A: Access> Cpu<'_, A> {
    #[inline(always)]
    pub fn set(&mut self, register: usize, (value, code): (u32, u32)) {
        self.registers[register] = value;
        self.code = code;
    }

    #[inline(always)]
    pub fn compare<T: Ord>(&mut self, one: T, other: T) {
        self.code = compared(one.cmp(&other));
    }

    #[inline(always)]
    pub fn branch_if(&mut self, taken: bool, target: u32) {
        if taken {
            self.counter = target & ADDRESS;
        }
    }

    /// Whether a branch's mask picks the code.
    #[inline(always)]
    pub fn picked(&self, mask: usize) -> bool {
        mask & (8 >> self.code) != 0
    }

    #[inline(always)]
    pub fn link(&self, length_code: u32) -> u32 {
        length_code << 30 | self.code << 28 | self.mask << 24 | self.counter
    }

    /// Takes one off, and answers whether something is left.
    #[inline(always)]
    pub fn count_down(&mut self, register: usize) -> bool {
        let left = self.registers[register].wrapping_sub(1);
        self.registers[register] = left;
        left != 0
    }

    /// Adds the increment, and answers whether the sum is above the comparand, which is taken as it stood.
    #[inline(always)]
    pub fn step_index(&mut self, r1: usize, r3: usize) -> bool {
        let comparand = self.registers[r3 | 1];
        let sum = self.registers[r1].wrapping_add(self.registers[r3]);
        self.registers[r1] = sum;
        sum as i32 > comparand as i32
    }

    #[inline(always)]
    fn load<const N: usize>(&mut self, at: u32) -> Result<[u8; N], Refusal> {
        on_boundary(at, N)?;
        let place = A::short::<N>(&self.store, at, Purpose::Read)?;
        Ok(A::load(&mut self.store, place))
    }

    #[inline(always)]
    pub fn byte(&mut self, at: u32) -> Result<u8, Refusal> {
        Ok(u8::from_be_bytes(self.load(at)?))
    }

    /// A halfword, its sign spread over the word.
    #[inline(always)]
    pub fn half(&mut self, at: u32) -> Result<u32, Refusal> {
        Ok(i32::from(i16::from_be_bytes(self.load(at)?)) as u32)
    }

    #[inline(always)]
    pub fn word(&mut self, at: u32) -> Result<u32, Refusal> {
        Ok(u32::from_be_bytes(self.load(at)?))
    }

    #[inline(always)]
    pub fn save<const N: usize>(&mut self, at: u32, bytes: [u8; N]) -> Result<(), Refusal> {
        on_boundary(at, N)?;
        let place = A::short::<N>(&self.store, at, Purpose::Write)?;
        A::save(&mut self.store, place, bytes);
        Ok(())
    }

    /// A byte is looked up once, for writing, and takes what it becomes.
    #[inline(always)]
    pub fn alter(&mut self, at: u32, becomes: impl Fn(u8) -> u8) -> Result<(), Refusal> {
        let place = A::short::<1>(&self.store, at, Purpose::Write)?;
        let [byte] = A::load(&mut self.store, place);
        let byte = becomes(byte);
        A::save(&mut self.store, place, [byte]);
        self.code = u32::from(byte != 0);
        Ok(())
    }

    #[inline(always)]
    pub fn test(&mut self, at: u32, mask: u8) -> Result<(), Refusal> {
        self.code = tested(self.byte(at)?, mask);
        Ok(())
    }

    #[inline]
    pub fn load_multiple(&mut self, r1: usize, r3: usize, at: u32) -> Result<(), Refusal> {
        on_boundary(at, 4)?;
        let length = 4 * named(r1, r3);
        let field = A::long(&self.store, at, length, Purpose::Read)?;
        let mut bytes = [0; MULTIPLE];
        A::load_long(&mut self.store, &field, &mut bytes[..length]);
        for (i, word) in bytes[..length].chunks_exact(4).enumerate() {
            let word = word.iter().fold(0, |n, byte| n << 8 | u32::from(*byte));
            self.registers[(r1 + i) & 15] = word;
        }
        Ok(())
    }

    #[inline]
    pub fn save_multiple(&mut self, r1: usize, r3: usize, at: u32) -> Result<(), Refusal> {
        on_boundary(at, 4)?;
        let length = 4 * named(r1, r3);
        let field = A::long(&self.store, at, length, Purpose::Write)?;
        let mut bytes = [0; MULTIPLE];
        for (i, word) in bytes[..length].chunks_exact_mut(4).enumerate() {
            word.copy_from_slice(&self.registers[(r1 + i) & 15].to_be_bytes());
        }
        A::save_long(&mut self.store, &field, &bytes[..length]);
        Ok(())
    }

    #[inline(always)]
    pub fn move_bytes(&mut self, to: u32, from: u32, length: usize) -> Result<(), Refusal> {
        let to = A::long(&self.store, to, length, Purpose::Write)?;
        let from = A::long(&self.store, from, length, Purpose::Read)?;
        A::move_long(&mut self.store, &to, &from);
        Ok(())
    }

    #[inline(always)]
    pub fn compare_bytes(&mut self, one: u32, other: u32, length: usize) -> Result<(), Refusal> {
        let one = A::long(&self.store, one, length, Purpose::Read)?;
        let other = A::long(&self.store, other, length, Purpose::Read)?;
        self.code = compared(A::compare_long(&mut self.store, &one, &other));
        Ok(())
    }
}
