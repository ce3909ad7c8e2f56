//! Multiply, divide and the shifts of a pair of registers. They are kept out of the step that the common instructions are inlined
//! into, which is quicker without them.

use super::actions::on_boundary;
use super::cpu::Cpu;
use super::results::{divide, multiply};
use super::store::{
    onward, refuse, Access, Purpose, Refusal, ADDRESS, DIVIDE_ERROR, SPECIFICATION,
};

impl<A: Access> Cpu<'_, A> {
    /// Refuses with a place where the instruction began, which the counter has been moved past.
    #[cold]
    fn refuse_here<T>(&self, number: u32, length: u32) -> Result<T, Refusal> {
        refuse(number, onward(self.counter, ADDRESS + 1 - length))
    }

    /// What a pair of registers holds, for an instruction of so many bytes.
    #[inline(always)]
    fn pair(&self, r1: usize, length: u32) -> Result<u64, Refusal> {
        if r1 & 1 != 0 {
            return self.refuse_here(SPECIFICATION, length);
        }
        Ok(u64::from(self.registers[r1]) << 32 | u64::from(self.registers[r1 | 1]))
    }

    #[inline(always)]
    fn set_pair(&mut self, r1: usize, value: u64) {
        self.registers[r1 & !1] = (value >> 32) as u32;
        self.registers[r1 | 1] = value as u32;
    }

    #[inline(always)]
    fn divide(&mut self, r1: usize, pair: u64, by: u32, length: u32) -> Result<(), Refusal> {
        let Some((remainder, quotient)) = divide(pair, by) else {
            return self.refuse_here(DIVIDE_ERROR, length);
        };
        self.set_pair(r1, u64::from(remainder) << 32 | u64::from(quotient));
        Ok(())
    }

    #[inline(never)]
    pub fn multiply_register(&mut self, r1: usize, other: u32) -> Result<(), Refusal> {
        let pair = self.pair(r1, 2)?;
        self.set_pair(r1, multiply(pair as u32, other));
        Ok(())
    }

    #[inline(never)]
    pub fn divide_register(&mut self, r1: usize, other: u32) -> Result<(), Refusal> {
        let pair = self.pair(r1, 2)?;
        self.divide(r1, pair, other, 2)
    }

    #[inline(never)]
    pub fn multiply_word(&mut self, r1: usize, at: u32) -> Result<(), Refusal> {
        let pair = self.pair(r1, 4)?;
        let other = self.word(at)?;
        self.set_pair(r1, multiply(pair as u32, other));
        Ok(())
    }

    /// The divisor marks its page only if it divides.
    #[inline(never)]
    pub fn divide_word(&mut self, r1: usize, at: u32) -> Result<(), Refusal> {
        let pair = self.pair(r1, 4)?;
        on_boundary(at, 4)?;
        let place = A::short::<4>(&self.store, at, Purpose::Read)?;
        let divisor = u32::from_be_bytes(A::peek(&self.store, place));
        self.divide(r1, pair, divisor, 4)?;
        let _: [u8; 4] = A::load(&mut self.store, place);
        Ok(())
    }

    #[inline(never)]
    pub fn shift_pair(
        &mut self,
        r1: usize,
        amount: u32,
        shift: impl Fn(u64, u32) -> (u64, u32),
    ) -> Result<(), Refusal> {
        let (value, code) = shift(self.pair(r1, 4)?, amount);
        self.set_pair(r1, value);
        self.code = code;
        Ok(())
    }
}
