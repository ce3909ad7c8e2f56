//! The operations by format. `step` lets only those of the set through.

use super::cpu::{nibbles, Cpu};
use super::results::{
    add, add_logical, below_zero, bits, shift_left, shift_pair_left, shift_pair_right, shift_right,
    signed, subtract, subtract_logical, without_sign,
};
use super::store::{Access, Refusal, ADDRESS};

impl<A: Access> Cpu<'_, A> {
    #[inline(always)]
    pub fn rr(&mut self, operation: u8, second: u8) -> Result<(), Refusal> {
        let (r1, r2) = nibbles(second);
        let (one, other) = (self.registers[r1], self.registers[r2]);
        match operation {
            0x05 => {
                self.registers[r1] = self.link(1);
                self.branch_if(r2 != 0, other);
            }
            0x06 => {
                let left = self.count_down(r1);
                self.branch_if(left && r2 != 0, other);
            }
            0x07 => self.branch_if(self.picked(r1) && r2 != 0, other),
            0x10 => self.set(r1, without_sign(other)),
            0x11 => self.set(r1, below_zero(other)),
            0x12 => self.set(r1, signed(other, false)),
            0x13 => self.set(r1, subtract(0, other)),
            0x14 => self.set(r1, bits(one & other)),
            0x15 => self.compare(one, other),
            0x16 => self.set(r1, bits(one | other)),
            0x17 => self.set(r1, bits(one ^ other)),
            0x18 => self.registers[r1] = other,
            0x19 => self.compare(one as i32, other as i32),
            0x1A => self.set(r1, add(one, other)),
            0x1B => self.set(r1, subtract(one, other)),
            0x1C => return self.multiply_register(r1, other),
            0x1D => return self.divide_register(r1, other),
            0x1E => self.set(r1, add_logical(one, other)),
            _ => self.set(r1, subtract_logical(one, other)),
        }
        Ok(())
    }

    #[inline(always)]
    pub fn rx(&mut self, operation: u8, second: u8, rest: [u8; 2]) -> Result<(), Refusal> {
        let (r1, _) = nibbles(second);
        let index = self.content(second & 15);
        let at = self.based(rest).wrapping_add(index) & ADDRESS;
        let one = self.registers[r1];
        match operation {
            0x40 => return self.save(at, (one as u16).to_be_bytes()),
            0x41 => self.registers[r1] = at,
            0x42 => return self.save(at, [one as u8]),
            0x43 => self.registers[r1] = one & !0xFF | u32::from(self.byte(at)?),
            0x45 => {
                self.registers[r1] = self.link(2);
                self.counter = at;
            }
            0x46 => {
                let left = self.count_down(r1);
                self.branch_if(left, at);
            }
            0x47 => self.branch_if(self.picked(r1), at),
            0x48 => self.registers[r1] = self.half(at)?,
            0x49..=0x4C => return self.rx_half(operation, r1, one, at),
            0x50 => return self.save(at, one.to_be_bytes()),
            0x58 => self.registers[r1] = self.word(at)?,
            0x5C => return self.multiply_word(r1, at),
            0x5D => return self.divide_word(r1, at),
            _ => return self.rx_combine(operation, r1, one, at),
        }
        Ok(())
    }

    #[inline(always)]
    fn rx_half(&mut self, operation: u8, r1: usize, one: u32, at: u32) -> Result<(), Refusal> {
        let other = self.half(at)?;
        match operation {
            0x49 => self.compare(one as i32, other as i32),
            0x4A => self.set(r1, add(one, other)),
            0x4B => self.set(r1, subtract(one, other)),
            _ => self.registers[r1] = one.wrapping_mul(other),
        }
        Ok(())
    }

    #[inline(always)]
    fn rx_combine(&mut self, operation: u8, r1: usize, one: u32, at: u32) -> Result<(), Refusal> {
        let other = self.word(at)?;
        match operation {
            0x54 => self.set(r1, bits(one & other)),
            0x55 => self.compare(one, other),
            0x56 => self.set(r1, bits(one | other)),
            0x57 => self.set(r1, bits(one ^ other)),
            0x59 => self.compare(one as i32, other as i32),
            0x5A => self.set(r1, add(one, other)),
            0x5B => self.set(r1, subtract(one, other)),
            0x5E => self.set(r1, add_logical(one, other)),
            _ => self.set(r1, subtract_logical(one, other)),
        }
        Ok(())
    }

    #[inline(always)]
    pub fn rs(&mut self, operation: u8, second: u8, rest: [u8; 2]) -> Result<(), Refusal> {
        let (r1, r3) = nibbles(second);
        let at = self.based(rest);
        let one = self.registers[r1];
        match operation {
            0x86 => {
                let above = self.step_index(r1, r3);
                self.branch_if(above, at);
            }
            0x87 => {
                let above = self.step_index(r1, r3);
                self.branch_if(!above, at);
            }
            0x88 => self.registers[r1] = one.checked_shr(at & 63).unwrap_or(0),
            0x89 => self.registers[r1] = one.checked_shl(at & 63).unwrap_or(0),
            0x8A => self.set(r1, shift_right(one, at & 63)),
            0x8B => self.set(r1, shift_left(one, at & 63)),
            0x8E => return self.shift_pair(r1, at & 63, shift_pair_right),
            0x8F => return self.shift_pair(r1, at & 63, shift_pair_left),
            0x90 => return self.save_multiple(r1, r3, at),
            _ => return self.load_multiple(r1, r3, at),
        }
        Ok(())
    }

    #[inline(always)]
    pub fn si(&mut self, operation: u8, given: u8, rest: [u8; 2]) -> Result<(), Refusal> {
        let at = self.based(rest);
        match operation {
            0x91 => self.test(at, given),
            0x92 => self.save(at, [given]),
            0x94 => self.alter(at, |byte| byte & given),
            0x95 => {
                let byte = self.byte(at)?;
                self.compare(byte, given);
                Ok(())
            }
            0x96 => self.alter(at, |byte| byte | given),
            _ => self.alter(at, |byte| byte ^ given),
        }
    }

    #[inline(always)]
    pub fn ss(&mut self, operation: u8, length: u8, rest: [u8; 4]) -> Result<(), Refusal> {
        let first = self.based([rest[0], rest[1]]);
        let second = self.based([rest[2], rest[3]]);
        let length = usize::from(length) + 1;
        match operation {
            0xD2 => self.move_bytes(first, second, length),
            _ => self.compare_bytes(first, second, length),
        }
    }
}
