//! The processor: its state, one step, and the addresses of operands.

use super::store::{onward, refuse, Access, Refusal, Store, ADDRESS, OPERATION, SPECIFICATION};
use crate::machine::REGISTERS;
use std::marker::PhantomData;

pub struct Cpu<'a, A> {
    pub registers: [u32; REGISTERS],
    pub counter: u32,
    pub code: u32,
    pub mask: u32,
    pub store: Store<'a>,
    access: PhantomData<A>,
}

/// Which operation codes are in the set.
const IN_SET: [bool; 256] = {
    let mut set = [false; 256];
    let mut operation = 0;
    while operation < set.len() {
        set[operation] = matches!(
            operation,
            0x05..=0x07 | 0x10..=0x1F
            | 0x40..=0x43 | 0x45..=0x4C | 0x50 | 0x54..=0x5F
            | 0x86..=0x8B | 0x8E..=0x92 | 0x94..=0x98
            | 0xD2 | 0xD5
        );
        operation += 1;
    }
    set
};

/// The upper and the lower four bits.
#[inline(always)]
pub fn nibbles(byte: u8) -> (usize, usize) {
    (usize::from(byte >> 4), usize::from(byte & 15))
}

impl<'a, A: Access> Cpu<'a, A> {
    pub fn new(
        registers: [u32; REGISTERS],
        counter: u32,
        code: u32,
        mask: u32,
        store: Store<'a>,
    ) -> Self {
        Cpu {
            registers,
            counter,
            code,
            mask,
            store,
            access: PhantomData,
        }
    }

    /// Base and displacement from their two bytes.
    #[inline(always)]
    pub fn based(&self, bytes: [u8; 2]) -> u32 {
        let sum = self.content(bytes[0] >> 4);
        sum.wrapping_add(u32::from(u16::from_be_bytes(bytes) & 0xFFF)) & ADDRESS
    }

    /// What a base or index field contributes: 0 names no register.
    #[inline(always)]
    pub fn content(&self, field: u8) -> u32 {
        if field == 0 {
            0
        } else {
            self.registers[usize::from(field & 15)]
        }
    }

    /// One instruction. The counter is moved on before the work, so that a branch can set it and a link can hold it, and is put
    /// back if the work is refused; nothing else is changed before the last refusal that is possible, but for the marks of what
    /// was fetched.
    #[inline(always)]
    pub fn step(&mut self) -> Result<(), Refusal> {
        let counter = self.counter;
        if counter & 1 != 0 {
            return refuse(SPECIFICATION, counter);
        }
        let ([operation, second], code) = A::fetch(&mut self.store, counter)?;
        if !IN_SET[usize::from(operation)] {
            return refuse(OPERATION, counter);
        }
        match operation >> 6 {
            0 => {
                self.counter = onward(counter, 2);
                if let Err(refusal) = self.rr(operation, second) {
                    self.counter = counter;
                    return Err(refusal);
                }
            }
            1 | 2 => {
                let rest = A::fetch_more::<2>(&mut self.store, counter, code)?;
                self.counter = onward(counter, 4);
                if let Err(refusal) = self.four_bytes(operation, second, rest) {
                    self.counter = counter;
                    return Err(refusal);
                }
            }
            _ => {
                let rest = A::fetch_more::<4>(&mut self.store, counter, code)?;
                self.ss(operation, second, rest)?;
                self.counter = onward(counter, 6);
            }
        }
        Ok(())
    }

    #[inline(always)]
    fn four_bytes(&mut self, operation: u8, second: u8, rest: [u8; 2]) -> Result<(), Refusal> {
        match operation {
            0x40..=0x7F => self.rx(operation, second, rest),
            0x91..=0x97 => self.si(operation, second, rest),
            _ => self.rs(operation, second, rest),
        }
    }
}
