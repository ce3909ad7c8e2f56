//! The machine: registers, counter, code, mask, memory and page words, and
//! what one step and one run do to them.
//!
//! Everything is done byte by byte. Nothing is stored, and no operand's page
//! marked, before the whole instruction is known to complete; but a page keeps
//! G once a halfword was fetched from it, whatever comes of the instruction.

use crate::operations::{self as op, Form};

pub const COMPLETED: u32 = 0;
pub const ADDRESSING: u32 = 1;
pub const SPECIFICATION: u32 = 2;
pub const PAGING_QUEUE: u32 = 3;
pub const PAGING_ERROR: u32 = 4;
pub const OPERATION: u32 = 5;
pub const DOOR: u32 = 6;
pub const BUDGET_SPENT: u32 = 7;
pub const DIVIDE: u32 = 8;

pub const W: u16 = 0x8000;
pub const G: u16 = 0x4000;
pub const U: u16 = 0x2000;
pub const S: u16 = 0x1000;
pub const E: u16 = 0x0800;
pub const M: u16 = 0x0400;
pub const H: u16 = 0x0200;
pub const XXX: u16 = 0x01C0;
pub const FRAME: u16 = 0x003F;

pub(crate) const ADDRESS_BITS: u32 = 0x00FF_FFFF;

/// Everything that a step may read or change. The lists are plain vectors
/// and the small numbers plain words, so that a caller can hand in wrong
/// ones; the door then answers number 6.
#[derive(Clone, Debug, PartialEq, Eq)]
pub struct Machine {
    pub registers: Vec<u32>,
    pub counter: u32,
    pub code: u32,
    pub mask: u32,
    pub memory: Vec<u8>,
    pub map: Vec<u16>,
}

/// The answer to one step.
#[derive(Clone, Copy, Debug, PartialEq, Eq)]
pub struct Step {
    pub number: u32,
    pub place: u32,
}

/// The answer to a run.
#[derive(Clone, Copy, Debug, PartialEq, Eq)]
pub struct Run {
    pub number: u32,
    pub place: u32,
    pub count: u32,
}

/// Why an address could not be used.
#[derive(Clone, Copy, Debug, PartialEq, Eq)]
pub struct Refusal {
    pub number: u32,
    pub place: u32,
}

/// What a byte is wanted for.
#[derive(Clone, Copy, Debug, PartialEq, Eq)]
pub enum Access {
    Fetch,
    Load,
    Store,
}

/// A run of operand bytes in virtual memory.
#[derive(Clone, Copy)]
struct Field {
    address: u32,
    length: u32,
    boundary: u32,
    access: Access,
}

/// The instruction taken apart. Fields that the format lacks are zero.
pub(crate) struct Parts {
    pub(crate) code: u8,
    pub(crate) r1: usize,
    pub(crate) r2: usize,
    pub(crate) immediate: u8,
    pub(crate) first: u32,
    pub(crate) second: u32,
    pub(crate) next: u32,
    pub(crate) length_code: u32,
}

impl Machine {
    /// A machine of all zeros with this many bytes of memory.
    pub fn new(memory_size: usize) -> Machine {
        Machine {
            registers: vec![0; 16],
            counter: 0,
            code: 0,
            mask: 0,
            memory: vec![0; memory_size],
            map: vec![0; 512],
        }
    }

    /// True when a list has a wrong length or a small number is too large.
    pub fn wrong_at_the_door(&self) -> bool {
        let size = self.memory.len();
        self.registers.len() != 16
            || self.map.len() != 512
            || size < 4_096
            || size > 262_144
            || size % 4_096 != 0
            || self.counter > ADDRESS_BITS
            || self.code > 3
            || self.mask > 15
    }

    /// Look up one byte: the real address, or the number of the refusal.
    /// The address may have any size, and so may the lists: a page that the
    /// map lacks has word 0, and memory ends where it ends.
    pub fn look_up(&self, address: u32, access: Access) -> Result<usize, Refusal> {
        let refuse = |number| {
            Err(Refusal {
                number,
                place: address,
            })
        };
        if address >= 2_097_152 {
            return refuse(ADDRESSING);
        }
        let displacement = (address % 4_096) as usize;
        let word = self.map.get(page_of(address)).copied().unwrap_or(0);
        if word & U == 0 {
            return refuse(PAGING_QUEUE);
        }
        if word & XXX != 0 {
            return refuse(PAGING_ERROR);
        }
        if word & M != 0 && displacement >= 2_048 {
            return refuse(PAGING_ERROR);
        }
        if word & S == 0 {
            return refuse(PAGING_ERROR);
        }
        if word & E != 0 && access == Access::Store {
            return refuse(PAGING_ERROR);
        }
        let frame = (word & FRAME) as usize;
        let mut real = frame * 4_096 + displacement;
        if word & M != 0 && word & H != 0 {
            real += 2_048;
        }
        if real >= self.memory.len() {
            return refuse(ADDRESSING);
        }
        Ok(real)
    }

    /// One instruction. A refused one leaves everything as it was, but for G on
    /// each page from which a halfword of it was fetched.
    pub fn step(&mut self) -> Step {
        self.step_and_tell().0
    }

    /// One instruction; also tells its bytes, as far as they were fetched.
    pub fn step_and_tell(&mut self) -> (Step, Vec<u8>) {
        let mut text: Vec<u8> = Vec::with_capacity(6);
        if self.wrong_at_the_door() {
            let step = Step {
                number: DOOR,
                place: 0,
            };
            return (step, text);
        }
        let step = match self.one_instruction(&mut text) {
            Ok(()) => Step {
                number: COMPLETED,
                place: 0,
            },
            Err(refusal) => Step {
                number: refusal.number,
                place: refusal.place,
            },
        };
        (step, text)
    }

    /// At most `budget` instructions, up to the first refusal. The refused one
    /// is not counted; its marks stay.
    pub fn run(&mut self, budget: u32) -> Run {
        if self.wrong_at_the_door() || budget > 65_535 {
            return Run {
                number: DOOR,
                place: 0,
                count: 0,
            };
        }
        let mut count = 0;
        while count < budget {
            let step = self.step();
            if step.number != COMPLETED {
                return Run {
                    number: step.number,
                    place: step.place,
                    count,
                };
            }
            count += 1;
        }
        Run {
            number: BUDGET_SPENT,
            place: 0,
            count,
        }
    }

    fn one_instruction(&mut self, text: &mut Vec<u8>) -> Result<(), Refusal> {
        let parts = self.fetch(text)?;
        self.test_pair(&parts)?;
        let mut marks: Vec<(usize, u16)> = Vec::with_capacity(4);
        let places = self.find_operands(&parts, &mut marks)?;
        self.test_quotient(&parts, &places)?;

        // From here on nothing is refused.
        self.execute(&parts, &places);
        for (page, mark) in marks {
            self.map[page] |= mark;
        }
        Ok(())
    }

    /// The instruction: first halfword, operation, the other halfwords.
    fn fetch(&mut self, text: &mut Vec<u8>) -> Result<Parts, Refusal> {
        if self.counter % 2 != 0 {
            return Err(self.refused_here(SPECIFICATION));
        }
        self.fetch_halfword(0, text)?;
        let code = text[0];
        let operation = op::find(code).ok_or(self.refused_here(OPERATION))?;
        let length = op::length(code);
        let mut offset = 2;
        while offset < length {
            self.fetch_halfword(offset, text)?;
            offset += 2;
        }
        Ok(self.take_apart(operation.form, text, length))
    }

    /// A refusal whose place is the program counter.
    fn refused_here(&self, number: u32) -> Refusal {
        Refusal {
            number,
            place: self.counter,
        }
    }

    /// A pair of registers is named by its even one.
    fn test_pair(&self, parts: &Parts) -> Result<(), Refusal> {
        if op::needs_pair(parts.code) && parts.r1 % 2 != 0 {
            return Err(self.refused_here(SPECIFICATION));
        }
        Ok(())
    }

    /// A division must have a quotient that the odd register can hold. This is
    /// the one test that needs the operands themselves.
    fn test_quotient(&self, parts: &Parts, places: &[Vec<usize>]) -> Result<(), Refusal> {
        let divides = matches!(parts.code, op::DR | op::D);
        if divides && self.division(parts, places).is_none() {
            return Err(self.refused_here(DIVIDE));
        }
        Ok(())
    }

    /// The operands: boundaries first, then each byte of each field. Tells
    /// where the bytes lie, and notes the marks that their pages are to get.
    fn find_operands(
        &self,
        parts: &Parts,
        marks: &mut Vec<(usize, u16)>,
    ) -> Result<Vec<Vec<usize>>, Refusal> {
        let fields = operand_fields(parts);
        for field in &fields {
            if field.address % field.boundary != 0 {
                return Err(Refusal {
                    number: SPECIFICATION,
                    place: field.address,
                });
            }
        }
        let mut places: Vec<Vec<usize>> = Vec::with_capacity(2);
        for field in &fields {
            let mark = match field.access {
                Access::Fetch | Access::Load => G,
                Access::Store => G | W,
            };
            let mut reals = Vec::with_capacity(field.length as usize);
            for index in 0..field.length {
                let address = (field.address + index) & ADDRESS_BITS;
                reals.push(self.look_up(address, field.access)?);
                note(marks, (page_of(address), mark));
            }
            places.push(reals);
        }
        Ok(places)
    }

    /// Two bytes of the instruction. To have fetched them is an access, and
    /// their page is marked at once: no refusal after it takes that back.
    fn fetch_halfword(&mut self, offset: u32, text: &mut Vec<u8>) -> Result<(), Refusal> {
        let address = (self.counter + offset) & ADDRESS_BITS;
        // The address is even: both bytes lie in one page.
        for address in [address, address + 1] {
            let real = self.look_up(address, Access::Fetch)?;
            text.push(self.memory[real]);
        }
        self.map[page_of(address)] |= G;
        Ok(())
    }

    /// A register as a part of an address; number 0 stands for nothing.
    fn part(&self, number: u8) -> u32 {
        if number == 0 {
            0
        } else {
            self.registers[number as usize] & ADDRESS_BITS
        }
    }

    fn take_apart(&self, form: Form, text: &[u8], length: u32) -> Parts {
        let high = text[1] >> 4;
        let low = text[1] & 15;
        // Base and displacement of the second and of the third halfword.
        let address = |at: usize| {
            let base = text[at] >> 4;
            let displacement = u32::from(text[at] & 15) * 256 + u32::from(text[at + 1]);
            (self.part(base) + displacement) & ADDRESS_BITS
        };
        let mut parts = Parts {
            code: text[0],
            r1: high as usize,
            r2: low as usize,
            immediate: text[1],
            first: 0,
            second: 0,
            next: (self.counter + length) & ADDRESS_BITS,
            length_code: length / 2,
        };
        match form {
            Form::RR => {}
            Form::RX => parts.second = (address(2) + self.part(low)) & ADDRESS_BITS,
            Form::RS => parts.second = address(2),
            Form::SI => parts.first = address(2),
            Form::SS => {
                parts.first = address(2);
                parts.second = address(4);
            }
        }
        parts
    }
}

/// The memory operands of an instruction, in the order of their look-up.
fn operand_fields(parts: &Parts) -> Vec<Field> {
    let field = |address, length, boundary, access| Field {
        address,
        length,
        boundary,
        access,
    };
    let boundary = op::boundary(parts.code);
    if boundary == 0 {
        return Vec::new();
    }
    let access = if op::stores(parts.code) {
        Access::Store
    } else {
        Access::Load
    };
    match parts.code {
        op::LM | op::STM => {
            let words = (parts.r2 as u32 + 16 - parts.r1 as u32) % 16 + 1;
            vec![field(parts.second, 4 * words, boundary, access)]
        }
        op::CLI | op::NI | op::OI | op::XI | op::TM | op::MVI => {
            vec![field(parts.first, 1, boundary, access)]
        }
        op::MVC | op::CLC => {
            let bytes = u32::from(parts.immediate) + 1;
            vec![
                field(parts.first, bytes, boundary, access),
                field(parts.second, bytes, boundary, Access::Load),
            ]
        }
        // In RX the operand is as long as its boundary: 4, 2 or 1 bytes.
        _ => vec![field(parts.second, boundary, boundary, access)],
    }
}

/// The page of an address: all of its number, no part of it.
pub(crate) fn page_of(address: u32) -> usize {
    (address / 4_096) as usize
}

fn note(marks: &mut Vec<(usize, u16)>, mark: (usize, u16)) {
    if !marks.contains(&mark) {
        marks.push(mark);
    }
}
