//! A case: the state before one instruction, and the state after it.

use common::set::{length, Instruction};

/// Addresses keep 24 bits.
pub const ADDRESS: u32 = 0x00FF_FFFF;

/// A case's own bytes, where its code and its operands lie. Every other window lies across the edge of a page.
pub const WINDOW: usize = 1024;

/// A few bytes in page 0, to be reached without base and index. Every case has them to itself.
pub const ZONE: usize = 256;
pub const ZONE_AT: u32 = 0xF00;

pub struct Case {
    pub instruction: &'static Instruction,
    pub number: usize,
    pub counter: u32,
    pub code: u8,
    pub mask: u8,
    pub regs: [u32; 16],
    pub window_at: u32,
    pub window: Vec<u8>,
    pub zone: Vec<u8>,
    /// Whether the code or an operand lies across the edge of a page.
    pub crosses: bool,
    /// Which of the six orders its pages take in the engine's three frames.
    pub order: usize,
}

/// What Hercules made of a case.
pub struct After {
    pub end: End,
    pub code: u8,
    pub mask: u8,
    pub regs: [u32; 16],
    pub window: Vec<u8>,
    pub zone: Vec<u8>,
}

/// How the instruction ended.
#[derive(Clone, Copy, Debug, PartialEq, Eq)]
pub enum End {
    /// Completed, with this counter.
    At(u32),
    /// Completed with this counter; then it interrupted for overflow, since the mask asks for it.
    Overflow(u32),
    /// Not done: interrupted with this code, and this is where it began.
    Refused { interruption: u16, at: u32 },
}

/// The interruption for an odd address to go on from, and for an odd R1 where a pair is needed.
pub const SPECIFICATION: u16 = 6;
/// The interruption for overflow.
pub const OVERFLOW: u16 = 8;
/// The interruption for a divisor of zero, and for a quotient that does not fit.
pub const DIVIDE: u16 = 9;

impl Case {
    /// The instruction's bytes.
    pub fn text(&self) -> &[u8] {
        let at = (self.counter - self.window_at) as usize;
        &self.window[at..at + length(self.instruction.operation)]
    }
}
