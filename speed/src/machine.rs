//! The machine that every engine here is lent, and what an engine answers.

#[derive(Clone, Debug, PartialEq, Eq)]
pub struct Machine {
    pub memory: Vec<u8>,
    pub map: Vec<u16>,
    pub registers: Vec<u32>,
    pub counter: u32,
    pub code: u32,
    pub mask: u32,
}

#[derive(Clone, Copy, Debug, PartialEq, Eq)]
pub struct Answer {
    pub number: u32,
    pub place: u32,
    pub count: u32,
}

pub const PAGES: usize = 512;
pub const REGISTERS: usize = 16;
pub const PAGE: usize = 4096;
/// The greatest budget of a run.
pub const BUDGET: u32 = 65_535;
pub const BUDGET_SPENT: u32 = 7;

impl Machine {
    pub fn new(bytes: usize) -> Machine {
        Machine {
            memory: vec![0; bytes],
            map: vec![0; PAGES],
            registers: vec![0; REGISTERS],
            counter: 0,
            code: 0,
            mask: 0,
        }
    }
}
