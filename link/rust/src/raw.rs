//! The library's own functions and numbers, and the only unsafe code: each slice is passed as its pointer and its length.
//!
//! Who calls these has to ask [`check_library`](crate::check_library) first, and to take a number that is not here as a refusal.
//! The header `link/include/spectra46.h` says what each list is and what the functions promise.
#![allow(unsafe_code)]

/// A step, or a listing, completed.
pub const COMPLETED: u32 = 0;
/// An address of 2,097,152 or more, or a real address beyond memory.
pub const ADDRESSING: u32 = 1;
/// An odd program counter, an odd R1 where a pair of registers is needed, or an operand off its boundary.
pub const SPECIFICATION: u32 = 2;
/// A page that is not usable.
pub const PAGING_QUEUE: u32 = 3;
/// A page that does not allow the access.
pub const PAGING_ERROR: u32 = 4;
/// The operation is not in the set.
pub const OPERATION: u32 = 5;
/// A list of a wrong length, or counter, code, mask, budget or a listing's start out of range.
pub const OUT_OF_RANGE: u32 = 6;
/// A run did as many steps as were asked for.
pub const BUDGET_SPENT: u32 = 7;
/// A divisor of zero, or a quotient that does not fit a register.
pub const DIVIDE_ERROR: u32 = 8;

/// How many page words there are.
pub const PAGES: usize = 512;
/// How many registers there are.
pub const REGISTERS: usize = 16;
/// How many numbers a reply has.
pub const REPLY: usize = 6;
/// How many bytes a room for a sheet's answer has.
pub const ROOM: usize = 8192;
/// How many numbers are told of a listing.
pub const TOLD: usize = 3;
/// How many bytes the longest line of a listing has, its LF included.
pub const LINE_LONGEST: usize = 33;

mod c {
    extern "C" {
        pub fn spectra46_version() -> u32;
        pub fn spectra46_step(
            memory: *mut u8,
            memory_length: usize,
            pages: *mut u16,
            pages_length: usize,
            registers: *mut u32,
            registers_length: usize,
            reply: *mut u32,
            reply_length: usize,
        ) -> u32;
        pub fn spectra46_run(
            memory: *mut u8,
            memory_length: usize,
            pages: *mut u16,
            pages_length: usize,
            registers: *mut u32,
            registers_length: usize,
            reply: *mut u32,
            reply_length: usize,
            budget: u32,
        ) -> u32;
        pub fn spectra46_sheet(
            sheet: *const u8,
            sheet_length: usize,
            room: *mut u8,
            room_length: usize,
        ) -> usize;
        pub fn spectra46_list(
            code: *const u8,
            code_length: usize,
            start: u32,
            out: *mut u8,
            out_length: usize,
            told: *mut usize,
            told_length: usize,
        ) -> u32;
    }
}

/// The library's version as one number: major × 65,536 + minor × 256 + patch.
#[must_use]
pub fn version() -> u32 {
    // SAFETY: it takes nothing and keeps nothing.
    unsafe { c::spectra46_version() }
}

/// One step. Lists of any length may be given: wrong ones are answered with [`OUT_OF_RANGE`].
#[must_use]
pub fn step(memory: &mut [u8], pages: &mut [u16], registers: &mut [u32], reply: &mut [u32]) -> u32 {
    // SAFETY: each pointer and length are those of a slice, and slices lent by `&mut` do not overlap.
    unsafe {
        c::spectra46_step(
            memory.as_mut_ptr(),
            memory.len(),
            pages.as_mut_ptr(),
            pages.len(),
            registers.as_mut_ptr(),
            registers.len(),
            reply.as_mut_ptr(),
            reply.len(),
        )
    }
}

/// A run of at most `budget` steps; otherwise as [`step`].
#[must_use]
pub fn run(
    memory: &mut [u8],
    pages: &mut [u16],
    registers: &mut [u32],
    reply: &mut [u32],
    budget: u32,
) -> u32 {
    // SAFETY: as for a step.
    unsafe {
        c::spectra46_run(
            memory.as_mut_ptr(),
            memory.len(),
            pages.as_mut_ptr(),
            pages.len(),
            registers.as_mut_ptr(),
            registers.len(),
            reply.as_mut_ptr(),
            reply.len(),
            budget,
        )
    }
}

/// A sheet's answer into a room of [`ROOM`] bytes, and its length; 0, and nothing written, for a room of another size.
#[must_use]
pub fn sheet(sheet: &[u8], room: &mut [u8]) -> usize {
    // SAFETY: as for a step; the sheet is only read.
    unsafe { c::spectra46_sheet(sheet.as_ptr(), sheet.len(), room.as_mut_ptr(), room.len()) }
}

/// As many lines of the code's listing as fit `out` whole. `told` has [`TOLD`] places: how many lines were written, the code byte to go
/// on from, and how many bytes of `out` the lines take.
#[must_use]
pub fn list(code: &[u8], start: u32, out: &mut [u8], told: &mut [usize]) -> u32 {
    // SAFETY: as for a step; the code is only read.
    unsafe {
        c::spectra46_list(
            code.as_ptr(),
            code.len(),
            start,
            out.as_mut_ptr(),
            out.len(),
            told.as_mut_ptr(),
            told.len(),
        )
    }
}
