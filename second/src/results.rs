//! Results of arithmetic, and the condition codes that go with them.

pub(crate) fn is_negative(value: u32) -> bool {
    value >= 0x8000_0000
}

/// The two's complement value of a word.
pub(crate) fn signed(value: u32) -> i64 {
    if is_negative(value) {
        i64::from(value) - 0x1_0000_0000
    } else {
        i64::from(value)
    }
}

pub(crate) fn sign_code(value: u32) -> u32 {
    if value == 0 {
        0
    } else if is_negative(value) {
        1
    } else {
        2
    }
}

pub(crate) fn zero_code(value: u32) -> u32 {
    if value == 0 {
        0
    } else {
        1
    }
}

pub(crate) fn compare_code(a: i64, b: i64) -> u32 {
    if a == b {
        0
    } else if a < b {
        1
    } else {
        2
    }
}

/// The low 32 bits of an unsigned sum, and its code.
pub(crate) fn carry_result(sum: u64) -> (u32, u32) {
    let kept = (sum % 0x1_0000_0000) as u32;
    let carry = sum >= 0x1_0000_0000;
    let code = match (carry, kept != 0) {
        (false, false) => 0,
        (false, true) => 1,
        (true, false) => 2,
        (true, true) => 3,
    };
    (kept, code)
}

/// What was made bit by bit, and its code.
pub(crate) fn bits_result(word: u32) -> (u32, u32) {
    (word, zero_code(word))
}

/// A halfword as a word, its sign spread.
pub(crate) fn widened(half: u32) -> u32 {
    if half >= 0x8000 {
        half + 0xFFFF_0000
    } else {
        half
    }
}

pub(crate) fn signed_add(a: u32, b: u32) -> (u32, u32) {
    signed_result(signed(a) + signed(b))
}

pub(crate) fn signed_subtract(a: u32, b: u32) -> (u32, u32) {
    signed_result(signed(a) - signed(b))
}

/// The low 32 bits of a true sum or difference, and its code.
fn signed_result(exact: i64) -> (u32, u32) {
    let kept = exact.rem_euclid(0x1_0000_0000) as u32;
    if signed(kept) == exact {
        (kept, sign_code(kept))
    } else {
        (kept, 3)
    }
}

/// Does the four-bit branch mask name this code? The leftmost bit is code 0.
pub(crate) fn mask_has(branch_mask: usize, code: u32) -> bool {
    (branch_mask >> (3 - code)) & 1 == 1
}
