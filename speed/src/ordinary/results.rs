//! Results with the condition codes that they set.

use std::cmp::Ordering;

#[inline(always)]
pub fn signed(value: u32, overflow: bool) -> (u32, u32) {
    let code = match (value as i32).cmp(&0) {
        _ if overflow => 3,
        Ordering::Equal => 0,
        Ordering::Less => 1,
        Ordering::Greater => 2,
    };
    (value, code)
}

/// The same of a pair.
#[inline(always)]
pub fn signed_pair(value: i64, overflow: bool) -> (u64, u32) {
    let (_, code) = signed(value.signum() as u32, overflow);
    (value as u64, code)
}

#[inline(always)]
pub fn add(one: u32, other: u32) -> (u32, u32) {
    let (sum, overflow) = (one as i32).overflowing_add(other as i32);
    signed(sum as u32, overflow)
}

#[inline(always)]
pub fn subtract(one: u32, other: u32) -> (u32, u32) {
    let (difference, overflow) = (one as i32).overflowing_sub(other as i32);
    signed(difference as u32, overflow)
}

#[inline(always)]
pub fn without_sign(value: u32) -> (u32, u32) {
    if (value as i32) < 0 {
        subtract(0, value)
    } else {
        signed(value, false)
    }
}

#[inline(always)]
pub fn below_zero(value: u32) -> (u32, u32) {
    if (value as i32) > 0 {
        subtract(0, value)
    } else {
        signed(value, false)
    }
}

#[inline(always)]
pub fn multiply(one: u32, other: u32) -> u64 {
    (i64::from(one as i32) * i64::from(other as i32)) as u64
}

/// The remainder, then the quotient; nothing where there is no quotient, or none that fits.
#[inline(always)]
pub fn divide(dividend: u64, divisor: u32) -> Option<(u32, u32)> {
    let (dividend, divisor) = (dividend as i64, i64::from(divisor as i32));
    let quotient = i32::try_from(dividend.checked_div(divisor)?).ok()?;
    Some(((dividend % divisor) as u32, quotient as u32))
}

/// The sign stays where it is. What has left at the other end is missed on the way back.
#[inline(always)]
pub fn shift_pair_left(value: u64, amount: u32) -> (u64, u32) {
    let value = value as i64;
    let kept = value << amount & i64::MAX | value & i64::MIN;
    signed_pair(kept, kept >> amount != value)
}

#[inline(always)]
pub fn shift_pair_right(value: u64, amount: u32) -> (u64, u32) {
    signed_pair(value as i64 >> amount, false)
}

/// A word shifts as the left half of a pair does whose right half is zero.
#[inline(always)]
pub fn shift_left(value: u32, amount: u32) -> (u32, u32) {
    let (kept, code) = shift_pair_left(u64::from(value) << 32, amount);
    ((kept >> 32) as u32, code)
}

#[inline(always)]
pub fn shift_right(value: u32, amount: u32) -> (u32, u32) {
    signed((value as i32 >> amount.min(31)) as u32, false)
}

#[inline(always)]
fn logical(value: u32, carry: bool) -> (u32, u32) {
    (value, u32::from(value != 0) + 2 * u32::from(carry))
}

#[inline(always)]
pub fn add_logical(one: u32, other: u32) -> (u32, u32) {
    let (sum, carry) = one.overflowing_add(other);
    logical(sum, carry)
}

/// The complement and one are added: a carry comes out unless the true difference is below zero.
#[inline(always)]
pub fn subtract_logical(one: u32, other: u32) -> (u32, u32) {
    let (difference, borrow) = one.overflowing_sub(other);
    logical(difference, !borrow)
}

#[inline(always)]
pub fn bits(value: u32) -> (u32, u32) {
    (value, u32::from(value != 0))
}

#[inline(always)]
pub fn compared(found: Ordering) -> u32 {
    match found {
        Ordering::Equal => 0,
        Ordering::Less => 1,
        Ordering::Greater => 2,
    }
}

/// What the bits of a byte that a mask picks come to.
#[inline(always)]
pub fn tested(byte: u8, mask: u8) -> u32 {
    match byte & mask {
        0 => 0,
        picked if picked == mask => 3,
        _ => 1,
    }
}
