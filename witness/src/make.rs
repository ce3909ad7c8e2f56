//! Cases, by the shape of the instruction. The same number and window give the same case everywhere.

use crate::arithmetic;
use crate::case::Case;
use crate::draft::Draft;
use crate::draw::Draw;
use common::set::{Instruction, Shape};

pub fn make(instruction: &'static Instruction, number: usize, window_at: u32) -> Case {
    let mut draft = Draft::new(instruction, number, window_at);
    let (fields, target) = match arithmetic::fields(&mut draft, instruction) {
        Some(fields) => (fields, None),
        None => by_shape(&mut draft, instruction.shape),
    };
    let mut text = vec![instruction.operation];
    text.extend(fields);
    draft.finish(instruction, number, &text, target)
}

/// The bytes after the operation code, and where a branch goes.
fn by_shape(draft: &mut Draft, shape: Shape) -> (Vec<u8>, Option<u32>) {
    match shape {
        Shape::Registers => (registers(draft), None),
        Shape::RegisterBranch => register_branch(draft),
        Shape::Storage { width, stores } => (storage(draft, width, stores), None),
        Shape::Address => (address(draft), None),
        Shape::StorageBranch => storage_branch(draft),
        Shape::Multiple { stores } => (multiple(draft, stores), None),
        Shape::IndexBranch => index_branch(draft),
        Shape::Shift => (shift(draft), None),
        Shape::Immediate { stores } => (immediate(draft, stores), None),
        Shape::Fields { stores } => (two_fields(draft, stores), None),
    }
}

/// Two numbers of four bits in a byte.
pub fn nibbles(first: usize, second: usize) -> u8 {
    (first << 4 | second) as u8
}

/// A base and a displacement.
fn address_bytes(base: usize, displacement: u32) -> [u8; 2] {
    ((base as u16) << 12 | displacement as u16).to_be_bytes()
}

/// The three bytes after the code of RX and RS instructions.
pub fn four(first: usize, second: usize, base: usize, displacement: u32) -> Vec<u8> {
    let [high, low] = address_bytes(base, displacement);
    vec![nibbles(first, second), high, low]
}

fn three_registers(draft: &mut Draft) -> [usize; 3] {
    std::array::from_fn(|_| draft.dice.register())
}

fn registers(draft: &mut Draft) -> Vec<u8> {
    let (r1, r2) = (draft.dice.register(), draft.dice.register());
    draft.regs[r2] = draft.dice.near(draft.regs[r1]);
    vec![nibbles(r1, r2)]
}

/// A count at which a branch on count turns.
fn count(draft: &mut Draft, register: usize) {
    if draft.dice.once_in(2) {
        draft.regs[register] = draft.dice.pick(&[0, 1, 2, 0x8000_0000, 0x8000_0001]);
    }
}

fn register_branch(draft: &mut Draft) -> (Vec<u8>, Option<u32>) {
    let (r1, r2) = (draft.dice.register(), draft.dice.register());
    count(draft, r1);
    // Register 0 means no branch, whatever it holds.
    let target = (r2 != 0).then(|| draft.target(false));
    if let Some(at) = target {
        draft.set_address(r2, at);
    }
    (vec![nibbles(r1, r2)], target)
}

fn storage(draft: &mut Draft, width: u32, stores: bool) -> Vec<u8> {
    let [r1, index, base] = three_registers(draft);
    let at = draft.place(width, width, stores, base == 0 && index == 0);
    let displacement = draft.reach(at, base, index);
    let operand = draft.dice.near(draft.regs[r1]).to_be_bytes();
    if draft.dice.once_in(4) {
        draft.plant(at, &operand[..width as usize]);
    } else {
        draft.plant(at, &operand[4 - width as usize..]);
    }
    four(r1, index, base, displacement)
}

fn address(draft: &mut Draft) -> Vec<u8> {
    let [r1, index, base] = three_registers(draft);
    let displacement = draft.dice.displacement();
    if draft.dice.once_in(2) && index != base {
        // Sums about the wrap at 24 bits.
        let sum = draft
            .dice
            .pick(&[0u32, 1, 2, 0x00FF_FFFF, 0x0100_0000, 0x0100_0001]);
        draft.regs[base] = sum
            .wrapping_sub(displacement)
            .wrapping_sub(draft.regs[index]);
    }
    four(r1, index, base, displacement)
}

fn storage_branch(draft: &mut Draft) -> (Vec<u8>, Option<u32>) {
    let [r1, index, base] = three_registers(draft);
    count(draft, r1);
    let at = draft.target(base == 0 && index == 0);
    let displacement = draft.reach(at, base, index);
    (four(r1, index, base, displacement), Some(at))
}

fn multiple(draft: &mut Draft, stores: bool) -> Vec<u8> {
    let [r1, r3, base] = three_registers(draft);
    let len = 4 * ((r3 + 16 - r1) % 16 + 1) as u32;
    let at = draft.place(len, 4, stores, base == 0);
    draft.note(at, len);
    let displacement = draft.reach(at, base, 0);
    four(r1, r3, base, displacement)
}

fn index_branch(draft: &mut Draft) -> (Vec<u8>, Option<u32>) {
    let [r1, r3, base] = three_registers(draft);
    if !draft.dice.once_in(3) {
        // A sum just below, at, or just above the comparand.
        let off = draft.dice.pick(&[0u32, 0, 1, 2, 0xFFFF_FFFF, 0xFFFF_FFFE]);
        draft.regs[r1] = draft.regs[r3 | 1]
            .wrapping_sub(draft.regs[r3])
            .wrapping_add(off);
    }
    let at = draft.target(base == 0);
    let displacement = draft.reach(at, base, 0);
    (four(r1, r3, base, displacement), Some(at))
}

fn shift(draft: &mut Draft) -> Vec<u8> {
    let [r1, r3, base] = three_registers(draft);
    let mut displacement = draft.dice.displacement();
    if draft.dice.once_in(2) {
        let held = if base == 0 { 0 } else { draft.regs[base] };
        let amount = draft.dice.pick(&[0u32, 1, 16, 30, 31, 32, 33, 63]);
        displacement = amount.wrapping_sub(held) & 63 | displacement & 0xFC0;
    }
    four(r1, r3, base, displacement)
}

fn immediate(draft: &mut Draft, stores: bool) -> Vec<u8> {
    let base = draft.dice.register();
    let at = draft.place(1, 1, stores, base == 0);
    let displacement = draft.reach(at, base, 0);
    let byte = draft.look(at, 1)[0];
    let given = match draft.dice.below(6) {
        0 => byte,
        1 => !byte,
        2 => byte.wrapping_add(1),
        3 => byte.wrapping_sub(1),
        4 => byte & draft.dice.content_byte(),
        _ => draft.dice.content_byte(),
    };
    four((given >> 4).into(), (given & 15).into(), base, displacement)
}

fn two_fields(draft: &mut Draft, stores: bool) -> Vec<u8> {
    let len = match draft.dice.below(3) {
        0 => draft.dice.pick(&[1, 2, 3, 4, 8, 255, 256]),
        1 => 1 + draft.dice.below(16),
        _ => 1 + draft.dice.below(256),
    };
    let (base1, base2) = (draft.dice.register(), draft.dice.register());
    let (at1, at2) = two_places(draft, len, stores, base1, base2);
    draft.note(at1, len);
    draft.note(at2, len);
    let (displacement1, displacement2) = if base1 == base2 && base1 != 0 {
        share_base(draft, at1, at2, base1)
    } else {
        (draft.reach(at1, base1, 0), draft.reach(at2, base2, 0))
    };
    if !stores {
        near_fields(draft, at1, at2, len);
    }
    let [a, b] = address_bytes(base1, displacement1);
    let [c, d] = address_bytes(base2, displacement2);
    vec![(len - 1) as u8, a, b, c, d]
}

/// Places for two fields; often one over the other, or near each other.
fn two_places(draft: &mut Draft, len: u32, stores: bool, base1: usize, base2: usize) -> (u32, u32) {
    loop {
        let at1 = draft.place(len, 1, stores, base1 == 0);
        if draft.dice.once_in(2) || (base1 == 0) != (base2 == 0) {
            let at2 = draft.place(len, 1, false, base2 == 0);
            let is_near = at1.abs_diff(at2) < 1024;
            if is_near || base1 != base2 {
                return (at1, at2);
            }
        } else {
            let off = draft.dice.pick(&[1, 2, 3, 7, len - 1, len, len + 1, 0]);
            let at2 = if draft.dice.once_in(2) {
                at1 + off
            } else {
                at1 - off
            };
            if draft.may_hold(at2, len, false) {
                return (at1, at2);
            }
        }
    }
}

/// One base for both fields, so that the displacements differ as the places do.
fn share_base(draft: &mut Draft, at1: u32, at2: u32, base: usize) -> (u32, u32) {
    let displacement1 = 1024 + draft.dice.below(2048);
    draft.set_address(base, at1.wrapping_sub(displacement1));
    (displacement1, displacement1 + at2 - at1)
}

/// Fields to compare: equal, or parted at one byte.
fn near_fields(draft: &mut Draft, at1: u32, at2: u32, len: u32) {
    if draft.dice.once_in(5) {
        return;
    }
    let mut field = draft.look(at1, len);
    let last = len as usize - 1;
    let part = match draft.dice.below(4) {
        0 => 0,
        1 => last,
        _ => draft.dice.below(len) as usize,
    };
    field[part] = match draft.dice.below(4) {
        0 => field[part],
        1 => field[part].wrapping_add(1),
        2 => field[part].wrapping_sub(1),
        _ => field[part] ^ 0x80,
    };
    draft.plant(at2, &field);
}
