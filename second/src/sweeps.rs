//! The systematic part of the generated sheets: each sweep goes through its
//! cases one by one and throws dice only for what does not matter to it.

mod branches;
mod fields;
mod marks;
mod pages;
mod pair_refusals;
mod reach;
mod reach_fields;
mod runs;
mod signed_shifts;
mod values;
mod wide;

use crate::draft::{rr, Draft};
use crate::operations::{self as op, Operation, OPERATIONS};
use crate::scene::{Scene, FAULTS};
use common::dice::Dice;

pub struct Sweep {
    pub name: &'static str,
    pub cases: u32,
    pub make: fn(u32, &mut Dice) -> Draft,
}

const fn sweep(name: &'static str, cases: u32, make: fn(u32, &mut Dice) -> Draft) -> Sweep {
    Sweep { name, cases, make }
}

pub const SWEEPS: [Sweep; 50] = [
    sweep("register-values", 14 * 64, values::register_values),
    sweep("word-values", 10 * 64, values::word_values),
    sweep("halfword-loads", 24, values::halfword_loads),
    sweep("inserts", 28, values::inserts),
    sweep("small-stores", 3 * 8 * 4, values::small_stores),
    sweep("immediate-bytes", 6 * 49, values::immediate_bytes),
    sweep("test-masks", 2 * 64, values::test_masks),
    sweep("shifts", 2 * 13 * 6 * 2, values::shifts),
    sweep("conditions", 2 * 64 * 2, branches::conditions),
    sweep("links", 2 * 4 * 6 * 2, branches::links),
    sweep("counts", 2 * 7 * 6 * 2, branches::counts),
    sweep("index-registers", 512, branches::index_registers),
    sweep("index-values", 2 * 64, branches::index_values),
    sweep("targets", 8 * 12 * 2, branches::targets),
    sweep("products", 5 * 64, wide::products),
    sweep("halfwords", 4 * 14 * 8, wide::halfwords),
    sweep("quotients", 2 * 9 * 8 * 3, wide::quotients),
    sweep("dividends", 2 * 14 * 8, wide::dividends),
    sweep("divisors-in-the-pair", 2 * 64, wide::divisors_in_the_pair),
    sweep(
        "signed-shifts",
        2 * 13 * (9 + 12) * 2,
        signed_shifts::signed_shifts,
    ),
    sweep("odd-pairs", 6 * 8 * 6, pair_refusals::odd_pairs),
    sweep(
        "divisors-in-bad-pages",
        2 * FAULTS * 3,
        pair_refusals::divisors_in_bad_pages,
    ),
    sweep("divide-errors", 2 * 2 * 16, pair_refusals::divide_errors),
    sweep("operand-words", MEMORY * FAULTS * 2, pages::operand_words),
    sweep("boundaries", BOUND * 3 * 4, pages::boundaries),
    sweep("address-ends", MEMORY * 12, pages::address_ends),
    sweep("two-fields", 2 * 3 * FAULTS * 2, fields::two_fields),
    sweep(
        "multiple-straddle",
        2 * FAULTS * 3,
        fields::multiple_straddle,
    ),
    sweep("fetches", OPERATIONS.len() as u32 * 10, pages::fetches),
    sweep("fetch-rests", LONGER * FAULTS, pages::fetch_rests),
    sweep("multiple-registers", 512, fields::multiple_registers),
    sweep("moves", 2 * 8 * 11 * 3, fields::moves),
    sweep("word-flags", 128 * 3 * 2, pages::word_flags),
    sweep("page-numbers", 1_024, pages::page_numbers),
    sweep("frames", 64 * 3, pages::frames),
    sweep("address-sums", 160, values::address_sums),
    sweep("sums-past-the-end", LONGER * 5, values::sums_past_the_end),
    sweep("operation-bytes", 512, runs::operation_bytes),
    sweep("budgets", 7 * 6 * 3, runs::budgets),
    sweep("own-code", 12 * 8, runs::own_code),
    sweep("shared-frames", 120, fields::shared_frames),
    sweep(
        "marks-at-the-fetch",
        marks::FETCH_CASES,
        marks::at_the_fetch,
    ),
    sweep(
        "marks-at-the-operands",
        marks::OPERAND_CASES,
        marks::at_the_operands,
    ),
    sweep("reach-code", reach::CODE_CASES, reach::code),
    sweep("reach-operands", reach::OPERAND_CASES, reach::operands),
    sweep("reach-multiples", reach::MULTIPLE_CASES, reach::multiples),
    sweep("reach-moves", reach_fields::MOVE_CASES, reach_fields::moves),
    sweep(
        "reach-overlaps",
        reach_fields::OVERLAP_CASES,
        reach_fields::overlaps,
    ),
    sweep(
        "reach-refusals",
        reach_fields::REFUSAL_CASES,
        reach_fields::refusals,
    ),
    sweep("reach-ends", reach_fields::END_CASES, reach_fields::ends),
];

const REGISTER_OPS: [u8; 14] = [
    op::LR,
    op::LTR,
    op::LCR,
    op::LPR,
    op::LNR,
    op::AR,
    op::SR,
    op::CR,
    op::ALR,
    op::SLR,
    op::CLR,
    op::NR,
    op::OR,
    op::XR,
];

const WORD_OPS: [u8; 10] = [
    op::L,
    op::A,
    op::S,
    op::C,
    op::AL,
    op::SL,
    op::CL,
    op::N,
    op::O,
    op::X,
];

const BYTE_OPS: [u8; 6] = [op::CLI, op::NI, op::OI, op::XI, op::TM, op::MVI];

/// How many operations have an operand in memory.
const MEMORY: u32 = MEMORY_OPS.len() as u32;

/// Those with a boundary stand first, and are so many.
const BOUND: u32 = 21;

const MEMORY_OPS: [u8; 31] = [
    op::L,
    op::A,
    op::S,
    op::C,
    op::AL,
    op::SL,
    op::CL,
    op::N,
    op::O,
    op::X,
    op::ST,
    op::LM,
    op::STM,
    op::LH,
    op::STH,
    op::AH,
    op::SH,
    op::CH,
    op::MH,
    op::M,
    op::D,
    op::IC,
    op::STC,
    op::CLI,
    op::NI,
    op::OI,
    op::XI,
    op::TM,
    op::MVI,
    op::MVC,
    op::CLC,
];

/// The table has the instructions of two bytes first; so many are longer.
const LONGER: u32 = 43;

/// An instruction of four or six bytes by its number among them.
fn longer(number: u32) -> Operation {
    let two_bytes = OPERATIONS.len() as u32 - LONGER;
    OPERATIONS[(two_bytes + number) as usize]
}

const BRANCHES: [u8; 8] = [
    op::BCR,
    op::BC,
    op::BALR,
    op::BAL,
    op::BCTR,
    op::BCT,
    op::BXH,
    op::BXLE,
];

/// Any operation of this length.
fn some_operation(dice: &mut Dice, length: u32) -> u8 {
    let codes: Vec<u8> = OPERATIONS
        .iter()
        .map(|row| row.code)
        .filter(|&code| op::length(code) == length)
        .collect();
    dice.pick(&codes)
}

/// Keeps the condition code in a register, half of the time.
fn keep_code(scene: &mut Scene, dice: &mut Dice) {
    if dice.chance(1, 2) {
        let link = scene.take();
        scene.add(rr(op::BALR, link, 0));
    }
}

#[cfg(test)]
mod tests {
    use super::*;

    #[test]
    fn the_lists_leave_no_operation_out() {
        for operation in OPERATIONS {
            let code = operation.code;
            let boundary = op::boundary(code);
            assert_eq!(MEMORY_OPS.contains(&code), boundary > 0);
            let (bound, _) = MEMORY_OPS.split_at(BOUND as usize);
            assert_eq!(bound.contains(&code), boundary > 1);
        }
        let longer = OPERATIONS.iter().filter(|row| op::length(row.code) > 2);
        assert_eq!(longer.count(), LONGER as usize);
        assert!(op::length(super::longer(0).code) > 2);
    }
}
