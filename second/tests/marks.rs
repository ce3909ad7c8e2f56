//! The accessed mark after a refusal: the page words that a refused step
//! leaves, worked out by hand for each reading.

use second::machine::{Machine, Run, Step};

/// Two pages for code, two for one operand that follow each other, and one more.
const PAGES: [(usize, u16); 5] = [
    (10, 0x3003),
    (11, 0x3007),
    (20, 0x3004),
    (21, 0x3005),
    (30, 0x3006),
];

const ABSENT: u16 = 0x1007;

/// Words for the page of a halfword that cannot be fetched, with the number.
const CLOSED: [(u16, u32); 5] = [
    (0x0000, 3),
    (ABSENT, 3),
    (0x2007, 4),
    (0x3047, 4),
    (0x3010, 1),
];

/// Code at an address in page 10 or 11. Registers 2 and 3 point to pages 20
/// and 30, register 4 to page 10.
fn with_code(counter: u32, code: &[u8]) -> Machine {
    let mut machine = Machine::new(65_536);
    for (page, word) in PAGES {
        machine.map[page] = word;
    }
    machine.registers[2] = 0x01_4000;
    machine.registers[3] = 0x01_E000;
    machine.registers[4] = 0x00_A000;
    machine.counter = counter;
    for (address, byte) in (counter as usize..).zip(code) {
        let frame = if address < 0xB000 { 3 } else { 7 };
        machine.memory[frame * 4_096 + address % 4_096] = *byte;
    }
    machine
}

fn with_word(mut machine: Machine, page: usize, word: u16) -> Machine {
    machine.map[page] = word;
    machine
}

fn ran(number: u32, place: u32, count: u32) -> Run {
    Run {
        number,
        place,
        count,
    }
}

/// The step is refused, and alters nothing but these page words: as a step, as
/// a step once more, and in a run.
fn refuses(machine: &Machine, number: u32, place: u32, altered: &[(usize, u16)]) {
    let mut expected = machine.clone();
    for &(page, word) in altered {
        assert_ne!(expected.map[page], word);
        expected.map[page] = word;
    }
    let mut by_step = machine.clone();
    for _ in 0..2 {
        assert_eq!(by_step.step(), Step { number, place });
        assert_eq!(by_step, expected);
    }
    let mut by_run = machine.clone();
    assert_eq!(by_run.run(0), ran(7, 0, 0));
    assert_eq!(by_run, *machine);
    assert_eq!(by_run.run(5), ran(number, place, 0));
    assert_eq!(by_run, expected);
}

#[test]
fn an_odd_counter_fetches_nothing() {
    let mut machine = with_code(0x00_A000, &[0x41, 0x10, 0x00, 0x05]);
    machine.counter = 0x00_A001;
    refuses(&machine, 2, 0x00_A001, &[]);
    machine.counter = 0x00_AFFF;
    refuses(&machine, 2, 0x00_AFFF, &[]);
}

#[test]
fn a_first_halfword_that_is_refused_marks_nothing() {
    for (word, number) in CLOSED {
        let machine = with_word(with_code(0x00_B000, &[0x41, 0x10, 0x00, 0x05]), 11, word);
        refuses(&machine, number, 0x00_B000, &[]);
    }
    // The upper half of a 2,048-byte page; past virtual memory.
    let machine = with_word(with_code(0x00_A800, &[0x18, 0x12]), 10, 0x3403);
    refuses(&machine, 4, 0x00_A800, &[]);
    let mut machine = with_word(with_code(0x00_A000, &[]), 511, 0x3003);
    machine.map[0] = 0x3003;
    for counter in [0x20_0000, 0xFF_FFFE] {
        machine.counter = counter;
        refuses(&machine, 1, counter, &[]);
    }
}

#[test]
fn of_an_unknown_operation_the_first_halfword_is_fetched() {
    // Length bits 00, 01, 10 and 11.
    for code in [0x00, 0x60, 0xA0, 0xFA] {
        let machine = with_code(0x00_A000, &[code; 6]);
        refuses(&machine, 5, 0x00_A000, &[(10, 0x7003)]);
        // At the end of its page, whatever the next page is.
        for word in [0x3007, ABSENT] {
            let machine = with_word(with_code(0x00_AFFE, &[code; 6]), 11, word);
            refuses(&machine, 5, 0x00_AFFE, &[(10, 0x7003)]);
        }
    }
}

#[test]
fn the_halfwords_below_the_refused_one_are_fetched() {
    for (word, number) in CLOSED {
        for (counter, code) in [
            (0x00_AFFE, &[0x41, 0x10, 0x00, 0x05][..]),
            (0x00_AFFE, &[0xD2, 0x03, 0x20, 0x00, 0x30, 0x00]),
            (0x00_AFFC, &[0xD2, 0x03, 0x20, 0x00, 0x30, 0x00]),
        ] {
            let machine = with_word(with_code(counter, code), 11, word);
            refuses(&machine, number, 0x00_B000, &[(10, 0x7003)]);
        }
    }
    // Page 511 is the last.
    let mut machine = with_word(with_code(0x00_AFFE, &[0x41, 0x10]), 511, 0x3003);
    machine.map[0] = 0x3007;
    machine.counter = 0x1F_FFFE;
    refuses(&machine, 1, 0x20_0000, &[(511, 0x7003)]);
}

#[test]
fn a_half_page_keeps_the_mark_of_its_last_halfword() {
    let load = &[0x41, 0x10, 0x00, 0x05][..];
    let move_four = &[0xD2, 0x03, 0x20, 0x00, 0x30, 0x00];
    for (counter, code) in [
        (0x00_A7FE, load),
        (0x00_A7FE, move_four),
        (0x00_A7FC, move_four),
    ] {
        for (word, marked) in [(0x3403, 0x7403), (0x3603, 0x7603)] {
            let mut machine = with_word(with_code(counter, code), 10, word);
            // H and M: the upper half of the frame.
            machine.memory.copy_within(0x37FC..0x3804, 0x3FFC);
            refuses(&machine, 4, 0x00_A800, &[(10, marked)]);
        }
    }
}

#[test]
fn at_an_operand_all_halfwords_are_fetched() {
    // MVC of four bytes to page 20 from page 30.
    let code = [0xD2, 0x03, 0x20, 0x00, 0x30, 0x00];
    let both = [(10, 0x7003), (11, 0x7007)];
    for (counter, altered) in [
        (0x00_AFFA, &both[..1]),
        (0x00_AFFC, &both[..]),
        (0x00_AFFE, &both),
        (0x00_B000, &both[1..]),
    ] {
        let machine = with_code(counter, &code);
        let no_source = with_word(machine.clone(), 30, 0x1006);
        refuses(&no_source, 3, 0x01_E000, altered);
        let no_target = with_word(machine.clone(), 20, 0x3804);
        refuses(&no_target, 4, 0x01_4000, altered);
        let neither = with_word(no_source, 20, 0x3010);
        refuses(&neither, 1, 0x01_4000, altered);
    }
    // Into a 2,048-byte page.
    let mut machine = with_word(with_code(0x00_AFFE, &code), 11, 0x3407);
    machine.map[30] = 0x2006;
    refuses(&machine, 4, 0x01_E000, &[(10, 0x7003), (11, 0x7407)]);
}

#[test]
fn operands_found_in_part_get_no_mark() {
    for code in [
        // LM and STM 0,15, CLC and MVC of eight bytes from the end of page 20 on.
        &[0x98, 0x0F, 0x2F, 0xE0][..],
        &[0x90, 0x0F, 0x2F, 0xE0],
        &[0xD5, 0x07, 0x2F, 0xFC, 0x30, 0x00],
        &[0xD2, 0x07, 0x2F, 0xFC, 0x30, 0x00],
        // The same as a second field.
        &[0xD5, 0x07, 0x30, 0x00, 0x2F, 0xFC],
        &[0xD2, 0x07, 0x30, 0x00, 0x2F, 0xFC],
    ] {
        for (word, number) in CLOSED {
            let machine = with_word(with_code(0x00_A000, code), 21, word);
            refuses(&machine, number, 0x01_5000, &[(10, 0x7003)]);
        }
    }
}

#[test]
fn a_page_fetched_from_has_its_mark_whatever_the_operand() {
    // ST 1,256(0,4) into its own page, which is closed to stores.
    let machine = with_code(0x00_A000, &[0x50, 0x10, 0x41, 0x00]);
    refuses(
        &with_word(machine, 10, 0x3803),
        4,
        0x00_A100,
        &[(10, 0x7803)],
    );
    // Past the half of its own page.
    let machine = with_code(0x00_A000, &[0x58, 0x10, 0x48, 0x00]);
    refuses(
        &with_word(machine, 10, 0x3403),
        4,
        0x00_A800,
        &[(10, 0x7403)],
    );
    // MVC to its own page, found, and from page 30, absent: no W.
    let machine = with_code(0x00_A000, &[0xD2, 0x03, 0x41, 0x00, 0x30, 0x00]);
    refuses(
        &with_word(machine, 30, ABSENT),
        3,
        0x01_E000,
        &[(10, 0x7003)],
    );
    // STM from its own page into the next, which is absent.
    let machine = with_code(0x00_A000, &[0x90, 0x01, 0x4F, 0xFC]);
    refuses(
        &with_word(machine, 11, ABSENT),
        3,
        0x00_B000,
        &[(10, 0x7003)],
    );
}

#[test]
fn a_second_page_fetched_from_has_its_mark_too() {
    // STC 1,4095(0,4) over the end of page 10, into page 10 and into page 11.
    let mut machine = with_code(0x00_AFFE, &[0x42, 0x10, 0x4F, 0xFF]);
    machine.map[10] = 0x3803;
    refuses(&machine, 4, 0x00_AFFF, &[(10, 0x7803), (11, 0x7007)]);
    machine.registers[4] = 0x00_A001;
    machine.map[11] = 0x3807;
    refuses(&machine, 4, 0x00_B000, &[(10, 0x7803), (11, 0x7807)]);
}

#[test]
fn an_odd_register_and_a_boundary_come_after_the_fetch() {
    let both = [(10, 0x7003), (11, 0x7007)];
    for (code, place) in [
        // M 5, D 5, SLDA 5, SRDA 5.
        (&[0x5C, 0x50, 0x20, 0x00][..], None),
        (&[0x5D, 0x50, 0x20, 0x02], None),
        (&[0x8F, 0x50, 0x00, 0x01], None),
        (&[0x8E, 0x50, 0x00, 0x01], None),
        // L, STH, STM, D 6.
        (&[0x58, 0x10, 0x20, 0x02], Some(0x01_4002)),
        (&[0x40, 0x10, 0x20, 0x01], Some(0x01_4001)),
        (&[0x90, 0x01, 0x20, 0x03], Some(0x01_4003)),
        (&[0x5D, 0x60, 0x20, 0x02], Some(0x01_4002)),
    ] {
        for (counter, altered) in [(0x00_A000, &both[..1]), (0x00_AFFE, &both[..])] {
            let machine = with_code(counter, code);
            refuses(&machine, 2, place.unwrap_or(counter), altered);
        }
    }
    // MR 5,6 and DR 5,6.
    for code in [0x1C, 0x1D] {
        let machine = with_code(0x00_AFFE, &[code, 0x56]);
        refuses(&machine, 2, 0x00_AFFE, &[(10, 0x7003)]);
    }
}

#[test]
fn number_8_marks_the_instruction_and_not_the_divisor() {
    let both = [(10, 0x7003), (11, 0x7007)];
    // D 6,0(0,2) by zero, and by one with a quotient of 2^32.
    for divisor in [0, 1] {
        for (counter, altered) in [(0x00_A000, &both[..1]), (0x00_AFFE, &both[..])] {
            let mut machine = with_code(counter, &[0x5D, 0x60, 0x20, 0x00]);
            machine.registers[6] = 1;
            machine.memory[4 * 4_096 + 3] = divisor;
            refuses(&machine, 8, counter, altered);
        }
    }
    // DR 6,8 by zero.
    let machine = with_code(0x00_A000, &[0x1D, 0x68]);
    refuses(&machine, 8, 0x00_A000, &[(10, 0x7003)]);
    // The divisor is in the page of the instruction.
    let machine = with_code(0x00_A000, &[0x5D, 0x60, 0x41, 0x00]);
    refuses(&machine, 8, 0x00_A000, &[(10, 0x7003)]);
}

#[test]
fn an_operand_past_virtual_memory() {
    // IC 1,0(0,5) at 200000; MVC of two bytes to 1FFFFF.
    let mut machine = with_code(0x00_A000, &[0x43, 0x10, 0x50, 0x00]);
    machine.map[0] = 0x3008;
    machine.map[511] = 0x3009;
    machine.registers[5] = 0x20_0000;
    refuses(&machine, 1, 0x20_0000, &[(10, 0x7003)]);
    machine.registers[5] = 0x1F_FFFF;
    machine.memory[3 * 4_096..3 * 4_096 + 6].copy_from_slice(&[0xD2, 0x01, 0x50, 0x00, 0x30, 0x00]);
    refuses(&machine, 1, 0x20_0000, &[(10, 0x7003)]);
}

#[test]
fn marks_that_are_there_already_stay() {
    for (before, after) in [
        (0x3003, 0x7003),
        (0x7003, 0x7003),
        (0xB003, 0xF003),
        (0xF003, 0xF003),
    ] {
        // ST into page 20, closed, with every setting of its marks.
        for closed in [0x3804, 0x7804, 0xB804, 0xF804] {
            let mut machine = with_code(0x00_A000, &[0x50, 0x10, 0x20, 0x00]);
            machine.map[10] = before;
            machine.map[20] = closed;
            let altered = [(10, after)];
            let altered = if before == after { &[] } else { &altered[..] };
            refuses(&machine, 4, 0x01_4000, altered);
        }
    }
}

#[test]
fn only_the_page_named_is_marked_where_two_share_a_frame() {
    let mut machine = with_code(0x00_A000, &[0xFF, 0xFF]);
    machine.map[11] = 0x3003;
    refuses(&machine, 5, 0x00_A000, &[(10, 0x7003)]);
    machine.counter = 0x00_B000;
    refuses(&machine, 5, 0x00_B000, &[(11, 0x7003)]);
}

#[test]
fn a_run_hands_back_the_marks_of_the_refused_step() {
    // ST 4,0(0,2) and LA 1,5 at the end of page 10; zeros in page 11.
    let code = [0x50, 0x40, 0x20, 0x00, 0x41, 0x10, 0x00, 0x05];
    let start = with_code(0x00_AFF8, &code);
    let mut machine = start.clone();
    assert_eq!(machine.run(2), ran(7, 0, 2));
    let mut expected = start.clone();
    expected.registers[1] = 5;
    expected.counter = 0x00_B000;
    expected.memory[4 * 4_096..4 * 4_096 + 4].copy_from_slice(&[0x00, 0x00, 0xA0, 0x00]);
    expected.map[10] = 0x7003;
    expected.map[20] = 0xF004;
    // The budget is spent: what comes next is not fetched.
    assert_eq!(machine, expected);
    let mut machine = start.clone();
    assert_eq!(machine.run(3), ran(5, 0x00_B000, 2));
    expected.map[11] = 0x7007;
    assert_eq!(machine, expected);
    // A page that is absent is not marked.
    let mut machine = with_word(start, 11, ABSENT);
    assert_eq!(machine.run(3), ran(3, 0x00_B000, 2));
    expected.map[11] = ABSENT;
    assert_eq!(machine, expected);
}

#[test]
fn number_6_marks_nothing() {
    for code in [&[0x00, 0x00][..], &[0x1D, 0x68], &[0x41, 0x10, 0x00, 0x05]] {
        let mut machine = with_code(0x00_A000, code);
        let before = machine.clone();
        assert_eq!(machine.run(65_536), ran(6, 0, 0));
        assert_eq!(machine, before);
        machine.mask = 16;
        let before = machine.clone();
        let (number, place) = (6, 0);
        assert_eq!(machine.step(), Step { number, place });
        assert_eq!(machine.run(1), ran(6, 0, 0));
        assert_eq!(machine, before);
    }
}
