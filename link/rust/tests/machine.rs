//! The machine as a Rust program meets it: each number from 0 to 8, and what a refusal leaves.
use spectra46::{raw, Machine, Refusal, Stop};

/// A machine of so many bytes.
fn sized(bytes: usize) -> Machine {
    Machine::new(bytes).expect("the library of this version")
}

/// Page 10 on frame 3, the counter at its start, and this program there.
fn machine(program: &[u8]) -> Machine {
    let mut machine = sized(65_536);
    machine.pages[10] = 0x3003;
    machine.memory[12_288..12_288 + program.len()].copy_from_slice(program);
    machine.counter = 0x00_A000;
    machine
}

const LA_1_5: [u8; 4] = [0x41, 0x10, 0x00, 0x05];
const L_1_AT_2: [u8; 4] = [0x58, 0x10, 0x20, 0x00];
const ST_1_AT_2: [u8; 4] = [0x50, 0x10, 0x20, 0x00];
const D_4_AT_2: [u8; 4] = [0x5D, 0x40, 0x20, 0x00];
const DR_4_6: [u8; 2] = [0x1D, 0x46];
const DR_5_6: [u8; 2] = [0x1D, 0x56];

/// A run ends so, after so many steps.
fn runs(machine: &mut Machine, budget: u32, count: u32, stop: Stop) {
    let ran = machine.run(budget);
    assert_eq!((ran.count, ran.stop), (count, stop));
}

/// A refused step leaves the whole machine as it was, but for G on the pages that it was fetched from. Tried again, it is refused alike,
/// and nothing further is altered; a run from the same start leaves the same.
fn refuses(machine: Machine, refusal: Refusal, fetched_from: &[usize]) {
    let mut left = machine.clone();
    for &page in fetched_from {
        left.pages[page] |= 0x4000;
    }
    let mut stepped = machine.clone();
    assert_eq!(stepped.step(), Err(refusal));
    assert_eq!(stepped, left);
    let mut run = machine;
    for _ in 0..2 {
        runs(&mut run, 5, 0, Stop::Refused(refusal));
        assert_eq!(run, left);
    }
}

/// A change to the machine that step and run have to refuse with 6.
fn is_out_of_range(change: impl Fn(&mut Machine)) {
    let mut changed = machine(&LA_1_5);
    change(&mut changed);
    refuses(changed, Refusal::OutOfRange, &[]);
}

#[test]
fn number_0_a_step_completed() {
    let mut machine = machine(&LA_1_5);
    let mut reply = [0, 0, 0, machine.counter, 0, 0];
    let number = raw::step(
        &mut machine.memory,
        &mut machine.pages,
        &mut machine.registers,
        &mut reply,
    );
    assert_eq!(number, 0);
    assert_eq!(reply, [0, 0, 1, 0x00_A004, 0, 0]);
    assert_eq!(machine.registers[1], 5);
    assert_eq!(machine.pages[10], 0x7003);
}

#[test]
fn number_1_addressing() {
    let mut machine = machine(&L_1_AT_2);
    machine.registers[2] = 0x20_0000;
    refuses(machine, Refusal::Addressing { at: 0x20_0000 }, &[10]);
}

#[test]
fn number_2_specification() {
    let mut machine = machine(&L_1_AT_2);
    machine.registers[2] = 0x00_A002;
    refuses(
        machine.clone(),
        Refusal::Specification { at: 0x00_A002 },
        &[10],
    );
    machine.counter = 0x00_A001;
    refuses(machine, Refusal::Specification { at: 0x00_A001 }, &[]);
}

#[test]
fn number_2_an_odd_register_for_a_pair() {
    let mut machine = machine(&DR_5_6);
    machine.registers[6] = 1;
    refuses(machine, Refusal::Specification { at: 0x00_A000 }, &[10]);
}

#[test]
fn number_3_paging_queue() {
    let mut machine = machine(&L_1_AT_2);
    machine.registers[2] = 0x00_B000;
    refuses(machine, Refusal::PagingQueue { at: 0x00_B000 }, &[10]);
}

#[test]
fn number_4_paging_error() {
    let mut machine = machine(&ST_1_AT_2);
    machine.pages[11] = 0x3804;
    machine.registers[2] = 0x00_B010;
    refuses(machine, Refusal::PagingError { at: 0x00_B010 }, &[10]);
}

#[test]
fn number_5_operation() {
    refuses(
        machine(&[0, 0]),
        Refusal::Operation { at: 0x00_A000 },
        &[10],
    );
}

#[test]
fn number_6_out_of_range() {
    for bytes in [0, 4_095, 6_144, 262_145, 266_240] {
        refuses(sized(bytes), Refusal::OutOfRange, &[]);
    }
    is_out_of_range(|machine| machine.counter = 1 << 24);
    is_out_of_range(|machine| machine.code = 4);
    is_out_of_range(|machine| machine.mask = 16);
}

#[test]
fn number_6_budget_out_of_range() {
    let mut machine = machine(&LA_1_5);
    let before = machine.clone();
    let stop = Stop::Refused(Refusal::OutOfRange);
    runs(&mut machine, 65_536, 0, stop);
    assert_eq!(machine, before);
}

/// A run of three steps and a step, each with lists of such lengths: 6, and nothing written but a reply that has its length.
fn refuses_lengths(pages: usize, registers: usize, reply: usize) {
    let whole = || (vec![7; 4_096], vec![0x3000; pages], vec![9; registers]);
    let told: &[u32] = match reply {
        raw::REPLY => &[6, 0, 0, 1, 1, 1],
        other => &[1; 7][..other],
    };
    for is_run in [false, true] {
        let (mut memory, mut map, mut words) = whole();
        let mut numbers = vec![1; reply];
        let number = if is_run {
            raw::run(&mut memory, &mut map, &mut words, &mut numbers, 3)
        } else {
            raw::step(&mut memory, &mut map, &mut words, &mut numbers)
        };
        assert_eq!(number, raw::OUT_OF_RANGE);
        assert_eq!(numbers, told);
        assert_eq!((memory, map, words), whole());
    }
}

#[test]
fn number_6_lists_of_a_wrong_length() {
    for (pages, registers, reply) in [
        (511, 16, 6),
        (513, 16, 6),
        (512, 15, 6),
        (512, 17, 6),
        (512, 16, 5),
        (512, 16, 7),
        (0, 0, 0),
    ] {
        refuses_lengths(pages, registers, reply);
    }
}

#[test]
fn number_7_budget_spent() {
    let mut still = machine(&LA_1_5);
    runs(&mut still, 0, 0, Stop::BudgetSpent);
    assert_eq!(still, machine(&LA_1_5));
    let mut loops = machine(&[0x47, 0xF0, 0x20, 0x00]);
    loops.registers[2] = 0x00_A000;
    runs(&mut loops, 65_535, 65_535, Stop::BudgetSpent);
    assert_eq!(loops.counter, 0x00_A000);
}

#[test]
fn number_8_divide_error() {
    let error = Refusal::DivideError { at: 0x00_A000 };
    refuses(machine(&DR_4_6), error, &[10]);
    let mut machine = machine(&D_4_AT_2);
    machine.registers[2] = 0x00_A800;
    refuses(machine.clone(), error, &[10]);
    // 2^31 by 1 does not fit, and -2^31 does.
    machine.memory[12_288 + 0x803] = 1;
    machine.registers[5] = 0x8000_0000;
    refuses(machine.clone(), error, &[10]);
    machine.registers[4] = 0xFFFF_FFFF;
    assert_eq!(machine.step(), Ok(()));
    assert_eq!(machine.registers[4..6], [0, 0x8000_0000]);
}

/// L 1,0(2) over the edge of page 10, with what page 11 has.
fn over_the_edge(word: u16) -> Machine {
    let mut machine = machine(&[]);
    machine.counter = 0x00_AFFE;
    machine.pages[11] = word;
    machine.memory[12_288 + 4_094..][..4].copy_from_slice(&L_1_AT_2);
    machine.registers[2] = 0x00_C000;
    machine
}

#[test]
fn a_refusal_keeps_the_marks_of_the_fetch() {
    let absent = |at| Refusal::PagingQueue { at };
    refuses(over_the_edge(0), absent(0x00_B000), &[10]);
    refuses(over_the_edge(0x3004), absent(0x00_C000), &[10, 11]);
    let mut nowhere = over_the_edge(0x3004);
    nowhere.counter = 0x00_C000;
    refuses(nowhere, absent(0x00_C000), &[]);
}

/// MVC 0(1,2),0(3) from an absent page to page 11, whose word is this: found for the move, it gets no mark.
#[test]
fn an_operand_that_was_looked_up_gets_no_mark() {
    for word in [0x3004, 0x7004, 0xF004] {
        let mut machine = machine(&[0xD2, 0x00, 0x20, 0x00, 0x30, 0x00]);
        machine.pages[11] = word;
        machine.registers[2] = 0x00_B000;
        machine.registers[3] = 0x00_C000;
        refuses(machine, Refusal::PagingQueue { at: 0x00_C000 }, &[10]);
    }
}

#[test]
fn the_count_names_the_state() {
    let mut machine = machine(&[0x41, 0x10, 0x00, 0x05, 0x1E, 0x11]);
    let stop = Stop::Refused(Refusal::Operation { at: 0x00_A006 });
    runs(&mut machine, 65_535, 2, stop);
    assert_eq!(
        (machine.registers[1], machine.counter, machine.code),
        (10, 0x00_A006, 1)
    );
}

#[test]
fn memory_has_the_highest_byte_first() {
    let mut machine = machine(&L_1_AT_2);
    machine.registers[2] = 0x00_A800;
    machine.memory[12_288 + 0x800..][..4].copy_from_slice(&[0x12, 0x34, 0x56, 0x78]);
    assert_eq!(machine.step(), Ok(()));
    assert_eq!(machine.registers[1], 0x1234_5678);
}

#[test]
fn what_a_refusal_says() {
    for (refusal, said) in [
        (
            Refusal::Addressing { at: 0x20_0000 },
            "1, addressing: no memory at 200000",
        ),
        (
            Refusal::Specification { at: 9 },
            "2, specification: 000009 is off its boundary, or has an odd R1 for a pair",
        ),
        (
            Refusal::PagingQueue { at: 9 },
            "3, paging queue: the page of 000009 is not usable",
        ),
        (
            Refusal::PagingError { at: 9 },
            "4, paging error: the page of 000009 does not allow this access",
        ),
        (
            Refusal::Operation { at: 9 },
            "5, operation: that at 000009 is not in the set",
        ),
        (
            Refusal::OutOfRange,
            "6, out of range: memory, counter, code, mask or budget",
        ),
        (
            Refusal::DivideError { at: 9 },
            "8, divide error: that at 000009 has no quotient that fits",
        ),
    ] {
        assert_eq!(refusal.to_string(), said);
    }
}
