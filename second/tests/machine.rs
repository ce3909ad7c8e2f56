//! What a sheet cannot show: the door, single steps, memory after a refusal,
//! and other sizes of memory.

use second::machine::{Access, Machine, Refusal, Run, Step};

fn stepped(number: u32, place: u32) -> Step {
    Step { number, place }
}

fn ran(number: u32, place: u32, count: u32) -> Run {
    Run {
        number,
        place,
        count,
    }
}

/// A machine with code in page 10, frame 3 if it has one, else frame 0.
fn with_code(size: usize, code: &[u8]) -> Machine {
    let mut machine = Machine::new(size);
    let frame = if size > 3 * 4_096 { 3 } else { 0 };
    machine.map[10] = 0x3000 + frame as u16;
    machine.memory[frame * 4_096..frame * 4_096 + code.len()].copy_from_slice(code);
    machine.counter = 0x00_A000;
    machine
}

/// The same machine after an instruction in page 10 was fetched, and refused.
fn fetched(machine: &Machine) -> Machine {
    let mut machine = machine.clone();
    machine.map[10] = 0x7003;
    machine
}

fn load_five() -> Machine {
    with_code(65_536, &[0x41, 0x10, 0x00, 0x05])
}

#[test]
fn a_completed_step_is_number_0_at_place_0() {
    let mut machine = load_five();
    let mut expected = machine.clone();
    expected.registers[1] = 5;
    expected.counter = 0x00_A004;
    expected.map[10] = 0x7003;
    assert_eq!(machine.step(), stepped(0, 0));
    assert_eq!(machine, expected);
    // The zeros that follow are no operation, and their page has its mark.
    assert_eq!(machine.step(), stepped(5, 0x00_A004));
    assert_eq!(machine, expected);
}

/// Hands the machine in with one thing wrong, for a step and for runs.
fn refused_at_the_door(spoil: fn(&mut Machine)) {
    let mut machine = load_five();
    spoil(&mut machine);
    let before = machine.clone();
    assert!(machine.wrong_at_the_door());
    assert_eq!(machine.step(), stepped(6, 0));
    for budget in [0, 1, 65_535, 65_536] {
        assert_eq!(machine.run(budget), ran(6, 0, 0));
    }
    assert_eq!(machine, before);
}

#[test]
fn wrong_lists_are_refused_at_the_door() {
    refused_at_the_door(|machine| machine.registers.truncate(15));
    refused_at_the_door(|machine| machine.registers.push(0));
    refused_at_the_door(|machine| machine.registers.clear());
    refused_at_the_door(|machine| machine.map.truncate(511));
    refused_at_the_door(|machine| machine.map.push(0));
    refused_at_the_door(|machine| machine.map.clear());
    refused_at_the_door(|machine| machine.memory.clear());
    refused_at_the_door(|machine| machine.memory.truncate(4_095));
    refused_at_the_door(|machine| machine.memory.truncate(65_535));
    refused_at_the_door(|machine| machine.memory.push(0));
    refused_at_the_door(|machine| machine.memory.resize(65_536 + 2_048, 0));
    refused_at_the_door(|machine| machine.memory.resize(262_145, 0));
    refused_at_the_door(|machine| machine.memory.resize(262_144 + 4_096, 0));
}

#[test]
fn numbers_out_of_range_are_refused_at_the_door() {
    refused_at_the_door(|machine| machine.counter = 0x100_0000);
    refused_at_the_door(|machine| machine.counter = 0x100_0001);
    refused_at_the_door(|machine| machine.counter = 0xFFFF_FFFF);
    refused_at_the_door(|machine| machine.code = 4);
    refused_at_the_door(|machine| machine.code = 0xFFFF_FFFF);
    refused_at_the_door(|machine| machine.mask = 16);
    refused_at_the_door(|machine| machine.mask = 0xFFFF_FFFF);
}

#[test]
fn values_at_their_edge_pass_the_door() {
    for (counter, code, mask) in [(0xFF_FFFF, 3, 15), (0, 0, 0), (0xFF_FFFE, 0, 15)] {
        let mut machine = load_five();
        machine.counter = counter;
        machine.code = code;
        machine.mask = mask;
        assert!(!machine.wrong_at_the_door());
        assert_ne!(machine.step().number, 6);
        assert_ne!(machine.run(65_535).number, 6);
        assert_eq!(machine.run(65_536), ran(6, 0, 0));
        assert_eq!(machine.run(u32::MAX), ran(6, 0, 0));
    }
}

#[test]
fn a_budget_out_of_range_alters_nothing() {
    let mut machine = load_five();
    let before = machine.clone();
    assert_eq!(machine.run(65_536), ran(6, 0, 0));
    assert_eq!(machine, before);
    assert_eq!(machine.run(0), ran(7, 0, 0));
    assert_eq!(machine, before);
    assert_eq!(machine.run(1), ran(7, 0, 1));
    assert_eq!(machine.counter, 0x00_A004);
}

#[test]
fn a_run_is_its_steps_one_after_another() {
    // LA 1,200; loop: BCT 1,loop
    let code = [0x41, 0x10, 0x00, 0xC8, 0x46, 0x10, 0x20, 0x04];
    for budget in [0, 1, 2, 100, 200, 201, 202, 65_535] {
        let mut by_run = with_code(65_536, &code);
        by_run.registers[2] = 0x00_A000;
        let mut by_step = by_run.clone();
        let run = by_run.run(budget);
        for _ in 0..run.count {
            assert_eq!(by_step.step(), stepped(0, 0));
        }
        assert_eq!(by_run, by_step);
        assert!(run.count <= budget);
        if run.number == 7 {
            assert_eq!(run.count, budget);
        } else {
            assert_eq!(
                by_step.step(),
                Step {
                    number: run.number,
                    place: run.place
                }
            );
            assert_eq!(by_run, by_step);
        }
        // 1 + 200 steps, then the zeros after the loop.
        assert_eq!(run.number, if budget <= 201 { 7 } else { 5 });
    }
}

#[test]
fn a_refused_move_stores_nothing() {
    for (word, number) in [
        (0x0000, 3),
        (0x1006, 3),
        (0x3806, 4),
        (0x2006, 4),
        (0x3046, 4),
        (0x3010, 1),
    ] {
        let mut machine = with_long_move();
        machine.map[21] = word;
        let expected = fetched(&machine);
        let place = 0x01_5000;
        assert_eq!(machine.step(), stepped(number, place));
        assert_eq!(machine, expected);
        machine.map[21] = 0x3006;
        moves_all(machine);
    }
}

/// MVC of eight bytes over the end of page 20 into page 21, from page 30.
fn with_long_move() -> Machine {
    let mut machine = with_code(65_536, &[0xD2, 0x07, 0x2F, 0xFC, 0x30, 0x00]);
    machine.map[20] = 0x3004;
    machine.map[30] = 0x3005;
    machine.registers[2] = 0x01_4000;
    machine.registers[3] = 0x01_E000;
    for index in 0..8 {
        machine.memory[5 * 4_096 + index] = 0xA0 + index as u8;
    }
    machine
}

/// With the page open, all eight bytes go over, and both pages say so.
fn moves_all(mut machine: Machine) {
    let before = machine.clone();
    let (number, place) = (0, 0);
    assert_eq!(machine.step(), stepped(number, place));
    for index in 0..8 {
        let real = if index < 4 {
            4 * 4_096 + 4_092 + index
        } else {
            6 * 4_096 + index - 4
        };
        assert_eq!(machine.memory[real], 0xA0 + index as u8);
    }
    let pairs = machine.memory.iter().zip(&before.memory);
    assert_eq!(pairs.filter(|(a, b)| a != b).count(), 8);
    assert_eq!(machine.map[20], 0xF004);
    assert_eq!(machine.map[21], 0xF006);
    assert_eq!(machine.map[30], 0x7005);
}

#[test]
fn a_refused_second_field_stores_nothing() {
    // The target is good throughout; the source runs into an absent page.
    let mut machine = with_code(65_536, &[0xD2, 0x07, 0x20, 0x00, 0x3F, 0xFC]);
    machine.map[20] = 0x3004;
    machine.map[30] = 0x3005;
    machine.registers[2] = 0x01_4000;
    machine.registers[3] = 0x01_E000;
    machine.memory[5 * 4_096 + 4_092] = 0x77;
    let expected = fetched(&machine);
    assert_eq!(machine.step(), stepped(3, 0x01_F000));
    assert_eq!(machine, expected);
}

#[test]
fn a_refused_multiple_store_or_load_leaves_only_the_mark_of_its_fetch() {
    for code in [0x90, 0x98] {
        let mut machine = with_code(65_536, &[code, 0x0F, 0x2F, 0xC4]);
        machine.map[20] = 0x3004;
        for number in 0..16 {
            machine.registers[number] = 0x1111_1111 * number as u32;
        }
        machine.registers[2] = 0x01_4000;
        let expected = fetched(&machine);
        assert_eq!(machine.step(), stepped(3, 0x01_5000));
        assert_eq!(machine, expected);
    }
}

#[test]
fn a_refused_division_leaves_only_the_mark_of_its_fetch() {
    // D 4,0(0,2) by zero and by one; DR 4,6 the same; D and DR with an odd register.
    for (code, number) in [
        (&[0x5D, 0x40, 0x20, 0x00][..], 8),
        (&[0x5D, 0x40, 0x20, 0x04], 8),
        (&[0x1D, 0x46], 8),
        (&[0x1D, 0x47], 8),
        (&[0x5D, 0x50, 0x20, 0x00], 2),
        (&[0x1D, 0x56], 2),
    ] {
        let mut machine = with_code(65_536, code);
        machine.map[20] = 0x3004;
        machine.memory[4 * 4_096 + 7] = 1;
        machine.code = 2;
        machine.registers[2] = 0x01_4000;
        machine.registers[4] = 0x8000_0000;
        machine.registers[7] = 1;
        let expected = fetched(&machine);
        let place = 0x00_A000;
        assert_eq!(machine.step(), stepped(number, place));
        assert_eq!(machine.run(9), ran(number, place, 0));
        assert_eq!(machine, expected);
    }
}

/// A list of registers too short for the last pair never gets as far as the pair.
#[test]
fn pairs_in_lists_of_a_wrong_length_are_refused_at_the_door() {
    for code in [
        &[0x1C, 0xEE][..],
        &[0x1D, 0xEE],
        &[0x8F, 0xE0, 0x00, 0x01],
        &[0x8E, 0xF0, 0x00, 0x01],
    ] {
        for count in [0, 1, 14, 15, 17] {
            let mut machine = with_code(65_536, code);
            machine.registers.resize(count, 7);
            let before = machine.clone();
            assert_eq!(machine.step(), stepped(6, 0));
            assert_eq!(machine.run(1).number, 6);
            assert_eq!(machine, before);
        }
    }
}

#[test]
fn the_last_pair_is_14_and_15() {
    // MR 14,14; SRDA 14,4; DR 14,13
    let code = [0x1C, 0xEE, 0x8E, 0xE0, 0x00, 0x04, 0x1D, 0xED];
    let mut machine = with_code(65_536, &code);
    machine.registers[13] = 100;
    machine.registers[14] = 0xFFFF_FFF0;
    machine.registers[15] = 1_000;
    // -16 times 1000 is -16000; by 16 this is -1000 again; by 100 it is -10.
    assert_eq!(machine.step().number, 0);
    assert_eq!(machine.registers[14..], [0xFFFF_FFFF, 0xFFFF_C180]);
    assert_eq!(machine.step().number, 0);
    assert_eq!(machine.registers[14..], [0xFFFF_FFFF, 0xFFFF_FC18]);
    assert_eq!(machine.code, 1);
    assert_eq!(machine.step().number, 0);
    assert_eq!(machine.registers[14..], [0, 0xFFFF_FFF6]);
    assert_eq!(machine.code, 1);
}

#[test]
fn an_overlapping_move_goes_byte_by_byte() {
    let mut machine = with_code(65_536, &[0xD2, 0x03, 0x20, 0x01, 0x20, 0x00]);
    machine.map[20] = 0x3004;
    machine.registers[2] = 0x01_4000;
    machine.memory[4 * 4_096..4 * 4_096 + 6].copy_from_slice(&[1, 2, 3, 4, 5, 6]);
    assert_eq!(machine.step().number, 0);
    assert_eq!(machine.memory[4 * 4_096..4 * 4_096 + 6], [1, 1, 1, 1, 1, 6]);
}

#[test]
fn memory_of_other_sizes() {
    for pages in 1..=64usize {
        let size = pages * 4_096;
        let mut machine = Machine::new(size);
        assert!(!machine.wrong_at_the_door());
        machine.map[10] = 0x3000 + (pages - 1) as u16;
        assert_eq!(machine.look_up(0x00_AFFF, Access::Load), Ok(size - 1));
        machine.map[10] = 0x3600 + (pages - 1) as u16;
        assert_eq!(machine.look_up(0x00_A7FF, Access::Store), Ok(size - 1));
        if pages < 64 {
            past_memory(&mut machine, pages as u16);
        }
        // The whole case, in the last frame.
        machine.map[10] = 0x3000 + (pages - 1) as u16;
        machine.memory[size - 4_096..size - 4_092].copy_from_slice(&[0x41, 0x10, 0x00, 0x05]);
        machine.counter = 0x00_A000;
        assert_eq!(machine.run(1), ran(7, 0, 1));
        assert_eq!(machine.registers[1], 5);
    }
}

/// Page 10 on a frame just past memory: all of it is refused.
fn past_memory(machine: &mut Machine, frame: u16) {
    machine.map[10] = 0x3000 + frame;
    let number = 1;
    for place in [0x00_A000, 0x00_AFFF] {
        let looked = machine.look_up(place, Access::Load);
        assert_eq!(looked, Err(Refusal { number, place }));
    }
    assert_eq!(machine.run(0).number, 7);
    machine.counter = 0x00_A000;
    assert_eq!(machine.run(1), ran(number, 0x00_A000, 0));
}

#[test]
fn the_tests_of_a_look_up_in_their_order() {
    // Address, word, access, size of memory, expected number (0 for none).
    let table: [(u32, u16, Access, u32); 16] = [
        (0x20_0000, 0x3003, Access::Load, 1),
        (0xFF_FFFF, 0x3003, Access::Store, 1),
        (0x00_A000, 0x0000, Access::Load, 3),
        (0x00_A800, 0x1FD0, Access::Store, 3),
        (0x00_A800, 0x3FD0, Access::Store, 4),
        (0x00_A000, 0x3050, Access::Load, 4),
        (0x00_A000, 0x3090, Access::Load, 4),
        (0x00_A000, 0x3110, Access::Load, 4),
        (0x00_A800, 0x3410, Access::Load, 4),
        (0x00_A000, 0x3410, Access::Load, 1),
        (0x00_A000, 0x2010, Access::Load, 4),
        (0x00_A000, 0x3810, Access::Store, 4),
        (0x00_A000, 0x3810, Access::Load, 1),
        (0x00_A000, 0x3803, Access::Load, 0),
        (0x00_A000, 0xF003, Access::Store, 0),
        (0x00_A800, 0x3203, Access::Store, 0),
    ];
    for (address, word, access, number) in table {
        let mut machine = Machine::new(65_536);
        machine.map[10] = word;
        match machine.look_up(address, access) {
            Ok(_) => assert_eq!(number, 0, "{address:06X} {word:04X}"),
            Err(refusal) => {
                assert_eq!(refusal.number, number, "{address:06X} {word:04X}");
                assert_eq!(refusal.place, address);
            }
        }
    }
}
