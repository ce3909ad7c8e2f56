//! The programs in Hercules: storage with the program's bytes at the same addresses, and a few instructions before and after.

use crate::clock;
use crate::machine::{Machine, PAGE};
use crate::programs::{Place, Program};
use common::bytes::{from_hex, put};
use common::hercules::{run, Ended, OldPsw};
use std::path::PathBuf;
use std::time::Duration;

pub struct Hercules {
    pub folder: PathBuf,
    pub version: String,
}

/// An address and what stands there, in S/370 basic control mode without translation.
const AROUND: [(usize, &str); 5] = [
    // The PSW for a restart: to 200.
    (0x000, "0000000000000200"),
    // The PSW for a program interruption, by which every program ends: to 300.
    (0x068, "0000000000000300"),
    // LM 0,15,400; BC 15,0(0,12)
    (0x200, "980F0400 47F0C000"),
    // STM 0,15,440; LPSW 480
    (0x300, "900F0440 82000480"),
    // The last PSW: a disabled wait.
    (0x480, "0002000000000000"),
];
const REGISTERS: usize = 0x400;
const REGISTERS_AFTER: usize = 0x440;
const OLD_PSW: usize = 0x28;
const STORAGE: usize = 0x6000;
/// The interruption for an operation that there is not.
const OPERATION: u16 = 1;

fn storage(program: &Program, rounds: u32) -> Vec<u8> {
    let machine = program.machine(rounds);
    let mut storage = vec![0; STORAGE];
    for (at, text) in AROUND {
        put(&mut storage, at, &from_hex(text));
    }
    for (i, word) in machine.registers.iter().enumerate() {
        put(&mut storage, REGISTERS + 4 * i, &word.to_be_bytes());
    }
    for place in program.places() {
        let bytes = &machine.memory[place.real..][..place.bytes];
        put(&mut storage, place.page * PAGE, bytes);
    }
    storage
}

/// What differs first between what Hercules left, registers and the old PSW in bytes, pages in storage, and a machine that ended for want
/// of an operation, if anything does.
pub fn difference(
    registers: &[u8],
    psw: [u8; 8],
    (storage, places): (&[u8], &[Place]),
    machine: &Machine,
) -> Option<String> {
    let psw = OldPsw::read(psw);
    if psw.number != OPERATION || psw.place != machine.counter {
        return Some(format!("interruption {} at {:06X}", psw.number, psw.place));
    }
    if (u32::from(psw.code), u32::from(psw.mask)) != (machine.code, machine.mask) {
        return Some("another condition code, or another mask".to_string());
    }
    for (i, word) in machine.registers.iter().enumerate() {
        if registers[4 * i..][..4] != word.to_be_bytes() {
            return Some(format!("register {i} differs"));
        }
    }
    places
        .iter()
        .find(|place| {
            let bytes = &machine.memory[place.real..][..place.bytes];
            storage[place.page * PAGE..][..place.bytes] != *bytes
        })
        .map(|place| format!("a byte of page {} differs", place.page))
}

impl Hercules {
    /// Starts it once, with the shortest run there is.
    pub fn new(folder: PathBuf, program: &Program) -> Result<Hercules, String> {
        let Ended { version, .. } = run(&folder, &storage(program, 1))?;
        Ok(Hercules { folder, version })
    }

    pub fn check(&self, program: &Program, rounds: u32, wanted: &Machine) -> Result<(), String> {
        let storage = run(&self.folder, &storage(program, rounds))?.storage;
        let registers = &storage[REGISTERS_AFTER..][..64];
        let psw = std::array::from_fn(|i| storage[OLD_PSW + i]);
        difference(registers, psw, (&storage, &program.places()), wanted).map_or(Ok(()), Err)
    }

    /// The processor time of a whole process that does so many rounds.
    pub fn time(&self, program: &Program, rounds: u32) -> Result<Duration, String> {
        let before = clock::children();
        run(&self.folder, &storage(program, rounds))?;
        Ok(clock::children() - before)
    }
}
