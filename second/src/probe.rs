//! Cases for calling the machine directly, with lists of any length and
//! numbers of any size: what a sheet cannot show. `common::probe` has the form
//! of a case and of an outcome.

use crate::machine::{Access, Machine, COMPLETED};
use common::probe::{checksum, Call, Kind};

/// One call of the machine.
#[derive(Clone, Debug, PartialEq, Eq)]
pub struct Case {
    pub kind: Kind,
    /// Of a look-up the counter is the address, and the code the access.
    pub machine: Machine,
}

/// What a byte can be wanted for, by the number that a look-up's code is.
pub const ACCESSES: [Access; 3] = [Access::Fetch, Access::Load, Access::Store];

impl Case {
    pub fn step(machine: Machine) -> Case {
        let kind = Kind::Step;
        Case { kind, machine }
    }

    /// A move or a compare, of an engine that has two ways by the plain one.
    pub fn plain(machine: Machine) -> Case {
        let kind = Kind::Plain;
        Case { kind, machine }
    }

    pub fn run(machine: Machine, budget: u32) -> Case {
        let kind = Kind::Run(budget);
        Case { kind, machine }
    }

    /// A look-up in the machine's map and memory.
    pub fn look_up(mut machine: Machine, address: u32, access: Access) -> Case {
        machine.counter = address;
        machine.code = match access {
            Access::Fetch => 0,
            Access::Load => 1,
            Access::Store => 2,
        };
        let kind = Kind::LookUp;
        Case { kind, machine }
    }

    /// Append the case in bytes.
    pub fn push(&self, all: &mut Vec<u8>) {
        let machine = &self.machine;
        let call = Call {
            kind: self.kind,
            memory: &machine.memory,
            map: &machine.map,
            registers: &machine.registers,
            counter: machine.counter,
            code: machine.code,
            mask: machine.mask,
        };
        call.push(all);
    }

    /// The case that the bytes begin with, and the rest of the bytes.
    pub fn split(bytes: &[u8]) -> Option<(Case, &[u8])> {
        let mut reader = Reader { left: bytes };
        let kind = reader.number(1)?;
        let mut machine = Machine::new(reader.number(4)? as usize);
        let words = reader.number(2)?;
        let registers = reader.number(1)?;
        machine.map = (0..words)
            .map(|_| Some(reader.number(2)? as u16))
            .collect::<Option<_>>()?;
        machine.registers = (0..registers)
            .map(|_| reader.number(4))
            .collect::<Option<_>>()?;
        machine.counter = reader.number(4)?;
        machine.code = reader.number(4)?;
        machine.mask = reader.number(4)?;
        let budget = reader.number(4)?;
        for _ in 0..reader.number(2)? {
            let address = reader.number(4)? as usize;
            let length = reader.number(1)? as usize;
            let content = reader.bytes(length)?;
            machine
                .memory
                .get_mut(address..address + length)?
                .copy_from_slice(content);
        }
        let kind = match kind {
            0 => Kind::Step,
            1 => Kind::Run(budget),
            2 if machine.code < 3 => Kind::LookUp,
            3 => Kind::Plain,
            _ => return None,
        };
        Some((Case { kind, machine }, reader.left))
    }

    /// What the machine makes of it, in text.
    pub fn outcome(mut self) -> String {
        let (number, place, count) = match self.kind {
            // This machine has the plain way alone.
            Kind::Step | Kind::Plain => {
                let step = self.machine.step();
                let count = u32::from(step.number == COMPLETED);
                (step.number, step.place, count)
            }
            Kind::Run(budget) => {
                let run = self.machine.run(budget);
                (run.number, run.place, run.count)
            }
            Kind::LookUp => return looked_up(&self.machine),
        };
        let machine = &self.machine;
        let mut text = line("ANSWER", [number, place, count]);
        text += &line("STATE", [machine.counter, machine.code, machine.mask]);
        text += &line("REGS", machine.registers.iter().copied());
        text += &line("MAP", machine.map.iter().copied());
        text += &line("MEMORY", [checksum(&machine.memory)]);
        text
    }
}

/// The one line of a look-up.
fn looked_up(machine: &Machine) -> String {
    let access = ACCESSES[machine.code as usize];
    match machine.look_up_reach(machine.counter, access) {
        Ok(found) => line("LOOK", [0, found.real as u32, found.reach]),
        Err(refusal) => line("LOOK", [refusal.number, refusal.place, 0]),
    }
}

/// A name, numbers, and a line feed.
fn line<N: ToString>(name: &str, numbers: impl IntoIterator<Item = N>) -> String {
    let mut text = name.to_string();
    for number in numbers {
        text.push('\t');
        text += &number.to_string();
    }
    text.push('\n');
    text
}

struct Reader<'a> {
    left: &'a [u8],
}

impl<'a> Reader<'a> {
    fn bytes(&mut self, count: usize) -> Option<&'a [u8]> {
        let (taken, left) = self.left.split_at_checked(count)?;
        self.left = left;
        Some(taken)
    }

    fn number(&mut self, count: usize) -> Option<u32> {
        let taken = self.bytes(count)?;
        Some(
            taken
                .iter()
                .fold(0, |sum, byte| sum << 8 | u32::from(*byte)),
        )
    }
}

#[cfg(test)]
mod tests {
    use super::*;
    use crate::edges;
    use crate::loose::Loose;
    use crate::moves::Moves;

    #[test]
    fn a_case_is_read_back() {
        let mut loose = Loose::new(3);
        let mut cases = edges::cases();
        let mut moves = Moves::new(3);
        for _ in 0..300 {
            cases.extend(loose.cases());
            cases.extend(moves.cases());
        }
        let mut all = Vec::new();
        for case in &cases {
            case.push(&mut all);
        }
        let mut left = all.as_slice();
        for case in &cases {
            let (back, rest) = Case::split(left).expect("a case");
            assert_eq!(back, *case);
            left = rest;
        }
        assert!(left.is_empty());
    }

    /// A call of this kind with this code, in bytes.
    fn in_bytes(kind: u8, code: u32) -> Vec<u8> {
        let mut machine = Machine::new(65_536);
        machine.map[10] = 0x3003;
        let mut bytes = Vec::new();
        Case::look_up(machine, 0x00_A010, Access::Load).push(&mut bytes);
        assert_eq!(bytes[0], 2);
        bytes[0] = kind;
        // After the lists and the counter.
        let at = 1 + 4 + 2 + 1 + 512 * 2 + 16 * 4 + 4;
        assert_eq!(bytes[at..at + 4], [0, 0, 0, 1]);
        bytes[at..at + 4].copy_from_slice(&code.to_be_bytes());
        bytes
    }

    #[test]
    fn a_look_up_has_three_codes_and_a_call_four_kinds() {
        for code in 0..3 {
            let bytes = in_bytes(2, code);
            let (case, left) = Case::split(&bytes).expect("a look-up");
            assert!(left.is_empty());
            assert_eq!(case.kind, Kind::LookUp);
            assert_eq!(case.outcome(), "LOOK\t0\t12304\t4080\n");
        }
        for code in [3, 4, 256, u32::MAX] {
            assert_eq!(Case::split(&in_bytes(2, code)), None);
            // A step with such a code is a call; the door refuses it.
            for (kind, read) in [(0, Kind::Step), (3, Kind::Plain)] {
                let bytes = in_bytes(kind, code);
                let (case, _) = Case::split(&bytes).expect("a step");
                assert_eq!(case.kind, read);
            }
        }
        for kind in [4, 5, 255] {
            assert_eq!(Case::split(&in_bytes(kind, 1)), None);
        }
    }

    #[test]
    fn a_refused_look_up_says_so_in_one_line() {
        let mut machine = Machine::new(65_536);
        machine.map[10] = 0x3803;
        for (address, access, text) in [
            (0x00_A000, Access::Store, "LOOK\t4\t40960\t0\n"),
            (0x00_B001, Access::Load, "LOOK\t3\t45057\t0\n"),
            (0x20_0000, Access::Fetch, "LOOK\t1\t2097152\t0\n"),
            (u32::MAX, Access::Fetch, "LOOK\t1\t4294967295\t0\n"),
        ] {
            let case = Case::look_up(machine.clone(), address, access);
            assert_eq!(case.outcome(), text);
        }
    }
}
