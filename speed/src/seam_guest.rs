//! Programs about the seam in Hercules, many in one of its runs. A small program of ours walks a table of records: for each it loads the
//! registers, goes to the program, and writes what the interruption at its end finds back into the record.

use crate::engine::Engine;
use crate::hercules::{difference, Hercules};
use crate::machine::{Machine, PAGE, PAGES};
use crate::programs::Place;
use crate::seam::ran;
use common::bytes::{from_hex, put};
use common::hercules::run;
use common::seam::MOST_STEPS;

/// A record: sixteen registers and a PSW.
const RECORD: usize = 72;
const PSW: usize = 64;

/// The table lies beyond all pages.
const TABLE: usize = PAGES * PAGE;

/// An address and what stands there, in S/370 basic control mode without translation. Data: registers at 400, the record at work at 440,
/// the table's end and start at 444 and 448, the PSW to load at 450, the last PSW (a disabled wait) at 458.
const GUEST: [(usize, &str); 6] = [
    // The PSWs for a restart and for a program interruption.
    (0x000, "0000000000000200"),
    (0x068, "0000000000000300"),
    // L 1,448; C 1,444; BNL 380; ST 1,440; MVC 450(8),64(1); LM 0,15,0(1); LPSW 450
    (
        0x200,
        "58100448 59100444 47B00380 50100440 D20704501040 980F1000 82000450",
    ),
    // STM 0,15,400; L 1,440; MVC 0(64,1),400; MVC 64(8,1),28; LA 1,72(1); B 204
    (
        0x300,
        "900F0400 58100440 D23F10000400 D20710400028 41101048 47F00204",
    ),
    // LPSW 458
    (0x380, "82000458"),
    (0x458, "0002000000000000"),
];

/// This engine's number for an operation that there is not.
const OPERATION: u32 = 5;
/// The mask's bit for an overflow, which would interrupt in Hercules.
const OVERFLOW: u32 = 8;

const OPEN: u16 = 0x3000;
const X_BITS: u16 = 0x01C0;
const HALF: u16 = 0x0400;
const UPPER: u16 = 0x0200;
const FRAME: u16 = 0x003F;

/// Fewer of a kind would say little.
const LEAST: usize = 20;

fn place((page, word): (usize, &u16)) -> Place {
    let has = |bits| word & bits == bits;
    let upper = if has(HALF | UPPER) { PAGE / 2 } else { 0 };
    Place {
        page,
        real: usize::from(word & FRAME) * PAGE + upper,
        bytes: if has(HALF) { PAGE / 2 } else { PAGE },
        word: *word,
    }
}

/// The pages that are open and lie in memory.
fn places(machine: &Machine) -> Vec<Place> {
    let is_open =
        |place: &Place| place.word & (OPEN | X_BITS) == OPEN && place.real < machine.memory.len();
    let all = machine.map.iter().enumerate().map(place);
    all.filter(is_open).collect()
}

/// A program before and after.
struct Course<'a> {
    before: &'a Machine,
    after: Machine,
    places: Vec<Place>,
}

impl Course<'_> {
    /// Whether it ends where there is no operation, here or in S/370.
    fn ends_on_zero(&self) -> bool {
        self.places.iter().any(|place| {
            let at = (self.after.counter as usize).wrapping_sub(place.page * PAGE);
            at < place.bytes && self.after.memory[place.real + at] == 0
        })
    }

    /// Without a map no two pages have one frame. Page 0 is the guest's.
    fn has_own_frames(&self) -> bool {
        let frame = |place: &Place| place.real / PAGE;
        let is_first = |(i, place): (usize, &Place)| {
            let before = &self.places[..i];
            place.page > 0 && before.iter().all(|other| frame(other) != frame(place))
        };
        self.places.iter().enumerate().all(is_first)
    }
}

/// As far as Hercules can do the same.
fn course(before: &Machine) -> Option<Course<'_>> {
    let (after, answer) = ran(Engine::Proved, before, MOST_STEPS);
    let places = places(before);
    let course = Course {
        before,
        after,
        places,
    };
    let is_ended = answer.number == OPERATION && course.ends_on_zero();
    let fits = is_ended && course.has_own_frames() && before.mask & OVERFLOW == 0;
    fits.then_some(course)
}

/// As many as have pages of their own.
fn chosen(machines: &[Machine]) -> Vec<Course<'_>> {
    let mut taken = [false; PAGES];
    let mut chosen = Vec::new();
    for course in machines.iter().filter_map(course) {
        if course.places.iter().all(|place| !taken[place.page]) {
            for place in &course.places {
                taken[place.page] = true;
            }
            chosen.push(course);
        }
    }
    chosen
}

fn record(machine: &Machine) -> Vec<u8> {
    let registers = machine.registers.iter();
    let mut record: Vec<u8> = registers.flat_map(|word| word.to_be_bytes()).collect();
    // Nothing enabled, key 0, problem state; then code, mask and counter.
    record.extend([0, 1, 0, 0, (machine.code << 4 | machine.mask) as u8]);
    record.extend(&machine.counter.to_be_bytes()[1..]);
    record
}

fn storage(courses: &[Course]) -> Vec<u8> {
    let end = TABLE + courses.len() * RECORD;
    let mut storage = vec![0; end];
    for (at, text) in GUEST {
        put(&mut storage, at, &from_hex(text));
    }
    put(&mut storage, 0x444, &(end as u32).to_be_bytes());
    put(&mut storage, 0x448, &(TABLE as u32).to_be_bytes());
    for (i, course) in courses.iter().enumerate() {
        put(&mut storage, TABLE + i * RECORD, &record(course.before));
        for place in &course.places {
            let bytes = &course.before.memory[place.real..][..place.bytes];
            put(&mut storage, place.page * PAGE, bytes);
        }
    }
    storage
}

/// Of these programs, those that Hercules can do; how many agreed.
pub fn check(hercules: &Hercules, machines: &[Machine]) -> Result<u32, String> {
    let courses = chosen(machines);
    if courses.len() < LEAST {
        return Err(format!("only {} programs for Hercules", courses.len()));
    }
    let storage = run(&hercules.folder, &storage(&courses))?.storage;
    for (i, course) in courses.iter().enumerate() {
        let (registers, psw) = storage[TABLE + i * RECORD..][..RECORD].split_at(PSW);
        let psw = std::array::from_fn(|i| psw[i]);
        let found = difference(registers, psw, (&storage, &course.places), &course.after);
        if let Some(found) = found {
            let counter = course.before.counter;
            return Err(format!("from {counter:06X}, Hercules: {found}"));
        }
    }
    Ok(courses.len() as u32)
}

#[cfg(test)]
mod tests {
    use super::*;
    use crate::seam::machine;
    use common::seam::KINDS;

    #[test]
    fn storage_has_the_programs_whole() {
        for kind in &KINDS {
            let machines: Vec<Machine> = (0..kind.cases)
                .map(|case| machine(kind.program(1, case)))
                .collect();
            let courses = chosen(&machines);
            assert!(courses.len() >= LEAST, "{}", kind.name);
            let storage = storage(&courses);
            for (i, course) in courses.iter().enumerate() {
                let record = &storage[TABLE + i * RECORD..][..RECORD];
                assert_eq!(record[PSW + 5..], course.before.counter.to_be_bytes()[1..]);
                for place in &course.places {
                    let bytes = &course.before.memory[place.real..][..place.bytes];
                    assert_eq!(storage[place.page * PAGE..][..place.bytes], *bytes);
                }
            }
        }
    }
}
