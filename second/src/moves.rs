//! Moves and compares for the probe: MVC and CLC of all lengths, with the second
//! field at all distances from 300 bytes before the first to 300 behind it. Each
//! machine is called twice, as a step and by the plain way. `strips` says where
//! the fields lie.

use crate::draft::ss;
use crate::machine::{Access, Machine, G, W};
use crate::operations as op;
use crate::probe::Case;
use crate::strips::{some_refusal, Layout, Task, OPEN};
use common::dice::Dice;

const LENGTHS: u32 = 256;
const FARTHEST: i32 = 300;

/// Lengths, the two operations, and distances.
const TASKS: u32 = LENGTHS * 2 * (2 * FARTHEST as u32 + 1);

/// It has no divisor in common with their number, so that a walk by it comes to
/// each once; and it goes about so far that any part of a walk is spread over
/// them all (the golden section).
const STRIDE: u32 = 190_177;

/// So much on both sides of a field is filled with any bytes, so that a byte too
/// many would show.
const MARGIN: usize = 72;

/// Makes machines that stand at a move or a compare.
pub struct Moves {
    at: u32,
    dice: Dice,
}

impl Moves {
    pub fn new(seed: u64) -> Moves {
        let mut dice = Dice::new(seed ^ 0xD2D5);
        let at = dice.below(TASKS);
        Moves { at, dice }
    }

    /// The next machine as a step, and by the plain way.
    pub fn cases(&mut self) -> [Case; 2] {
        let machine = self.make();
        [Case::step(machine.clone()), Case::plain(machine)]
    }

    /// The next machine. Three in four go on with the walk, and the others have a
    /// distance of which a walk has too few.
    pub fn make(&mut self) -> Machine {
        let dice = &mut self.dice;
        let (operation, length, distance) = if dice.chance(3, 4) {
            self.at = (self.at + STRIDE) % TASKS;
            task_at(self.at)
        } else {
            let (operation, length, _) = task_at(dice.below(TASKS));
            (operation, length, some_distance(length, dice))
        };
        let stores = operation == op::MVC;
        let task = Task {
            stores,
            length,
            distance,
            refusal: some_refusal(stores, dice),
        };
        self.machine_for(&task, operation)
    }

    fn machine_for(&mut self, task: &Task, operation: u8) -> Machine {
        let dice = &mut self.dice;
        let layout = Layout::some(task, dice);
        let mut machine = Machine::new(usize::from(layout.frames) * 4_096);
        machine.registers.fill_with(|| dice.word());
        machine.code = dice.below(4);
        machine.mask = dice.below(16);
        for strip in &layout.strips {
            set(&mut machine, strip.page, strip.words[0]);
            set(&mut machine, strip.page + 1, strip.words[1]);
        }
        set_free_pages(&mut machine, &layout, dice);
        let length = task.length as u32;
        let fields = [0, 1].map(|field| places(&machine, layout.address(field), length));
        for field in &fields {
            fill_about(&mut machine, field, dice);
        }
        let addresses = [layout.address(0), layout.address(1)];
        let text = instruction(&mut machine, operation, length, addresses, dice);
        put_apart(&mut machine, &text, &fields, dice);
        if task.refusal.is_none() && !task.stores {
            compare_somehow(&mut machine, &fields, addresses, dice);
        }
        if let Some(refused) = &task.refusal {
            for (page, word) in layout.spoil(refused, dice) {
                set(&mut machine, page, word);
            }
        }
        machine
    }
}

/// Operation, length and distance by their number.
fn task_at(number: u32) -> (u8, i32, i32) {
    let operation = [op::MVC, op::CLC][(number / LENGTHS % 2) as usize];
    let distance = (number / LENGTHS / 2) as i32 - FARTHEST;
    (operation, (number % LENGTHS) as i32 + 1, distance)
}

/// A distance at which a way of moving many bytes at once may turn: none, the
/// width of such a piece, or the fields' own length; each a little more or less.
fn some_distance(length: i32, dice: &mut Dice) -> i32 {
    let about = dice.pick(&[0, 0, 1, 2, 4, 8, 16, 32, 64, 128, length, length]);
    let distance = about + dice.below(3) as i32 - 1;
    dice.pick(&[distance, -distance])
}

/// Gives a page its word, if there is such a page.
fn set(machine: &mut Machine, page: u32, word: u16) {
    if let Some(old) = machine.map.get_mut(page as usize) {
        *old = word;
    }
}

/// Opens the pages before and behind the strips: who went there by mistake would
/// not be refused.
fn set_free_pages(machine: &mut Machine, layout: &Layout, dice: &mut Dice) {
    for strip in &layout.strips {
        for page in [strip.page.wrapping_sub(1), strip.page + 2] {
            if machine.map.get(page as usize) == Some(&0) {
                let frame = dice.below(u32::from(layout.frames)) as u16;
                set(machine, page, OPEN | frame);
            }
        }
    }
}

/// Where the bytes of a field lie in memory, as far as there are such.
fn places(machine: &Machine, address: u32, length: u32) -> Vec<usize> {
    (address..address + length)
        .filter_map(|address| machine.look_up(address, Access::Load).ok())
        .collect()
}

fn fill_about(machine: &mut Machine, field: &[usize], dice: &mut Dice) {
    for stretch in field.chunk_by(|one, next| one + 1 == *next) {
        let from = stretch[0].saturating_sub(MARGIN);
        let to = machine.memory.len().min(from + stretch.len() + 2 * MARGIN);
        machine.memory[from..to].fill_with(|| dice.byte());
    }
}

/// The instruction, with its two base registers set.
fn instruction(
    machine: &mut Machine,
    operation: u8,
    length: u32,
    addresses: [u32; 2],
    dice: &mut Dice,
) -> Vec<u8> {
    let one = 1 + dice.below(15);
    let other = 1 + (one + dice.below(14)) % 15;
    let bases = [one, other].map(|base| base as u8);
    let mut displacements = [0; 2];
    for field in 0..2 {
        displacements[field] = dice.below(4_096);
        // The sum keeps 24 bits, and the leftmost 8 of a base play no part.
        let base = (1 << 24) + addresses[field] - displacements[field];
        machine.registers[usize::from(bases[field])] = base % (1 << 24) + (dice.below(256) << 24);
    }
    ss(
        operation,
        (length - 1) as u8,
        bases[0],
        displacements[0],
        bases[1],
        displacements[1],
    )
}

/// Puts the instruction into free pages, with no byte in a field, and the counter
/// on it. Its pages have G: the plain way does not mark what was fetched.
fn put_apart(machine: &mut Machine, text: &[u8], fields: &[Vec<usize>; 2], dice: &mut Dice) {
    let page = loop {
        let page = dice.below(511);
        if machine.map[page as usize..][..2] == [0, 0] {
            break page;
        }
    };
    loop {
        let frames = (machine.memory.len() / 4_096) as u32;
        for page in [page, page + 1] {
            let marks = dice.pick(&[G, G | W]);
            set(machine, page, OPEN | marks | dice.below(frames) as u16);
        }
        let at = match dice.once_in(8) {
            true => dice.pick(&[4_092, 4_094]),
            false => dice.below(2_046) * 2,
        };
        machine.counter = page * 4_096 + at;
        let reals = places(machine, machine.counter, text.len() as u32);
        if fields.iter().flatten().all(|place| !reals.contains(place)) {
            for (real, byte) in reals.into_iter().zip(text) {
                machine.memory[real] = *byte;
            }
            return;
        }
    }
}

/// Gives the fields of a compare bytes that are equal, or differ in one place or
/// two; or leaves them any bytes.
fn compare_somehow(
    machine: &mut Machine,
    fields: &[Vec<usize>; 2],
    addresses: [u32; 2],
    dice: &mut Dice,
) {
    let differences = match dice.below(10) {
        0 | 1 => return,
        2 | 3 => 0,
        4..=7 => 1,
        _ => 2,
    };
    make_equal(&mut machine.memory, fields);
    for _ in 0..differences {
        let place = some_place(fields[0].len(), addresses, dice);
        make_different(
            &mut machine.memory,
            fields,
            place,
            1 + dice.below(255) as u8,
        );
    }
}

/// A place in the fields: an end, a side of the edge of a page, or any.
fn some_place(length: usize, addresses: [u32; 2], dice: &mut Dice) -> usize {
    let before_edge = 4_096 - dice.pick(&addresses) as usize % 4_096;
    let place = match dice.below(6) {
        0 => 0,
        1 => length - 1,
        2 => before_edge - 1,
        3 => before_edge,
        _ => length,
    };
    match place < length {
        true => place,
        false => dice.below(length as u32) as usize,
    }
}

/// Lets each byte of the first field be as its fellow. A byte of one field can be
/// in the other too, on either side: both ways are gone until all are alike. Where
/// pages are crossed a circle of bytes may be left as it is.
fn make_equal(memory: &mut [u8], [first, second]: &[Vec<usize>; 2]) {
    for _ in 0..4 {
        for place in (0..first.len()).chain((0..first.len()).rev()) {
            memory[first[place]] = memory[second[place]];
        }
    }
}

/// Makes equal fields differ in this place alone: where a changed byte of the first
/// field is in the second field too, the one that it is compared with there changes
/// in the same way.
fn make_different(memory: &mut [u8], fields: &[Vec<usize>; 2], place: usize, by: u8) {
    let [first, second] = fields;
    let mut at = place;
    loop {
        memory[first[at]] ^= by;
        match second.iter().position(|real| *real == first[at]) {
            Some(next) if next != place => at = next,
            _ => return,
        }
    }
}

#[cfg(test)]
mod tests {
    use super::*;

    #[test]
    fn the_walk_comes_to_each_task() {
        let mut is_met = vec![false; TASKS as usize];
        let mut at = 0;
        for _ in 0..TASKS {
            at = (at + STRIDE) % TASKS;
            is_met[at as usize] = true;
        }
        assert!(is_met.iter().all(|met| *met));
        assert_eq!(task_at(0), (op::MVC, 1, -300));
        assert_eq!(task_at(TASKS - 1), (op::CLC, 256, 300));
    }

    #[test]
    fn equal_fields_differ_where_they_are_made_to() {
        for distance in [-40, -7, -1, 1, 7, 40] {
            let first: Vec<usize> = (50..80).collect();
            let second = first.iter().map(|real| real.wrapping_add_signed(distance));
            let fields = [first.clone(), second.collect()];
            let mut memory: Vec<u8> = (0..130).collect();
            make_equal(&mut memory, &fields);
            for place in 0..30 {
                let mut other = memory.clone();
                make_different(&mut other, &fields, place, 5);
                for at in 0..30 {
                    let is_equal = other[fields[0][at]] == other[fields[1][at]];
                    assert_eq!(is_equal, at != place, "{distance}, {place}, {at}");
                }
            }
        }
    }
}
