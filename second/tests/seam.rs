//! The programs about the seam between two ways of a step: that they go from one way to the other, and for every reason.

use common::seam::{Kind, Program, KINDS, MOST_STEPS};
use second::machine::{Machine, FRAME, G, H, M, W};
use second::operations as op;
use second::seam::{machine, sheets};
use second::{answer, sheet};
use std::collections::{HashMap, HashSet};
use std::rc::Rc;

const SEEDS: [u64; 2] = [1, 2];

/// A step of a program.
struct Turn {
    before: Rc<Machine>,
    after: Rc<Machine>,
    number: u32,
}

fn turns(program: &Program) -> Vec<Turn> {
    let mut before = Rc::new(machine(program));
    let mut turns = Vec::new();
    for _ in 0..MOST_STEPS {
        let mut after = Machine::clone(&before);
        let number = after.step().number;
        let after = Rc::new(after);
        turns.push(Turn {
            before,
            after: Rc::clone(&after),
            number,
        });
        if number != 0 {
            break;
        }
        before = after;
    }
    turns
}

fn kind(name: &str) -> &'static Kind {
    let kind = KINDS.iter().find(|kind| kind.name == name);
    kind.unwrap_or_else(|| panic!("there is no {name}"))
}

fn all_turns(kind: &Kind, seed: u64) -> impl Iterator<Item = Vec<Turn>> + '_ {
    (0..kind.cases).map(move |case| turns(&kind.program(seed, case)))
}

fn word_of(machine: &Machine, address: u32) -> u16 {
    let page = address as usize / 4_096;
    machine.map.get(page).copied().unwrap_or(0)
}

/// Where a page ends.
fn end(word: u16) -> u32 {
    if word & M == 0 {
        4_096
    } else {
        2_048
    }
}

fn real(machine: &Machine, address: u32) -> usize {
    let word = word_of(machine, address);
    let upper = if word & M != 0 && word & H != 0 {
        2_048
    } else {
        0
    };
    usize::from(word & FRAME) * 4_096 + upper + address as usize % 4_096
}

impl Turn {
    /// Whether every quick way may do it: it completes, its page has its mark and six bytes to go, and no mark is set. Some set marks too,
    /// where an instruction is sure to be done.
    fn is_quick(&self) -> bool {
        let counter = self.before.counter;
        let word = word_of(&self.before, counter);
        let fits = counter % 4_096 + 6 <= end(word);
        self.number == 0 && word & G != 0 && fits && self.before.map == self.after.map
    }

    fn code(&self) -> u8 {
        let at = real(&self.before, self.before.counter);
        self.before.memory.get(at).copied().unwrap_or(0)
    }

    /// The real addresses of the bytes that it changed.
    fn changed(&self) -> Vec<usize> {
        let (before, after) = (&self.before.memory, &self.after.memory);
        if before == after {
            return Vec::new();
        }
        (0..before.len())
            .filter(|&at| before[at] != after[at])
            .collect()
    }

    /// Whether it changed a byte of the instruction at an address.
    fn changes(&self, address: u32) -> bool {
        let first = real(&self.after, address);
        let code = self.before.memory.get(first).copied().unwrap_or(0);
        let bytes = first..first + op::length(code) as usize;
        self.changed().iter().any(|at| bytes.contains(at))
    }
}

#[test]
fn every_kind_goes_from_each_way_to_the_other() {
    let least = [
        // Into the quick way, out of it, and by so many programs.
        ("own-code", 2_500, 3_000, 1_600),
        ("page-ends", 900, 1_400, 1_000),
        ("marks", 1_300, 1_500, 900),
        ("branches", 1_000, 1_500, 1_200),
        ("operands", 1_500, 3_500, 3_500),
        ("mixed", 1_700, 2_300, 1_400),
        ("moves", 1_400, 3_000, 2_600),
    ];
    assert_eq!(
        least.map(|row| row.0),
        KINDS.each_ref().map(|kind| kind.name)
    );
    for seed in SEEDS {
        for (name, least_in, least_out, least_programs) in least {
            let (mut into, mut out, mut programs) = (0, 0, 0);
            for turns in all_turns(kind(name), seed) {
                let ways: Vec<bool> = turns.iter().map(Turn::is_quick).collect();
                let change = |from: bool| {
                    let pairs = ways.windows(2);
                    pairs
                        .filter(|pair| pair[0] == from && pair[1] != from)
                        .count()
                };
                let (a, b) = (change(false), change(true));
                into += a;
                out += b;
                programs += usize::from(a + b > 0);
            }
            let found = format!("{name}: {into} in, {out} out, by {programs}");
            assert!(into >= least_in && out >= least_out, "{found}");
            assert!(programs >= least_programs, "{found}");
        }
    }
}

#[test]
fn they_stop_in_every_way() {
    for seed in SEEDS {
        let mut stops = [0; 9];
        for kind in &KINDS {
            for case in 0..kind.cases {
                let run = machine(&kind.program(seed, case)).run(MOST_STEPS);
                stops[run.number as usize] += 1;
            }
        }
        // 7 is for those that have no end.
        let least = [0, 600, 800, 250, 2_000, 5_000, 0, 60, 150];
        for (times, least) in stops.iter().zip(least) {
            assert!(*times >= least, "{stops:?}");
        }
    }
}

/// How often an operation, done the quick way, changed the running instruction, and how often the next one, which is then done the quick
/// way too; in how many of the latter through another page.
type Changes = HashMap<u8, [u32; 3]>;

fn count_changes(turns: &[Turn], changes: &mut Changes) {
    for pair in turns.windows(2) {
        if !pair[0].is_quick() || pair[0].changed().is_empty() {
            continue;
        }
        let row = changes.entry(pair[0].code()).or_default();
        let counter = pair[0].before.counter;
        row[0] += u32::from(pair[0].changes(counter));
        if pair[0].changes(pair[1].before.counter) && pair[1].is_quick() {
            row[1] += 1;
            // R13 has the page that is stored through.
            let through = pair[0].before.registers[13] / 4_096;
            row[2] += u32::from(through != counter / 4_096);
        }
    }
}

#[test]
fn every_store_changes_the_running_instruction_and_the_next() {
    for seed in SEEDS {
        let mut changes = Changes::new();
        for turns in all_turns(kind("own-code"), seed) {
            count_changes(&turns, &mut changes);
        }
        let stores = [
            op::ST,
            op::STH,
            op::STC,
            op::STM,
            op::MVI,
            op::NI,
            op::OI,
            op::XI,
            op::MVC,
        ];
        for code in stores {
            let row = changes.get(&code).copied().unwrap_or_default();
            let is_enough = row[0] >= 5 && row[1] >= 4 && row[2] >= 1;
            assert!(is_enough, "{code:02X}: {row:?}");
        }
    }
}

#[test]
fn marks_are_set_between_quick_steps() {
    for seed in SEEDS {
        let mut set = [0; 4];
        for turns in all_turns(kind("marks"), seed) {
            for three in turns.windows(3) {
                let [first, turn, last] = three else {
                    unreachable!("windows of three");
                };
                if !first.is_quick() || !last.is_quick() {
                    continue;
                }
                let old = turn.before.map.iter();
                for (old, new) in old.zip(&turn.after.map).filter(|(old, new)| old != new) {
                    // G alone, W alone, both at once, and G where W stood already.
                    let kind = match (new & !old & (W | G), old & W) {
                        (G, 0) => 0,
                        (W, _) => 1,
                        (G, _) => 3,
                        _ => 2,
                    };
                    set[kind] += 1;
                }
            }
        }
        assert!(set.iter().all(|times| *times >= 60), "{set:?}");
    }
}

#[test]
fn instructions_of_every_length_begin_before_the_end_of_a_page() {
    for seed in SEEDS {
        let mut begun = HashMap::new();
        for turns in all_turns(kind("page-ends"), seed) {
            for turn in turns.iter().filter(|turn| turn.number == 0) {
                let counter = turn.before.counter;
                let word = word_of(&turn.before, counter);
                let left = end(word) - counter % 4_096;
                let shape = word & M != 0;
                *begun
                    .entry((shape, left, op::length(turn.code())))
                    .or_insert(0) += 1;
            }
        }
        for shape in [false, true] {
            for left in [2, 4, 6, 8] {
                for length in [2, 4, 6] {
                    let times = begun.get(&(shape, left, length)).copied().unwrap_or(0);
                    // A page of 2,048 bytes has nothing behind its end.
                    let least = if shape && length > left { 0 } else { 10 };
                    assert!(times >= least, "{left} {length}: {times}");
                    assert!(least > 0 || times == 0);
                }
            }
        }
    }
}

#[test]
fn branches_leave_the_quick_way_for_every_kind_of_place() {
    for seed in SEEDS {
        let mut odd = 0;
        let mut refused = [0; 9];
        let mut other_page = 0;
        for turns in all_turns(kind("branches"), seed) {
            for pair in turns.windows(2).filter(|pair| pair[0].is_quick()) {
                let (from, to) = (pair[0].before.counter, pair[1].before.counter);
                odd += u32::from(to % 2 == 1 && pair[1].number == 2);
                other_page += u32::from(from / 4_096 != to / 4_096);
                refused[pair[1].number as usize] += 1;
            }
        }
        assert!(odd >= 60, "{odd}");
        assert!(other_page >= 300, "{other_page}");
        for number in [1, 2, 3, 4, 5] {
            assert!(refused[number] >= 25, "{refused:?}");
        }
    }
}

/// The length of the two fields of a move or compare, their real addresses, and whether one page has both.
fn fields(turn: &Turn) -> (u32, [usize; 2], bool) {
    let machine = &turn.before;
    let text = real(machine, machine.counter);
    let bytes = &machine.memory[text..text + 6];
    let address = |at: usize| {
        let base = machine.registers[usize::from(bytes[at] >> 4)];
        base + u32::from(bytes[at] & 15) * 256 + u32::from(bytes[at + 1])
    };
    let both = [address(2), address(4)];
    let is_one = both[0] / 4_096 == both[1] / 4_096;
    (
        u32::from(bytes[1]) + 1,
        both.map(|one| real(machine, one)),
        is_one,
    )
}

/// The moves and compares of the kind that is about them, done the quick way or another.
fn moved(turns: &[Turn]) -> impl Iterator<Item = &Turn> {
    let is_one = |turn: &&Turn| [op::MVC, op::CLC].contains(&turn.code());
    turns.iter().filter(is_one)
}

#[test]
fn short_fields_of_every_length_lie_at_every_distance() {
    for seed in SEEDS {
        let mut met = HashSet::new();
        for turns in all_turns(kind("moves"), seed) {
            for turn in moved(&turns).filter(|turn| turn.is_quick()) {
                let (length, [first, second], is_one) = fields(turn);
                let distance = second as i64 - first as i64;
                if length <= 40 && distance.abs() <= 40 {
                    met.insert((turn.code(), length, distance, is_one));
                }
            }
        }
        assert_eq!(met.len(), 2 * 40 * 81 * 2);
    }
}

#[test]
fn short_compares_find_each_byte_and_every_order() {
    for seed in SEEDS {
        let (mut places, mut codes) = (HashSet::new(), HashSet::new());
        for turns in all_turns(kind("moves"), seed) {
            let is_one = |turn: &&Turn| turn.code() == op::CLC && turn.number == 0;
            for turn in moved(&turns).filter(is_one) {
                let (length, [first, second], _) = fields(turn);
                codes.insert((length, turn.after.code));
                let memory = &turn.before.memory;
                let at = |real: usize| memory.get(real..real + length as usize).unwrap_or(&[]);
                let mut pairs = at(first).iter().zip(at(second));
                if let Some(place) = pairs.position(|(one, other)| one != other) {
                    places.insert((length, place as u32));
                }
            }
        }
        for length in 1..=40 {
            assert!((0..3).all(|code| codes.contains(&(length, code))));
            let is_found = |place| places.contains(&(length, place));
            assert!(length > 32 || (0..length).all(is_found), "{length}");
        }
    }
}

#[test]
fn short_fields_end_at_the_ends_of_pages_and_beyond() {
    for seed in SEEDS {
        let mut met = HashMap::new();
        for turns in all_turns(kind("moves"), seed) {
            for turn in moved(&turns) {
                // R14 has the field that goes over the end.
                let address = turn.before.registers[14];
                let word = word_of(&turn.before, address);
                let past = i64::from(address % 4_096 + fields(turn).0) - i64::from(end(word));
                let key = (turn.code(), word & (M | H), past, turn.number == 0);
                *met.entry(key).or_insert(0) += 1;
            }
        }
        for code in [op::MVC, op::CLC] {
            for shape in [0, M, M | H] {
                for past in [-1, 0, 1] {
                    let times = [true, false]
                        .map(|done| met.get(&(code, shape, past, done)).copied().unwrap_or(0));
                    let least = match (shape, past) {
                        (0, 1) => [200, 45],
                        (_, 1) => [0, 30],
                        _ => [30, 0],
                    };
                    let is_enough = times[0] >= least[0] && times[1] >= least[1];
                    assert!(is_enough, "{code:02X} {shape:04X} {past}: {times:?}");
                }
            }
        }
    }
}

#[test]
fn words_are_done_and_refused_where_marks_are_missing() {
    for seed in SEEDS {
        // Done, with a mark set; refused, with none but the code's there.
        let mut met = HashMap::new();
        for turns in all_turns(kind("moves"), seed) {
            for turn in &turns {
                let page = turn.before.registers[14] as usize / 4_096;
                let (old, new) = (turn.before.map[page], turn.after.map[page]);
                let row = met.entry(turn.code()).or_insert([0; 2]);
                row[0] += u32::from(turn.number == 0 && old != new);
                row[1] += u32::from(turn.number != 0 && new & G == 0);
            }
        }
        for code in [op::LM, op::STM, op::M, op::D] {
            let row = met.get(&code).copied().unwrap_or_default();
            assert!(row.iter().all(|times| *times >= 12), "{code:02X}: {row:?}");
        }
    }
}

#[test]
fn the_sheets_are_good_and_end_on_both_sides() {
    let all: u32 = KINDS.iter().map(|kind| kind.cases).sum();
    let sheets = sheets(1);
    assert_eq!(sheets.len(), all as usize);
    let mut spent = 0;
    for text in &sheets {
        assert!(sheet::read(text).is_ok());
        spent += usize::from(answer(text).starts_with(b"STOP\t7"));
    }
    assert!(spent > all as usize / 4, "{spent}");
    assert!(spent < all as usize * 3 / 4, "{spent}");
}
