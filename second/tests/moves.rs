//! The moves and compares of the probe: what they are is found out from the
//! machines themselves, as many of them as the gate has.

use common::probe::Kind;
use second::machine::{Access, Machine, COMPLETED, E, FRAME, G, H, M, W};
use second::moves::Moves;
use second::operations as op;
use std::collections::{BTreeMap, BTreeSet};
use std::sync::OnceLock;

/// As many as the gate has, and of its seed.
const MACHINES: usize = 50_000;
const SEED: u64 = 1;

/// A machine as it is found, whatever it was made for.
struct Seen {
    stores: bool,
    length: usize,
    addresses: [u32; 2],
    /// Of each field the word of the page that it begins in, and of the next.
    words: [[u16; 2]; 2],
    /// Which fields cannot be used, from which byte on.
    bad: [Option<usize>; 2],
    number: u32,
    /// The condition code afterwards.
    code: u32,
    /// Of fields that can be used.
    bytes: Option<Bytes>,
}

struct Bytes {
    /// From the first byte of the one field to that of the other, in memory.
    distance: i32,
    overlap: bool,
    end_memory: bool,
    /// The places at which they differ.
    different: Vec<usize>,
    /// Whether the bytes right before them differ, and those right behind.
    sides_differ: bool,
}

impl Seen {
    fn new(machine: &Machine) -> Seen {
        assert_fit(machine);
        let (stores, length, addresses) = read(machine);
        let accesses = [[Access::Load; 2], [Access::Store, Access::Load]][usize::from(stores)];
        let fields = [0, 1].map(|field| {
            let looked_up = |at| machine.look_up(addresses[field] + at as u32, accesses[field]);
            (0..length).map(looked_up).collect::<Vec<_>>()
        });
        let bad = [0, 1].map(|field| fields[field].iter().position(|real| real.is_err()));
        let mut after = machine.clone();
        let step = after.step();
        let mut seen = Seen {
            stores,
            length,
            addresses,
            words: addresses.map(|address| words_at(machine, address)),
            bad,
            number: step.number,
            code: after.code,
            bytes: None,
        };
        if let Some((field, place)) = seen.refused() {
            // The first field's refusal comes first. G was there before, so
            // that not a thing is altered.
            assert_eq!(step.place, addresses[field] + place as u32);
            assert_eq!(after, *machine);
        } else {
            assert_eq!(step.number, COMPLETED);
            let fields = fields.map(|field| field.into_iter().flatten().collect());
            seen.bytes = Some(Bytes::new(&machine.memory, &fields));
        }
        seen
    }

    /// The field for which the machine has to refuse, and from which byte on.
    fn refused(&self) -> Option<(usize, usize)> {
        let of = |field: usize| Some((field, self.bad[field]?));
        of(0).or(of(1))
    }

    /// The bytes that a field has before the edge of a page, if it goes over
    /// one.
    fn cut(&self, field: usize) -> Option<usize> {
        let before = 4_096 - self.addresses[field] as usize % 4_096;
        (before < self.length).then_some(before)
    }

    /// From the one field to the other, in addresses.
    fn distance(&self) -> i32 {
        self.addresses[1] as i32 - self.addresses[0] as i32
    }

    /// The same, in memory, of fields that have no page in common.
    fn distance_apart(&self) -> Option<i32> {
        let is_apart = self.distance().abs() > 600;
        self.bytes
            .as_ref()
            .filter(|_| is_apart)
            .map(|bytes| bytes.distance)
    }

    /// Whether a field goes over an edge from one such word to another.
    fn goes_over(&self, is_such: impl Fn(u16, u16) -> bool) -> bool {
        let over = |field: usize| self.cut(field).is_some();
        let such = |field: usize| is_such(self.words[field][0], self.words[field][1]);
        self.bytes.is_some() && (0..2).any(|field| over(field) && such(field))
    }

    /// Whether it is completed, with such bytes.
    fn has(&self, is_such: impl Fn(&Bytes) -> bool) -> bool {
        self.bytes.as_ref().is_some_and(is_such)
    }

    fn compares(&self, is_such: impl Fn(&Bytes) -> bool) -> bool {
        !self.stores && self.has(is_such)
    }
}

impl Bytes {
    fn new(memory: &[u8], [first, second]: &[Vec<usize>; 2]) -> Bytes {
        let all: BTreeSet<_> = first.iter().chain(second).collect();
        let differ = |one: usize, other: usize| memory.get(one) != memory.get(other);
        let last = first.len() - 1;
        Bytes {
            distance: second[0] as i32 - first[0] as i32,
            overlap: all.len() < 2 * first.len(),
            end_memory: all.contains(&(memory.len() - 1)),
            different: (0..first.len())
                .filter(|&at| differ(first[at], second[at]))
                .collect(),
            sides_differ: differ(first[0].wrapping_sub(1), second[0].wrapping_sub(1))
                && differ(first[last] + 1, second[last] + 1),
        }
    }
}

/// The instruction: whether it is a move, its length, and where the fields are.
fn read(machine: &Machine) -> (bool, usize, [u32; 2]) {
    let bytes = machine.counter..machine.counter + 6;
    let reals = bytes.map(|address| machine.look_up(address, Access::Fetch).expect("a byte"));
    let text: Vec<u8> = reals.map(|real| machine.memory[real]).collect();
    assert!([op::MVC, op::CLC].contains(&text[0]));
    let addresses = [2, 4].map(|at| {
        let base = machine.registers[usize::from(text[at] >> 4)] % (1 << 24);
        let displacement = u32::from(text[at]) % 16 * 256 + u32::from(text[at + 1]);
        (base + displacement) % (1 << 24)
    });
    (text[0] == op::MVC, usize::from(text[1]) + 1, addresses)
}

/// Small, and such that the plain way can be gone: the instruction is there, and
/// its pages are marked already.
fn assert_fit(machine: &Machine) {
    assert!(!machine.wrong_at_the_door());
    assert!([12_288, 16_384, 20_480].contains(&machine.memory.len()));
    assert_eq!(machine.counter % 2, 0);
    for address in machine.counter..machine.counter + 6 {
        assert!(machine.look_up(address, Access::Fetch).is_ok());
        assert_ne!(machine.map[address as usize / 4_096] & G, 0);
    }
}

fn words_at(machine: &Machine, address: u32) -> [u16; 2] {
    [0, 1].map(|more| {
        let page = address as usize / 4_096 + more;
        machine.map.get(page).copied().unwrap_or(0)
    })
}

fn all() -> &'static [Seen] {
    static ALL: OnceLock<Vec<Seen>> = OnceLock::new();
    ALL.get_or_init(|| {
        let mut moves = Moves::new(SEED);
        (0..MACHINES).map(|_| Seen::new(&moves.make())).collect()
    })
}

/// That there are enough of a sort.
fn assert_often(least: usize, sort: &str, is_such: impl Fn(&Seen) -> bool) {
    let count = all().iter().filter(|seen| is_such(seen)).count();
    println!("{count} {sort}");
    assert!(count >= least, "{sort}: {count}");
}

/// That each of these comes up, and often enough.
fn assert_each<K: Ord + std::fmt::Debug>(
    least: usize,
    wanted: impl IntoIterator<Item = K>,
    told: impl Fn(&Seen) -> Option<K>,
) {
    let mut counts = BTreeMap::new();
    for key in all().iter().filter_map(told) {
        *counts.entry(key).or_insert(0) += 1;
    }
    let mut fewest = MACHINES;
    for key in wanted {
        let count = counts.get(&key).copied().unwrap_or(0);
        fewest = fewest.min(count);
        assert!(count >= least, "{key:?}: {count}");
    }
    println!("{fewest} at least");
}

#[test]
fn all_lengths_and_distances_come_up_in_moves_and_in_compares() {
    for stores in [false, true] {
        let of = |seen: &Seen| seen.stores == stores && seen.bytes.is_some();
        assert_each(30, 1..=256, |seen| of(seen).then_some(seen.length));
        assert_each(3, -300..=300, |seen| {
            let distance = seen.distance_apart().unwrap_or(seen.distance());
            of(seen).then_some(distance)
        });
    }
    // In addresses, and in memory alone.
    assert_each(3, -300..=300, |seen| {
        seen.bytes.as_ref().map(|_| seen.distance())
    });
    assert_each(3, -300..=300, Seen::distance_apart);
}

#[test]
fn fields_go_over_the_edges_of_pages_at_all_places() {
    for (first, second) in [(false, false), (true, false), (false, true), (true, true)] {
        assert_often(5_000, "with none, one or both over an edge", |seen| {
            let over = [0, 1].map(|field| seen.cut(field).is_some());
            seen.bytes.is_some() && over == [first, second]
        });
    }
    for field in 0..2 {
        let cut = |seen: &Seen| seen.bytes.as_ref().and_then(|_| seen.cut(field));
        assert_each(1, 1..=255, cut);
        assert_often(1_000, "right before an edge", |seen| {
            (seen.addresses[field] as usize + seen.length) % 4_096 == 0
        });
        assert_often(500, "right behind an edge", |seen| {
            seen.addresses[field] % 4_096 == 0
        });
    }
}

#[test]
fn pages_come_on_frames_of_every_kind() {
    let frame = |word: u16| i32::from(word & FRAME);
    let step = |one, next| frame(next) - frame(one);
    assert_often(3_000, "on to the frame behind", |seen| {
        seen.goes_over(|one, next| step(one, next) == 1)
    });
    assert_often(3_000, "back to the frame before", |seen| {
        seen.goes_over(|one, next| step(one, next) == -1)
    });
    assert_often(3_000, "to a frame elsewhere", |seen| {
        seen.goes_over(|one, next| step(one, next).abs() > 1)
    });
    assert_often(2_000, "to the same frame", |seen| {
        seen.goes_over(|one, next| step(one, next) == 0)
    });
    assert_often(3_000, "at the end of memory", |seen| {
        seen.has(|bytes| bytes.end_memory)
    });
}

#[test]
fn pages_come_in_all_shapes_and_with_all_marks() {
    for shape in [M, M | H] {
        assert_often(2_000, "into a half page", |seen| {
            seen.goes_over(|_, next| next & (M | H) == shape)
        });
        assert_often(600, "up to the end of a half page", |seen| {
            let is_last = |field: usize| {
                seen.words[field][0] & (M | H) == shape
                    && seen.addresses[field] as usize % 4_096 + seen.length == 2_048
            };
            seen.bytes.is_some() && (is_last(0) || is_last(1))
        });
    }
    assert_often(500, "in the two halves of a frame", |seen| {
        let [one, other] = [seen.words[0][0], seen.words[1][0]];
        seen.bytes.is_some() && one & other & M != 0 && (one ^ other) & (H | FRAME) == H
    });
    for mark in [G, W, E] {
        for is_set in [false, true] {
            assert_often(3_000, "read under a mark, or without", |seen| {
                seen.bytes.is_some() && (seen.words[1][0] & mark != 0) == is_set
            });
        }
    }
    for marks in [0, G, W, W | G] {
        assert_often(1_000, "stored to under such marks", |seen| {
            seen.stores && seen.bytes.is_some() && seen.words[0][0] & (W | G) == marks
        });
    }
}

#[test]
fn fields_overlap_in_every_way_also_through_one_frame() {
    assert_often(10_000, "overlap", |seen| seen.has(|bytes| bytes.overlap));
    assert_often(6_000, "overlap without a page in common", |seen| {
        seen.has(|bytes| bytes.overlap) && seen.distance_apart().is_some()
    });
    for stores in [false, true] {
        for distances in [0..=0, 1..=1, -1..=-1, 2..=8, -8..=-2, 31..=33, -33..=-31] {
            for is_apart in [false, true] {
                assert_often(50, &format!("overlap at {distances:?}"), |seen| {
                    seen.stores == stores
                        && seen.distance_apart().is_some() == is_apart
                        && seen.has(|bytes| bytes.overlap && distances.contains(&bytes.distance))
                });
            }
        }
        assert_often(100, "overlap in one byte", |seen| {
            let one = seen.length as i32 - 1;
            let is_one = |bytes: &Bytes| bytes.overlap && bytes.distance.abs() == one;
            seen.stores == stores && seen.has(is_one)
        });
    }
}

#[test]
fn fields_are_refused_at_each_place_and_not_too_often() {
    let count = all().iter().filter(|seen| seen.refused().is_some()).count();
    assert!((15..=30).contains(&(100 * count / MACHINES)), "{count}");
    for field in 0..2 {
        let place = |seen: &Seen| seen.refused().filter(|refused| refused.0 == field);
        assert_each(1, 0..=255, |seen| Some(place(seen)?.1));
        assert_each(1_000, [1, 3, 4], |seen| place(seen).map(|_| seen.number));
        assert_often(1_000, "refused at the last byte of some", |seen| {
            place(seen).is_some_and(|(_, at)| at > 0 && at + 1 == seen.length)
        });
    }
    assert_often(1_500, "with both fields bad", |seen| {
        seen.bad[0].is_some() && seen.bad[1].is_some()
    });
}

#[test]
fn fields_are_refused_for_what_only_some_pages_have() {
    assert_often(500, "moves into a closed page", |seen| {
        let is_closed = |at| seen.words[0][usize::from(at > 0)] & E != 0;
        seen.stores && seen.bad[0].is_some_and(is_closed)
    });
    assert_often(1_000, "past the bytes of a half page", |seen| {
        let is_past = |(field, at): (usize, usize)| {
            let is_half = seen.words[field][0] & M != 0;
            is_half && (2_048..4_096).contains(&(seen.addresses[field] as usize % 4_096 + at))
        };
        seen.refused().is_some_and(is_past)
    });
    assert_often(1_000, "past the last page", |seen| {
        let is_past = |(field, at): (usize, usize)| seen.addresses[field] as usize + at == 1 << 21;
        seen.refused().is_some_and(is_past)
    });
}

#[test]
fn compares_come_out_every_way() {
    assert_often(3_000, "equal", |seen| {
        seen.compares(|bytes| bytes.different.is_empty())
    });
    for code in [1, 2] {
        assert_often(5_000, "low, or high", |seen| {
            seen.code == code && seen.compares(|_| true)
        });
    }
    assert_often(3_000, "different in many places", |seen| {
        seen.compares(|bytes| bytes.different.len() > 2)
    });
    assert_often(1_500, "different in two", |seen| {
        seen.compares(|bytes| bytes.different.len() == 2)
    });
    let is_equal = |bytes: &Bytes| bytes.different.is_empty() && bytes.distance != 0;
    let equal = all().iter().filter(|seen| seen.compares(is_equal)).count();
    assert_often(
        equal * 19 / 20,
        "equal, but not on both sides of them",
        |seen| seen.compares(|bytes| is_equal(bytes) && bytes.sides_differ),
    );
}

#[test]
fn compares_turn_on_a_single_byte_at_each_place() {
    let only = |seen: &Seen| match seen.bytes.as_ref()?.different[..] {
        [place] if !seen.stores => Some(place),
        _ => None,
    };
    assert_each(2, 0..=255, only);
    assert_often(500, "different in the last alone", |seen| {
        only(seen) == Some(seen.length - 1)
    });
    for field in 0..2 {
        for more in [0, 1] {
            assert_often(300, "different on one side of an edge alone", |seen| {
                let cut = seen.cut(field);
                cut.is_some() && cut == only(seen).map(|place| place + more)
            });
        }
    }
}

#[test]
fn each_machine_comes_as_a_step_and_by_the_plain_way() {
    let mut moves = Moves::new(2);
    let mut same = Moves::new(2);
    for _ in 0..1_000 {
        let [step, plain] = moves.cases();
        assert_eq!((step.kind, plain.kind), (Kind::Step, Kind::Plain));
        assert_eq!(step.machine, same.make());
        assert_eq!(plain.machine, step.machine);
        assert_eq!(plain.outcome(), step.outcome());
    }
    assert_ne!(Moves::new(1).make(), Moves::new(2).make());
}
