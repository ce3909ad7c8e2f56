//! How far a look-up reaches: values worked out by hand from the papers, and
//! what holds for every look-up of the probe.

use common::probe::Kind;
use second::look_ups;
use second::machine::{Access, Machine, Refusal};
use second::probe::{Case, ACCESSES};
use second::reach::Found;
use std::collections::BTreeSet;
use Access::{Fetch, Load, Store};

/// Page 10 has this word, and memory this many bytes.
fn page_10(word: u16, size: usize) -> Machine {
    let mut machine = Machine::new(size);
    machine.map[10] = word;
    machine
}

fn found(real: usize, reach: u32) -> Result<Found, Refusal> {
    Ok(Found { real, reach })
}

fn refused(number: u32, place: u32) -> Result<Found, Refusal> {
    Err(Refusal { number, place })
}

/// All three accesses give this.
fn all_give(machine: &Machine, address: u32, expected: Result<Found, Refusal>) {
    for access in ACCESSES {
        let given = machine.look_up_reach(address, access);
        assert_eq!(given, expected, "{address:06X} for a {access:?}");
    }
}

/// Word of page 10, memory, displacement, real address, reach.
const FOUND: [(u16, usize, u32, usize, u32); 54] = [
    // An ordinary page on frame 3, 12,288 to 16,383.
    (0x3003, 65_536, 0, 12_288, 4_096),
    (0x3003, 65_536, 1, 12_289, 4_095),
    (0x3003, 65_536, 2_047, 14_335, 2_049),
    (0x3003, 65_536, 2_048, 14_336, 2_048),
    (0x3003, 65_536, 4_094, 16_382, 2),
    (0x3003, 65_536, 4_095, 16_383, 1),
    // H without M is ignored.
    (0x3203, 65_536, 0, 12_288, 4_096),
    (0x3203, 65_536, 2_047, 14_335, 2_049),
    (0x3203, 65_536, 2_048, 14_336, 2_048),
    (0x3203, 65_536, 4_095, 16_383, 1),
    // The lower half of it.
    (0x3403, 65_536, 0, 12_288, 2_048),
    (0x3403, 65_536, 1, 12_289, 2_047),
    (0x3403, 65_536, 2_046, 14_334, 2),
    (0x3403, 65_536, 2_047, 14_335, 1),
    // The upper half of it.
    (0x3603, 65_536, 0, 14_336, 2_048),
    (0x3603, 65_536, 1, 14_337, 2_047),
    (0x3603, 65_536, 2_046, 16_382, 2),
    (0x3603, 65_536, 2_047, 16_383, 1),
    // Marks change nothing.
    (0xF003, 65_536, 5, 12_293, 4_091),
    (0xF603, 65_536, 5, 14_341, 2_043),
    // The last frame, whole.
    (0x300F, 65_536, 0, 61_440, 4_096),
    (0x300F, 65_536, 4_095, 65_535, 1),
    (0x340F, 65_536, 2_047, 63_487, 1),
    (0x360F, 65_536, 0, 63_488, 2_048),
    (0x360F, 65_536, 2_047, 65_535, 1),
    // Memory ends within the page.
    (0x3000, 1, 0, 0, 1),
    (0x3000, 2, 0, 0, 2),
    (0x3000, 2, 1, 1, 1),
    (0x3000, 4_095, 0, 0, 4_095),
    (0x3000, 4_095, 4_094, 4_094, 1),
    (0x3000, 4_096, 4_095, 4_095, 1),
    (0x3001, 4_097, 0, 4_096, 1),
    (0x3001, 6_000, 0, 4_096, 1_904),
    (0x3001, 6_000, 1_902, 5_998, 2),
    (0x3001, 6_000, 1_903, 5_999, 1),
    // It ends within the lower half, at its end, and within the upper half.
    (0x3401, 6_000, 0, 4_096, 1_904),
    (0x3401, 6_143, 0, 4_096, 2_047),
    (0x3401, 6_144, 0, 4_096, 2_048),
    (0x3401, 6_145, 0, 4_096, 2_048),
    (0x3401, 6_145, 2_047, 6_143, 1),
    (0x3601, 6_145, 0, 6_144, 1),
    (0x3601, 6_147, 1, 6_145, 2),
    (0x3601, 8_191, 0, 6_144, 2_047),
    (0x3601, 8_191, 2_046, 8_190, 1),
    (0x3601, 8_192, 2_047, 8_191, 1),
    (0x3001, 6_145, 2_048, 6_144, 1),
    // Memory ends a byte after the page, or far after it.
    (0x3000, 4_097, 4_095, 4_095, 1),
    (0x3600, 4_097, 2_047, 4_095, 1),
    (0x3010, 65_537, 0, 65_536, 1),
    (0x303F, 262_143, 0, 258_048, 4_095),
    (0x303F, 262_144, 0, 258_048, 4_096),
    (0x303F, 270_336, 4_095, 262_143, 1),
    (0x363F, 270_336, 1, 260_097, 2_047),
    (0x3000, 270_336, 0, 0, 4_096),
];

#[test]
fn reaches_worked_out_by_hand() {
    for (word, size, displacement, real, reach) in FOUND {
        let machine = page_10(word, size);
        all_give(&machine, 0x00_A000 + displacement, found(real, reach));
        // Closed to stores, it reaches as far for the others.
        let machine = page_10(word | 0x0800, size);
        let address = 0x00_A000 + displacement;
        for access in [Fetch, Load] {
            assert_eq!(machine.look_up_reach(address, access), found(real, reach));
        }
        assert_eq!(machine.look_up_reach(address, Store), refused(4, address));
    }
}

/// Word of page 10, memory, displacement, number: refused whatever the byte is
/// wanted for.
const REFUSED: [(u16, usize, u32, u32); 38] = [
    (0x0000, 65_536, 0, 3),
    (0x1003, 65_536, 0, 3),
    (0x1043, 65_536, 0, 3),
    (0x1403, 65_536, 2_048, 3),
    (0x0003, 65_536, 0, 3),
    (0x1803, 65_536, 0, 3),
    (0x1010, 65_536, 0, 3),
    (0xC003, 65_536, 4_095, 3),
    (0x0000, 0, 0, 3),
    (0x3043, 65_536, 0, 4),
    (0x3083, 65_536, 0, 4),
    (0x3103, 65_536, 0, 4),
    (0x31C3, 65_536, 4_095, 4),
    (0x3050, 65_536, 0, 4),
    (0x3040, 0, 0, 4),
    (0x3403, 65_536, 2_048, 4),
    (0x3403, 65_536, 4_095, 4),
    (0x3603, 65_536, 2_048, 4),
    (0x3603, 65_536, 4_095, 4),
    (0x3410, 65_536, 2_048, 4),
    (0x2003, 65_536, 0, 4),
    (0x2003, 65_536, 4_095, 4),
    (0x2010, 65_536, 0, 4),
    (0x3010, 65_536, 0, 1),
    (0x3010, 65_536, 4_095, 1),
    (0x303F, 65_536, 0, 1),
    (0x3410, 65_536, 0, 1),
    (0x3610, 65_536, 2_047, 1),
    (0x3000, 0, 0, 1),
    (0x3000, 1, 1, 1),
    (0x3000, 4_095, 4_095, 1),
    (0x3001, 4_096, 0, 1),
    (0x3001, 4_097, 1, 1),
    (0x3001, 6_000, 1_904, 1),
    (0x3601, 6_144, 0, 1),
    (0x3601, 6_145, 1, 1),
    (0x3601, 8_191, 2_047, 1),
    (0x3401, 6_000, 1_904, 1),
];

#[test]
fn refusals_worked_out_by_hand() {
    for (word, size, displacement, number) in REFUSED {
        let address = 0x00_A000 + displacement;
        all_give(&page_10(word, size), address, refused(number, address));
    }
    // E comes before the end of memory, and for a store alone.
    let machine = page_10(0x3810, 65_536);
    let address = 0x00_A000;
    assert_eq!(machine.look_up_reach(address, Store), refused(4, address));
    assert_eq!(machine.look_up_reach(address, Load), refused(1, address));
    assert_eq!(machine.look_up_reach(address, Fetch), refused(1, address));
}

#[test]
fn the_last_page_and_what_is_past_it() {
    for length in [512, 600] {
        let mut machine = Machine::new(65_536);
        machine.map = vec![0x3005; length];
        all_give(&machine, 0x1F_F000, found(20_480, 4_096));
        all_give(&machine, 0x1F_FFFF, found(24_575, 1));
        for address in [0x20_0000, 0x20_A000, 0xFF_FFFF, 0x100_0000, u32::MAX] {
            all_give(&machine, address, refused(1, address));
        }
    }
}

#[test]
fn a_map_that_is_short_has_word_0() {
    let mut machine = Machine::new(65_536);
    for (length, last) in [(0, None), (10, Some(9)), (511, Some(510))] {
        machine.map = vec![0x3003; length];
        for page in [0, 9, 10, 510, 511] {
            let address = page * 4_096 + 95;
            let expected = match last {
                Some(last) if page <= last => found(12_383, 4_001),
                _ => refused(3, address),
            };
            all_give(&machine, address, expected);
        }
    }
}

#[test]
fn a_page_is_found_by_its_whole_number() {
    for (open, absent) in [
        (10, 110),
        (110, 10),
        (10, 74),
        (74, 10),
        (10, 266),
        (266, 10),
    ] {
        let mut machine = Machine::new(65_536);
        machine.map[open] = 0x3003;
        let open = open as u32 * 4_096;
        let absent = absent * 4_096;
        all_give(&machine, open + 96, found(12_384, 4_000));
        all_give(&machine, absent, refused(3, absent));
    }
}

/// Pages 10 and 11 have these words.
fn two_pages(first: u16, second: u16) -> Machine {
    let mut machine = page_10(first, 65_536);
    machine.map[11] = second;
    machine
}

#[test]
fn the_reach_stops_at_the_end_of_the_page_whatever_comes_next() {
    // Right behind it in memory, open; absent; closed to stores; on its frame;
    // before it in memory; past memory.
    for second in [0x3004, 0x0000, 0x3804, 0x3003, 0x3002, 0x3010] {
        let machine = two_pages(0x3003, second);
        all_give(&machine, 0x00_A000, found(12_288, 4_096));
        all_give(&machine, 0x00_AFFE, found(16_382, 2));
        all_give(&machine, 0x00_AFFF, found(16_383, 1));
    }
    // The upper half of the frame is page 11; the frame after the half is.
    let machine = two_pages(0x3403, 0x3603);
    all_give(&machine, 0x00_A7FF, found(14_335, 1));
    all_give(&machine, 0x00_B000, found(14_336, 2_048));
    let machine = two_pages(0x3603, 0x3004);
    all_give(&machine, 0x00_A7FF, found(16_383, 1));
    all_give(&machine, 0x00_B000, found(16_384, 4_096));
}

/// The look-ups of the probe: the edges, then a number of generated ones.
fn look_ups(seed: u64, generated: usize) -> Vec<Case> {
    let mut dice = common::dice::Dice::new(seed);
    let mut cases = look_ups::edges();
    cases.extend((0..generated).map(|_| look_ups::some(&mut dice)));
    assert!(cases.iter().all(|case| case.kind == Kind::LookUp));
    cases
}

/// The word of the page that is asked for, and the displacement.
fn word_and_displacement(case: &Case) -> (u16, u32) {
    let page = case.machine.counter as usize / 4_096;
    let word = case.machine.map.get(page).copied().unwrap_or(0);
    (word, case.machine.counter % 4_096)
}

/// What is left of the page, or what is left of memory: whichever is less.
fn by_the_smaller_rest(case: &Case, real: usize) -> u32 {
    let (word, displacement) = word_and_displacement(case);
    let page_size = if word & 0x0400 != 0 { 2_048 } else { 4_096 };
    let in_memory = case.machine.memory.len() - real;
    (page_size - displacement).min(in_memory as u32)
}

#[test]
fn the_reach_is_at_least_1_and_the_largest() {
    let (mut seen, mut stops) = (0, [0; 5]);
    for case in look_ups(11, 6_000) {
        let machine = &case.machine;
        let access = ACCESSES[machine.code as usize];
        let byte = machine.look_up(machine.counter, access);
        let given = machine.look_up_reach(machine.counter, access);
        let Ok(Found { real, reach }) = given else {
            assert_eq!(given.err(), byte.err());
            continue;
        };
        seen += 1;
        assert_eq!(byte, Ok(real));
        assert!(reach >= 1);
        assert_eq!(reach, by_the_smaller_rest(&case, real));
        // All of them are found one behind another, and the next is not, or lies
        // in another page.
        let last = machine.counter + reach - 1;
        assert_eq!(last / 4_096, machine.counter / 4_096);
        let last_real = real + reach as usize - 1;
        assert_eq!(machine.look_up(last, access), Ok(last_real));
        let next = machine.look_up(last + 1, access);
        stops[match (next, (last + 1) % 4_096) {
            (Err(refusal), 1..) => refusal.number as usize,
            (_, 0) => 0,
            (Ok(_), _) => panic!("{last:06X} is not the last"),
        }] += 1;
    }
    // At the page's end, at memory's end, and never at an absent page.
    assert!(seen >= 3_000, "{seen} found");
    assert!(stops[0] >= 1_000 && stops[1] >= 500, "{stops:?}");
    assert_eq!((stops[2], stops[3]), (0, 0));
}

/// What a look-up of the probe is like.
struct Look {
    size: usize,
    map: usize,
    page: u32,
    displacement: u32,
    word: u16,
    access: Access,
    /// The refusal's number; 0 for a byte that was found.
    number: u32,
    reach: u32,
}

fn look(case: &Case) -> Look {
    let machine = &case.machine;
    let (word, displacement) = word_and_displacement(case);
    let access = ACCESSES[machine.code as usize];
    let given = machine.look_up_reach(machine.counter, access);
    Look {
        size: machine.memory.len(),
        map: machine.map.len(),
        page: machine.counter / 4_096,
        displacement,
        word,
        access,
        number: given.map_or_else(|refusal| refusal.number, |_| 0),
        reach: given.map_or(0, |found| found.reach),
    }
}

/// Every access is among the look-ups that are like this.
fn every_access(looks: &[Look], is_like: impl Fn(&Look) -> bool) -> bool {
    ACCESSES.iter().all(|&access| {
        looks
            .iter()
            .any(|look| look.access == access && is_like(look))
    })
}

#[test]
fn no_edge_is_missing() {
    let looks: Vec<Look> = look_ups::edges().iter().map(look).collect();
    // Each shape of a page, at each turn, plain, closed to stores, and marked.
    for shape in [0x3003, 0x3203, 0x3403, 0x3603] {
        for displacement in [0, 1, 2_046, 2_047, 2_048, 2_049, 4_094, 4_095] {
            let at = |look: &Look| look.word == shape && look.displacement == displacement;
            assert!(every_access(&looks, at), "{shape:04X} {displacement}");
        }
        for more in [0x0800, 0xC000] {
            for displacement in [0, 2_047, 4_095] {
                let word = shape | more;
                let at = |look: &Look| look.word == word && look.displacement == displacement;
                assert!(every_access(&looks, at), "{word:04X} {displacement}");
            }
        }
    }
    // Each refusal, each with every access that it comes to.
    for word in [
        0x0000, 0x1003, 0x3043, 0x3083, 0x3103, 0x31C3, 0x2003, 0x3010, 0x303F,
    ] {
        let refused = |look: &Look| look.word == word && look.number != 0;
        assert!(every_access(&looks, refused), "{word:04X}");
    }
    let past_the_half = |look: &Look| look.word == 0x3403 && look.number == 4;
    assert!(every_access(&looks, past_the_half));
    for page in [511, 512, 4_095, 4_096, 0xF_FFFF] {
        let with_number = |look: &Look| look.page == page && (look.number == 1) == (page > 511);
        assert!(every_access(&looks, with_number), "page {page}");
    }
    for (page, displacement) in [(511, 0), (511, 4_095), (512, 0)] {
        let at = |look: &Look| look.page == page && look.displacement == displacement;
        assert!(every_access(&looks, at), "page {page} at {displacement}");
    }
    for page in [10, 110] {
        let number = |number: u32| move |look: &Look| look.page == page && look.number == number;
        assert!(every_access(&looks, number(0)) && every_access(&looks, number(3)));
    }
    for length in [0, 10, 511, 512, 600] {
        assert!(looks.iter().any(|look| look.map == length), "{length}");
    }
}

#[test]
fn every_size_of_memory_has_its_end_among_the_edges() {
    let looks: Vec<Look> = look_ups::edges().iter().map(look).collect();
    for size in [0, 1, 4_095, 4_096, 4_097, 65_536, 262_144, 270_336] {
        assert!(looks.iter().any(|look| look.size == size), "{size}");
    }
    let half = |look: &Look| look.word & 0x0600;
    for size in looks.iter().map(|look| look.size).collect::<BTreeSet<_>>() {
        let of_size = || looks.iter().filter(move |look| look.size == size);
        // The last byte, the one before it and the one past it, where a frame
        // has them.
        let last = of_size().any(|look| look.reach == 1);
        let before = of_size().any(|look| look.reach == 2);
        let past = of_size().any(|look| look.number == 1);
        assert_eq!(last, size > 0, "{size}");
        // After whole frames a last byte stands alone; past the last frame of
        // all no page ends with memory.
        let is_alone = size % 4_096 == 1 || size == 0 || size > 262_144;
        assert!(before || is_alone, "{size}");
        assert!(past || size >= 262_144, "{size}");
    }
    // Memory ends within a page, and within each half.
    for shape in [0x0000, 0x0400, 0x0600] {
        let size = if shape == 0x0400 { 6_143 } else { 8_191 };
        let cut = |look: &Look| look.size == size && half(look) == shape && look.reach % 2 == 1;
        assert!(looks.iter().any(cut), "{shape:04X}");
    }
}

#[test]
fn generated_look_ups_show_every_answer() {
    let mut dice = common::dice::Dice::new(3);
    let mut looks = Vec::new();
    for _ in 0..3_000 {
        looks.push(look(&look_ups::some(&mut dice)));
    }
    let count = |is_like: &dyn Fn(&Look) -> bool| looks.iter().filter(|look| is_like(look)).count();
    for (number, least) in [(0, 1_300), (1, 400), (3, 100), (4, 300)] {
        let seen = count(&|look| look.number == number);
        assert!(seen >= least, "{number}: {seen}");
    }
    for access in [Fetch, Load, Store] {
        assert!(count(&|look| look.access == access && look.number == 0) >= 300);
    }
    for shape in [0x0000, 0x0200, 0x0400, 0x0600] {
        assert!(count(&|look| look.reach > 0 && look.word & 0x0600 == shape) >= 150);
    }
    for reach in [1, 2, 2_047, 2_048, 4_096] {
        let seen = count(&|look| look.reach == reach);
        assert!(seen >= 40, "{reach}: {seen}");
    }
    let odd = count(&|look| look.size % 2 == 1 && look.number == 0);
    let maps = count(&|look| look.map != 512);
    assert!(odd >= 300 && maps >= 100, "{odd}, {maps}");
}
