//! The generated sheets on the ends of pages: that they show what they should.

use common::dice::Dice;
use second::census::Census;
use second::generate::Generator;
use second::machine::{Machine, G, M, W};
use second::operations as op;
use second::sweeps::SWEEPS;
use second::{set_up, sheet};

const SWEEPS_ON_REACH: [&str; 7] = [
    "reach-code",
    "reach-operands",
    "reach-multiples",
    "reach-moves",
    "reach-overlaps",
    "reach-refusals",
    "reach-ends",
];

/// The sheets of one of the sweeps.
fn texts(name: &str, seed: u64) -> Vec<Vec<u8>> {
    let sweep = SWEEPS.iter().find(|sweep| sweep.name == name);
    let sweep = sweep.unwrap_or_else(|| panic!("there is no {name}"));
    (0..sweep.cases)
        .map(|case| {
            let dice = &mut Dice::for_one(seed, u64::from(case));
            (sweep.make)(case, dice).text()
        })
        .collect()
}

fn census_of(name: &str, seed: u64) -> Census {
    let mut census = Census::default();
    for text in texts(name, seed) {
        census.add(&text);
    }
    assert_eq!(census.bad, 0, "{name}");
    census
}

/// A sheet's machine before and after its run.
fn ran(text: &[u8]) -> (Machine, Machine) {
    let sheet = sheet::read(text).expect("a good sheet");
    let before = set_up(&sheet);
    let mut after = before.clone();
    after.run(sheet.budget);
    (before, after)
}

/// How many pages of the kind got the mark.
fn marked(before: &Machine, after: &Machine, mark: u16, is_of_kind: fn(u16) -> bool) -> usize {
    (0..512)
        .filter(|&page| {
            let (old, new) = (before.map[page], after.map[page]);
            is_of_kind(old) && new & mark != 0 && old & mark == 0
        })
        .count()
}

/// In how many of these sheets so many pages of the kind get the mark, or more.
fn with_marks(texts: &[Vec<u8>], least: usize, mark: u16, is_of_kind: fn(u16) -> bool) -> usize {
    texts
        .iter()
        .filter(|text| {
            let (before, after) = ran(text);
            marked(&before, &after, mark, is_of_kind) >= least
        })
        .count()
}

fn any(_: u16) -> bool {
    true
}

fn is_lower(word: u16) -> bool {
    word & 0x0600 == M
}

fn is_upper(word: u16) -> bool {
    word & 0x0600 == 0x0600
}

#[test]
fn every_sweep_completes_and_is_refused() {
    for seed in [1, 2] {
        for (name, least) in SWEEPS_ON_REACH.into_iter().zip([
            // Number 1, 3, 4 and 7.
            [4, 4, 100, 80],
            [0, 0, 10, 60],
            [1, 1, 80, 150],
            [5, 5, 100, 250],
            [0, 0, 30, 300],
            [80, 40, 100, 5],
            [50, 0, 20, 10],
        ]) {
            let stops = census_of(name, seed).stops;
            for (number, least) in [1, 3, 4, 7].into_iter().zip(least) {
                let times = stops[number];
                assert!(times >= least, "{name}, STOP {number}: {times}");
            }
        }
    }
}

#[test]
fn long_operands_lie_over_the_ends_of_pages() {
    for seed in [1, 2] {
        for (name, least) in [
            ("reach-multiples", 12),
            ("reach-moves", 60),
            ("reach-overlaps", 250),
        ] {
            let over = with_marks(&texts(name, seed), 2, W, any);
            assert!(over >= least, "{name}: {over}");
        }
        // Both fields of a compare or a move, each in two pages, and the code.
        let over = with_marks(&texts("reach-moves", seed), 5, G, any);
        assert!(over >= 30, "{over}");
    }
}

#[test]
fn both_halves_of_frames_hold_code_and_operands() {
    for seed in [1, 2] {
        for (name, mark, least) in [
            ("reach-code", G, 60),
            ("reach-operands", W, 8),
            ("reach-multiples", W, 20),
            ("reach-moves", W, 10),
            ("reach-overlaps", W, 2),
            ("reach-ends", G, 2),
        ] {
            let texts = texts(name, seed);
            for half in [is_lower, is_upper] {
                let seen = with_marks(&texts, 1, mark, half);
                assert!(seen >= least, "{name}: {seen}");
            }
        }
    }
}

#[test]
fn long_operands_are_refused_in_every_way() {
    let census = census_of("reach-refusals", 1);
    for code in [op::LM, op::STM, op::MVC, op::CLC] {
        let row = &census.rows[usize::from(code)];
        assert_eq!(row.completed, 0);
        for number in [1, 3, 4] {
            assert!(row.refused[number] >= 5, "{code:02X} {number}");
        }
    }
}

#[test]
fn they_are_a_good_part_of_all_sheets() {
    for seed in [1, 2] {
        let mut generator = Generator::new(seed);
        let labels: Vec<String> = (0..6_000).map(|_| generator.make().label).collect();
        let count = |name: &str| {
            labels
                .iter()
                .filter(|label| label.starts_with(name))
                .count()
        };
        assert!((450..750).contains(&count("reach-")), "{}", count("reach-"));
        for name in SWEEPS_ON_REACH {
            assert!(count(name) >= 15, "{name}: {}", count(name));
        }
    }
}
