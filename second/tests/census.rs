//! The generated sheets reach what they should.

use common::dice::Dice;
use second::bad;
use second::census::{self, Census, Way};
use second::generate::Generator;
use second::operations::{self as op, Form, Operation, OPERATIONS};
use second::sheet;
use second::sweeps::SWEEPS;

/// How many sheets of a seed the two programs are given.
const SHEETS: u64 = 30_000;

#[test]
fn the_sheets_of_a_seed_reach_everything() {
    for seed in [1, 2] {
        let census = census::take(seed, SHEETS);
        assert_eq!(census.sheets, SHEETS);
        assert!(census.bad >= 1_000, "BAD {}", census.bad);
        for number in [1, 2, 3, 4, 5, 7, 8] {
            let stops = census.stops[number];
            let least = if number == 8 { 400 } else { 500 };
            assert!(stops >= least, "STOP {number}: {stops}");
        }
        assert_eq!(census.stops[0], 0);
        assert_eq!(census.stops[6], 0);
        for operation in OPERATIONS {
            reaches(&census, operation);
        }
        for code in 0..=255u8 {
            if op::find(code).is_none() {
                let row = &census.rows[usize::from(code)];
                assert_eq!(row.completed, 0);
                assert!(row.refused[5] >= 1, "{code:02X} never met");
            }
        }
        for number in [1, 2, 3, 4] {
            assert!(census.unknown[number] >= 50);
        }
    }
}

/// An operation completes, and is refused in every way in which it can be.
fn reaches(census: &Census, operation: Operation) {
    let name = operation.name;
    let row = &census.rows[usize::from(operation.code)];
    // In so many sheets, not only so many times in one loop.
    let sheets = row.sheets;
    assert!(sheets >= 200, "{name} completed in {sheets} sheets");
    let others = match operation.form {
        Form::RR => 0,
        _ if op::has_memory_operand(operation.code) => 10,
        _ => 3,
    };
    for number in [1, 3, 4] {
        let refused = row.refused[number];
        assert!(refused >= others, "{name} refused with {number}: {refused}");
        assert!(others > 0 || refused == 0);
    }
    let divides = matches!(operation.code, op::DR | op::D);
    let twos = match op::needs_pair(operation.code) {
        true => 40,
        false if op::boundary(operation.code) > 1 => 15,
        false => 0,
    };
    for (number, least) in [(2, twos), (5, 0), (8, if divides { 150 } else { 0 })] {
        let refused = row.refused[number];
        assert!(refused >= least, "{name} refused with {number}: {refused}");
        assert!(least > 0 || refused == 0);
    }
}

#[test]
fn multiply_divide_and_signed_shifts_are_met_often() {
    let names = [
        "MR", "M", "MH", "DR", "D", "AH", "SH", "CH", "SLA", "SRA", "SLDA", "SRDA",
    ];
    for seed in [1, 2] {
        let census = census::take(seed, SHEETS);
        let chosen = OPERATIONS.iter().filter(|row| names.contains(&row.name));
        assert_eq!(chosen.clone().count(), names.len());
        for operation in chosen {
            let row = &census.rows[usize::from(operation.code)];
            let met = row.sheets + row.refused.iter().sum::<u64>();
            assert!(met >= 500, "{} in {met} sheets", operation.name);
        }
    }
}

/// The ways to be refused: number, bytes of the instruction (0 if nothing was
/// fetched), halfwords fetched.
fn ways() -> Vec<Way> {
    let mut ways = Vec::new();
    for number in [1, 3, 4] {
        for (length, halfwords) in [(0, 0), (4, 1), (4, 2), (6, 1), (6, 2), (6, 3)] {
            ways.push((number, length, halfwords));
        }
    }
    ways.extend([(2, 0, 0), (2, 2, 1), (2, 4, 2)]);
    ways.extend([(5, 2, 1), (5, 4, 1), (5, 6, 1)]);
    ways.extend([(8, 2, 1), (8, 4, 2)]);
    ways.sort_unstable();
    ways
}

fn is_on_marks(label: &str) -> bool {
    label.starts_with("marks-")
}

#[test]
fn refusals_leave_marks_in_every_way() {
    for seed in [1, 2] {
        let mut census = Census::default();
        for sweep in SWEEPS.iter().filter(|sweep| is_on_marks(sweep.name)) {
            for case in 0..sweep.cases {
                let dice = &mut Dice::for_one(seed, u64::from(case));
                census.add(&(sweep.make)(case, dice).text());
            }
        }
        assert_eq!(census.bad, 0);
        leaves_marks(&census);
        leaves_marks(&census::take(seed, SHEETS));
    }
}

/// In each way to be refused, each number of pages is marked anew that can be.
fn leaves_marks(census: &Census) {
    assert!(census.marked.keys().copied().eq(ways()));
    for (way, [none, one, two]) in &census.marked {
        let (_, length, halfwords) = *way;
        let counts = format!("{way:?}: {none}, {one}, {two}");
        let has_one = halfwords > 0;
        // Fetched from two pages only if fetched whole: of the halfwords in the
        // second page, the first is refused or none.
        let has_two = halfwords > 1 && 2 * halfwords == length as usize;
        assert!(*none >= 6, "{counts}");
        assert!(has_one && *one >= 6 || !has_one && *one == 0, "{counts}");
        assert!(has_two && *two >= 6 || !has_two && *two == 0, "{counts}");
    }
}

#[test]
fn some_sheets_in_a_hundred_are_on_the_marks_of_refusals() {
    for seed in [1, 2] {
        let mut generator = Generator::new(seed);
        let labels = (0..SHEETS).map(|_| generator.make().label);
        let on_marks = labels.filter(|label| is_on_marks(label)).count() as u64;
        let in_a_thousand = on_marks * 1_000 / SHEETS;
        assert!((50..80).contains(&in_a_thousand), "{on_marks} sheets");
    }
}

#[test]
fn the_same_seed_gives_the_same_sheets() {
    let mut first = Generator::new(7);
    let mut again = Generator::new(7);
    let mut other = Generator::new(8);
    let mut different = 0;
    for _ in 0..500 {
        let made = first.make();
        assert_eq!(made.text, again.make().text);
        if made.text != other.make().text {
            different += 1;
        }
    }
    assert!(different > 400);
}

#[test]
fn most_sheets_are_small_and_good_ones_are_plenty() {
    let mut generator = Generator::new(3);
    let mut small = 0;
    let mut good = 0;
    for _ in 0..5_000 {
        let made = generator.make();
        if made.text.len() < 600 {
            small += 1;
        }
        if sheet::read(&made.text).is_ok() {
            good += 1;
        }
    }
    assert!(small > 4_500, "{small} small");
    assert!(good > 3_500, "{good} good");
}

/// Of sixty sheets, forty are cases of the sweeps, and four are ways to be bad.
#[test]
fn the_sheets_of_a_seed_take_in_every_case_of_the_sweeps() {
    assert!(Generator::new(0).sweep_cases() <= SHEETS * 40 / 60);
    assert!(bad::ways().len() as u64 <= SHEETS * 4 / 60);
}
