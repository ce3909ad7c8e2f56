//! Rules that hold for every sheet, tried on generated ones.

use common::dice::Dice;
use second::generate::Generator;
use second::machine::{Access, Machine, Run, G};
use second::operations as op;
use second::sheet::Sheet;
use second::sweeps::SWEEPS;
use second::{answer, set_up, sheet};

#[test]
fn runs_stop_where_their_steps_do() {
    let mut generator = Generator::new(5);
    let mut tried = 0;
    while tried < 3_000 {
        let Ok(sheet) = sheet::read(&generator.make().text) else {
            continue;
        };
        if sheet.budget > 1_000 {
            continue;
        }
        tried += 1;
        stops_where_its_steps_do(&sheet);
    }
}

/// The same for every case of the sweeps over marks.
#[test]
fn refused_steps_leave_the_marks_of_their_fetch() {
    let mut tried = 0;
    for sweep in SWEEPS
        .iter()
        .filter(|sweep| sweep.name.starts_with("marks-"))
    {
        for case in 0..sweep.cases {
            let draft = (sweep.make)(case, &mut Dice::for_one(6, u64::from(case)));
            let sheet = sheet::read(&draft.text()).expect("a good sheet");
            stops_where_its_steps_do(&sheet);
            tried += 1;
        }
    }
    assert!(tried >= 1_500, "only {tried} cases");
}

fn stops_where_its_steps_do(sheet: &Sheet) {
    let start = set_up(sheet);
    let mut by_run = start.clone();
    let run = by_run.run(sheet.budget);
    assert!(run.count <= sheet.budget);
    let mut by_step = start.clone();
    for _ in 0..run.count {
        assert_eq!(by_step.step().number, 0);
    }
    if run.number == 7 {
        assert_eq!((run.count, run.place), (sheet.budget, 0));
    } else {
        is_refused_again(&mut by_step, &run);
    }
    assert_eq!(by_run, by_step);
    only_marks_came(&start, &by_run);
}

/// The refused step sets G where it was fetched from, alters nothing else, and
/// is refused in the same way when it is tried again.
fn is_refused_again(machine: &mut Machine, run: &Run) {
    let mut expected = machine.clone();
    for page in fetched_pages(machine) {
        expected.map[page] |= G;
    }
    for _ in 0..2 {
        let step = machine.step();
        assert_eq!((step.number, step.place), (run.number, run.place));
        assert_eq!(*machine, expected);
    }
}

/// The pages from which halfwords of the next instruction can be fetched.
fn fetched_pages(machine: &Machine) -> Vec<usize> {
    let mut pages = Vec::new();
    let mut length = 2;
    let mut offset = 0;
    while machine.counter % 2 == 0 && offset < length {
        let address = (machine.counter + offset) % 0x100_0000;
        let Ok(real) = machine.look_up(address, Access::Load) else {
            break;
        };
        pages.push((address / 4_096) as usize);
        if offset == 0 && op::find(machine.memory[real]).is_some() {
            length = op::length(machine.memory[real]);
        }
        offset += 2;
    }
    pages
}

/// Page words only gain marks; the mask never changes.
fn only_marks_came(before: &Machine, after: &Machine) {
    assert_eq!(after.mask, before.mask);
    for (after, before) in after.map.iter().zip(&before.map) {
        assert_eq!(after & 0x3FFF, before & 0x3FFF);
        assert_eq!(after & before, *before);
        // W never comes without G.
        assert!(after == before || after & 0x4000 != 0);
    }
}

#[test]
fn any_bytes_have_an_answer() {
    let mut dice = Dice::new(9);
    for _ in 0..20_000 {
        let length = dice.below(60);
        let text: Vec<u8> = (0..length)
            .map(|_| {
                if dice.chance(1, 2) {
                    dice.pick(b"PAGEBYTSRUN\t\n0123")
                } else {
                    dice.byte()
                }
            })
            .collect();
        let given = answer(&text);
        assert!(given.starts_with(b"BAD\t") || given.starts_with(b"STOP\t"));
        assert!(given.ends_with(b"\n"));
    }
}
