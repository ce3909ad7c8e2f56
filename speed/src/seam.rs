//! Programs about the seam between two ways of a step (`common::seam`), on every engine: with every budget from 0 to some steps past
//! their end, so that a run ends just before and just after each change from one way to the other; in two runs, and in single steps.

use crate::differ::difference;
use crate::engine::{Engine, ENGINES};
use crate::hercules::Hercules;
use crate::machine::{Answer, Machine, BUDGET_SPENT};
use crate::seam_guest;
use common::seam::{Kind, Program, KINDS, MOST_STEPS};

const SEED: u64 = 1;

pub fn machine(program: Program) -> Machine {
    Machine {
        memory: program.memory,
        map: program.map,
        registers: program.registers,
        counter: program.counter,
        code: program.code,
        mask: program.mask,
    }
}

/// A machine after a run of this budget.
pub fn ran(engine: Engine, before: &Machine, budget: u32) -> (Machine, Answer) {
    let mut machine = before.clone();
    let answer = engine.run(&mut machine, budget);
    (machine, answer)
}

/// The ordinary engines against the proved one, with every budget.
fn each_budget(before: &Machine, most: u32) -> Result<u32, String> {
    let mut agreed = 0;
    for budget in 0..=most {
        let (wanted, answer) = ran(Engine::Proved, before, budget);
        for engine in &ENGINES[1..] {
            let (machine, got) = ran(*engine, before, budget);
            if let Some(found) = difference((&machine, got), (&wanted, answer)) {
                return Err(format!("a run of {budget}, {}: {found}", engine.title()));
            }
            agreed += 1;
        }
    }
    Ok(agreed)
}

/// A run and another one after it against a single run of both budgets.
fn in_two_runs(before: &Machine, most: u32) -> Result<u32, String> {
    let (wanted, answer) = ran(Engine::Proved, before, most);
    for first in 0..most {
        let (mut machine, one) = ran(Engine::Proved, before, first);
        let other = Engine::Proved.run(&mut machine, most - first);
        let count = one.count + other.count;
        if let Some(found) = difference((&machine, Answer { count, ..other }), (&wanted, answer)) {
            return Err(format!("a run of {first} and one of the rest: {found}"));
        }
    }
    Ok(most)
}

/// Single steps against a run.
fn in_steps(before: &Machine, most: u32) -> Result<u32, String> {
    let (wanted, answer) = ran(Engine::Proved, before, most);
    let mut machine = before.clone();
    let mut count = 0;
    let mut last = Answer {
        number: BUDGET_SPENT,
        place: 0,
        count: 0,
    };
    while count < most {
        let step = Engine::Proved.step(&mut machine);
        if step.number != 0 {
            last = step;
            break;
        }
        count += 1;
    }
    match difference((&machine, Answer { count, ..last }), (&wanted, answer)) {
        Some(found) => Err(format!("single steps: {found}")),
        None => Ok(1),
    }
}

fn one(before: &Machine) -> Result<u32, String> {
    let most = ran(Engine::ByByte, before, MOST_STEPS).1.count + 2;
    let mut agreed = each_budget(before, most)?;
    agreed += in_two_runs(before, most)?;
    agreed += in_steps(before, most)?;
    Ok(agreed)
}

fn of_kind(kind: &Kind, hercules: Option<&Hercules>) -> Result<u32, String> {
    let mut agreed = 0;
    let mut machines = Vec::new();
    for case in 0..kind.cases {
        let machine = machine(kind.program(SEED, case));
        agreed += one(&machine).map_err(|found| format!("{case}: {found}"))?;
        machines.push(machine);
    }
    if let Some(hercules) = hercules {
        agreed += seam_guest::check(hercules, &machines)?;
    }
    Ok(agreed)
}

/// How many comparisons agreed.
pub fn check(hercules: Option<&Hercules>) -> Result<u32, String> {
    let mut agreed = 0;
    for kind in &KINDS {
        agreed +=
            of_kind(kind, hercules).map_err(|found| format!("seam, {} {found}", kind.name))?;
    }
    Ok(agreed)
}
