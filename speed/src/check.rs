//! The checks that come before any figure: every engine does the same.

use crate::cases::{case, Case};
use crate::differ::difference;
use crate::engine::{Engine, ENGINES};
use crate::hercules::Hercules;
use crate::machine::{Answer, Machine, BUDGET};
use crate::programs::Program;
use common::bytes::to_hex;
use common::set::SET;

const CASES: u64 = 20_000;

/// Rounds that take more than one run of the greatest budget.
fn modest(program: &Program) -> u32 {
    (u64::from(BUDGET) / program.instructions) as u32 + 2
}

/// The machine at a program's end, with the count of all its runs in the answer.
fn end(engine: Engine, program: &Program) -> (Machine, Answer) {
    let mut machine = program.machine(modest(program));
    let (answer, total) = engine.run_out(&mut machine);
    let count = total as u32;
    (machine, Answer { count, ..answer })
}

/// A program on each engine, and on Hercules where there is one; answers how many comparisons agreed.
pub fn program(program: &Program, hercules: Option<&Hercules>) -> Result<u32, String> {
    let (wanted, answer) = end(Engine::Proved, program);
    let instructions = u64::from(modest(program)) * program.instructions;
    if answer.number != 5 || u64::from(answer.count) != instructions {
        return Err(format!(
            "program {}: this engine does not come to its end",
            program.name
        ));
    }
    let mut agreed = 1;
    for engine in &ENGINES[1..] {
        let (machine, got) = end(*engine, program);
        if let Some(found) = difference((&machine, got), (&wanted, answer)) {
            return Err(format!(
                "program {}, {}: {found}",
                program.name,
                engine.title()
            ));
        }
        agreed += 1;
    }
    if let Some(hercules) = hercules {
        hercules
            .check(program, modest(program), &wanted)
            .map_err(|found| format!("program {}, Hercules: {found}", program.name))?;
        agreed += 1;
    }
    Ok(agreed)
}

fn done(engine: Engine, case: &Case) -> (Machine, Answer) {
    let mut machine = case.machine.clone();
    let answer = match case.budget {
        None => engine.step(&mut machine),
        Some(budget) => engine.run(&mut machine, budget),
    };
    (machine, answer)
}

fn shown(number: u64, case: &Case) -> String {
    let text = to_hex(&case.text);
    let kind = match case.budget {
        None => "a step".to_string(),
        Some(budget) => format!("a run of {budget}"),
    };
    let counter = case.machine.counter;
    format!("generated case {number}, {kind} from {counter:06X}, instruction {text}")
}

/// Both ordinary engines against the proved one on generated cases. That every operation completes and every number comes up
/// somewhere is a check too: without it the others might say little.
pub fn generated() -> Result<u32, String> {
    let mut completed = [false; 256];
    let mut answered = [false; 9];
    for number in 0..CASES {
        let case = case(number);
        let (wanted, answer) = done(Engine::Proved, &case);
        completed[usize::from(case.text[0])] |= answer.number == 0;
        match answered.get_mut(answer.number as usize) {
            Some(came) => *came = true,
            None => {
                return Err(format!(
                    "{}: the number {}",
                    shown(number, &case),
                    answer.number
                ))
            }
        }
        for engine in &ENGINES[1..] {
            let (machine, got) = done(*engine, &case);
            if let Some(found) = difference((&machine, got), (&wanted, answer)) {
                let shown = shown(number, &case);
                return Err(format!("{shown}, {}: {found}", engine.title()));
            }
        }
    }
    if let Some(never) = SET
        .iter()
        .find(|one| !completed[usize::from(one.operation)])
    {
        return Err(format!("no generated case completes {}", never.name));
    }
    match answered.iter().position(|came| !came) {
        Some(number) => Err(format!("no generated case answers {number}")),
        None => Ok(2 * CASES as u32 + 2),
    }
}
