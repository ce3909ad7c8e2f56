//! Measuring. Every engine is measured once in each repeat, so that what disturbs the machine for a while disturbs all alike.

use crate::clock;
use crate::engine::{Engine, ENGINES};
use crate::hercules::Hercules;
use crate::programs::Program;
use std::time::Duration;

/// What a measurement lasts at least, about. Hercules' are longer: what is taken off again is not always the same.
const LONG_ENOUGH: Duration = Duration::from_millis(80);
const LONG_ENOUGH_FOR_HERCULES: Duration = Duration::from_millis(200);
/// Hercules' short runs, whose time is taken off that of its long ones.
const FEW: u32 = 1;

/// The best times of one program so far, and the rounds that they are for.
pub struct Timed<'a> {
    pub program: &'a Program,
    own: Vec<(Engine, u32, Duration)>,
    hercules: Option<(u32, Duration, Duration)>,
}

fn measure(engine: Engine, program: &Program, rounds: u32) -> Duration {
    let mut machine = program.machine(rounds);
    let before = clock::own();
    engine.run_out(&mut machine);
    clock::own() - before
}

/// Rounds that last long enough.
pub fn long_enough(measure: impl Fn(u32) -> Duration) -> u32 {
    let mut rounds = 4;
    loop {
        let took = measure(rounds);
        if took >= LONG_ENOUGH / 8 {
            let more = LONG_ENOUGH.as_secs_f64() / took.as_secs_f64();
            return (f64::from(rounds) * more.max(1.0)).ceil() as u32;
        }
        rounds *= 4;
    }
}

fn rounds_for_hercules(hercules: &Hercules, program: &Program) -> Result<u32, String> {
    let few = hercules.time(program, FEW)?;
    let mut rounds = (4_000_000 / program.instructions) as u32;
    while hercules.time(program, rounds)?.saturating_sub(few) < LONG_ENOUGH_FOR_HERCULES {
        rounds *= 2;
    }
    Ok(rounds)
}

impl Timed<'_> {
    pub fn new<'a>(program: &'a Program, hercules: Option<&Hercules>) -> Result<Timed<'a>, String> {
        let rounds = |engine| long_enough(|rounds| measure(engine, program, rounds));
        let start = |engine: Engine| (engine, rounds(engine), Duration::MAX);
        let hercules = match hercules {
            Some(hercules) => Some((
                rounds_for_hercules(hercules, program)?,
                Duration::MAX,
                Duration::MAX,
            )),
            None => None,
        };
        Ok(Timed {
            program,
            own: ENGINES.map(start).to_vec(),
            hercules,
        })
    }

    /// Each engine once.
    pub fn again(&mut self, hercules: Option<&Hercules>) -> Result<(), String> {
        for (engine, rounds, best) in &mut self.own {
            *best = measure(*engine, self.program, *rounds).min(*best);
        }
        if let (Some(hercules), Some((many, least, most))) = (hercules, &mut self.hercules) {
            *least = hercules.time(self.program, FEW)?.min(*least);
            *most = hercules.time(self.program, *many)?.min(*most);
        }
        Ok(())
    }

    /// Nanoseconds for one of the program's units: each engine of this program, then Hercules.
    pub fn figures(&self) -> (Vec<f64>, Option<f64>) {
        let each = |time: Duration, rounds: u32| {
            time.as_secs_f64() * 1e9 / (f64::from(rounds) * self.program.units as f64)
        };
        let own = self
            .own
            .iter()
            .map(|(_, rounds, best)| each(*best, *rounds));
        let outside = self
            .hercules
            .map(|(many, least, most)| each(most.saturating_sub(least), many - FEW));
        (own.collect(), outside)
    }
}
