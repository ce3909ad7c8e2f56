//! Measuring whole sheets. Both programs are measured once in each repeat, as all engines are.

use crate::clock;
use crate::sheets::{moves, Program, Sheet, PROGRAMS};
use crate::timing::long_enough;
use std::hint::black_box;
use std::time::Duration;

/// The best times of a sheet so far, this library's and the ordinary program's, and how many answers they are for.
pub struct TimedSheet {
    pub sheet: &'static Sheet,
    pub moves: u32,
    best: [(u32, Duration); 2],
}

fn measure(program: Program, sheet: &Sheet, answers: u32) -> Duration {
    let before = clock::own();
    for _ in 0..answers {
        black_box(program(black_box(sheet.text)));
    }
    clock::own() - before
}

impl TimedSheet {
    pub fn new(sheet: &'static Sheet) -> TimedSheet {
        let answers = |program| long_enough(|answers| measure(program, sheet, answers));
        TimedSheet {
            sheet,
            moves: moves(sheet),
            best: PROGRAMS.map(|(_, program)| (answers(program), Duration::MAX)),
        }
    }

    /// Each program once.
    pub fn again(&mut self) {
        for ((_, program), (answers, best)) in PROGRAMS.iter().zip(&mut self.best) {
            *best = measure(*program, self.sheet, *answers).min(*best);
        }
    }

    /// Nanoseconds for one answer.
    pub fn figures(&self) -> [f64; 2] {
        self.best
            .map(|(answers, best)| best.as_secs_f64() * 1e9 / f64::from(answers))
    }
}
