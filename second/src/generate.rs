//! The list of generated sheets for a seed.

use crate::bad;
use crate::draft::Draft;
use crate::programs;
use crate::sweeps::SWEEPS;
use common::dice::Dice;

/// A generated sheet and what it was made for.
pub struct Made {
    pub label: String,
    pub text: Vec<u8>,
}

impl Made {
    fn of(label: &str, draft: Draft) -> Made {
        Made {
            label: label.to_string(),
            text: draft.text(),
        }
    }

    /// The same with something in it changed.
    fn changed(&self, dice: &mut Dice) -> Made {
        Made {
            label: format!("{} changed", self.label),
            text: bad::mutate(dice, &self.text),
        }
    }
}

/// Makes the sheets of one seed, one after another.
pub struct Generator {
    seed: u64,
    index: u64,
    sweep_cases: u64,
    sweep_place: u64,
    sweep_stride: u64,
    ways: Vec<Vec<u8>>,
    way_place: u64,
    way_stride: u64,
    ways_done: u64,
}

impl Generator {
    pub fn new(seed: u64) -> Generator {
        let mut dice = Dice::new(seed);
        let sweep_cases = SWEEPS.iter().map(|sweep| u64::from(sweep.cases)).sum();
        let ways = bad::ways();
        let way_count = ways.len() as u64;
        Generator {
            seed,
            index: 0,
            sweep_cases,
            sweep_place: dice.roll() % sweep_cases,
            sweep_stride: stride(sweep_cases),
            way_place: dice.roll() % way_count,
            way_stride: stride(way_count),
            ways,
            ways_done: 0,
        }
    }

    /// How many cases the sweeps have together.
    pub fn sweep_cases(&self) -> u64 {
        self.sweep_cases
    }

    /// The next sheet.
    pub fn make(&mut self) -> Made {
        let index = self.index;
        self.index += 1;
        let mut dice = Dice::for_one(self.seed, index);
        match index % 60 {
            0..=39 => self.next_sweep(&mut dice),
            40..=48 => Made::of("program", programs::program(&mut dice)),
            49..=52 => self.next_bad(&mut dice),
            53..=55 => self.some_good(&mut dice).changed(&mut dice),
            _ if index % 1_500 == 59 => Made::of("long", programs::long(&mut dice)),
            _ => Made::of("wild", programs::wild(&mut dice)),
        }
    }

    fn next_sweep(&mut self, dice: &mut Dice) -> Made {
        let case = self.sweep_place;
        self.sweep_place = (self.sweep_place + self.sweep_stride) % self.sweep_cases;
        sweep_case(case, dice)
    }

    fn next_bad(&mut self, dice: &mut Dice) -> Made {
        if self.ways_done < self.ways.len() as u64 {
            let way = self.way_place as usize;
            self.way_place = (self.way_place + self.way_stride) % self.ways.len() as u64;
            self.ways_done += 1;
            return Made {
                label: format!("way {way}"),
                text: self.ways[way].clone(),
            };
        }
        // All ways are through: change them a little.
        let way = dice.below(self.ways.len() as u32) as usize;
        if self.ways[way].len() > 2_000 {
            return self.some_good(dice).changed(dice);
        }
        let way = Made {
            label: format!("way {way}"),
            text: self.ways[way].clone(),
        };
        way.changed(dice)
    }

    fn some_good(&self, dice: &mut Dice) -> Made {
        if dice.chance(1, 3) {
            Made::of("program", programs::program(dice))
        } else {
            let case = dice.roll() % self.sweep_cases;
            sweep_case(case, dice)
        }
    }
}

fn sweep_case(case: u64, dice: &mut Dice) -> Made {
    let mut left = case;
    for sweep in &SWEEPS {
        if left < u64::from(sweep.cases) {
            let draft = (sweep.make)(left as u32, dice);
            return Made::of(&format!("{} {left}", sweep.name), draft);
        }
        left -= u64::from(sweep.cases);
    }
    unreachable!("the case is below the sum")
}

/// A stride that visits every case once and spreads any few of them.
fn stride(count: u64) -> u64 {
    let mut stride = count * 61_803 / 100_000 + 1;
    while common_divisor(stride, count) != 1 {
        stride += 1;
    }
    stride
}

fn common_divisor(a: u64, b: u64) -> u64 {
    if b == 0 {
        a
    } else {
        common_divisor(b, a % b)
    }
}
