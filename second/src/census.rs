//! Counting what the generated sheets do on our own machine.

use crate::generate::Generator;
use crate::machine::{Machine, COMPLETED};
use crate::operations::{self as op, Operation, OPERATIONS};
use crate::{set_up, sheet};
use std::collections::BTreeMap;

/// What happened to one operation code.
#[derive(Clone, Copy, Debug, Default)]
pub struct Row {
    /// Completed steps.
    pub completed: u64,
    /// Sheets with at least one completed step.
    pub sheets: u64,
    /// Refusals by number (1 to 5, and 8).
    pub refused: [u64; 9],
}

/// A way to be refused: the number, the bytes that the operation code asks for
/// (0 if it could not be fetched), and the halfwords that were fetched.
pub type Way = (u32, u32, usize);

#[derive(Clone, Debug)]
pub struct Census {
    pub sheets: u64,
    pub bytes: u64,
    pub bad: u64,
    pub steps: u64,
    /// Sheets by the number in their STOP line.
    pub stops: [u64; 9],
    /// By operation code.
    pub rows: Vec<Row>,
    /// Refusals before an operation code was known, by number.
    pub unknown: [u64; 9],
    /// Refusals by their way and by how many pages they marked anew.
    pub marked: BTreeMap<Way, [u64; 3]>,
}

/// Generates and runs the sheets of a seed.
pub fn take(seed: u64, count: u64) -> Census {
    let mut census = Census::default();
    let mut generator = Generator::new(seed);
    for _ in 0..count {
        census.add(&generator.make().text);
    }
    census
}

impl Default for Census {
    /// Of no sheets yet.
    fn default() -> Census {
        Census {
            sheets: 0,
            bytes: 0,
            bad: 0,
            steps: 0,
            stops: [0; 9],
            rows: vec![Row::default(); 256],
            unknown: [0; 9],
            marked: BTreeMap::new(),
        }
    }
}

impl Census {
    /// Runs a sheet and counts what it does.
    pub fn add(&mut self, text: &[u8]) {
        self.sheets += 1;
        self.bytes += text.len() as u64;
        let Ok(sheet) = sheet::read(text) else {
            self.bad += 1;
            return;
        };
        let mut machine = set_up(&sheet);
        let mut seen = [false; 256];
        for _ in 0..sheet.budget {
            let before = words_ahead(&machine);
            let (step, text) = machine.step_and_tell();
            if step.number == COMPLETED {
                let code = usize::from(text[0]);
                self.steps += 1;
                self.rows[code].completed += 1;
                if !seen[code] {
                    seen[code] = true;
                    self.rows[code].sheets += 1;
                }
                continue;
            }
            self.stops[step.number as usize] += 1;
            let after = words_ahead(&machine);
            let marked = before.iter().zip(&after).filter(|(a, b)| a != b).count();
            self.add_refused(step.number, &text, marked);
            return;
        }
        self.stops[7] += 1;
    }

    /// Counts a refusal, with the bytes fetched before it and the pages that it
    /// marked anew.
    fn add_refused(&mut self, number: u32, text: &[u8], marked: usize) {
        let length = match text.first() {
            Some(&code) => {
                self.rows[usize::from(code)].refused[number as usize] += 1;
                op::length(code)
            }
            None => {
                self.unknown[number as usize] += 1;
                0
            }
        };
        let way = (number, length, text.len() / 2);
        self.marked.entry(way).or_default()[marked] += 1;
    }

    /// The tables as text.
    pub fn text(&self) -> String {
        let mut text = String::new();
        text += &format!(
            "sheets {}, bytes {}, completed steps {}\n",
            self.sheets, self.bytes, self.steps
        );
        text += &format!("BAD {}\n", self.bad);
        for number in [1, 2, 3, 4, 5, 7, 8] {
            text += &format!("STOP {number}: {}\n", self.stops[number]);
        }
        text += "\nop   name   steps completed  sheets completed  refused 1      2      3      4      5      8\n";
        for operation in OPERATIONS {
            text += &self.row_text(operation);
        }
        let other_codes = (0..=255u8).filter(|&code| op::find(code).is_none());
        let refused = other_codes.map(|code| self.rows[usize::from(code)].refused[5]);
        let met: Vec<_> = refused.filter(|&times| times > 0).collect();
        let (codes, times) = (met.len(), met.iter().sum::<u64>());
        let others = 256 - OPERATIONS.len();
        text += &format!("other codes met: {codes} of {others}, refused with 5: {times}\n");
        text += &format!(
            "before the operation was known: 1: {}, 2: {}, 3: {}, 4: {}\n",
            self.unknown[1], self.unknown[2], self.unknown[3], self.unknown[4]
        );
        text += &self.marked_text();
        text
    }

    /// The table of the ways to be refused.
    fn marked_text(&self) -> String {
        let mut text =
            "\nrefused  bytes  halfwords fetched  pages marked anew: 0      1      2\n".to_string();
        for ((number, length, halfwords), [none, one, two]) in &self.marked {
            text +=
                &format!("{number:>7} {length:>6} {halfwords:>18} {none:>21} {one:>6} {two:>6}\n");
        }
        text
    }

    /// An operation's line in the table.
    fn row_text(&self, operation: Operation) -> String {
        let row = &self.rows[usize::from(operation.code)];
        format!(
            "{:02X}   {:<5} {:>16} {:>17} {:>10} {:>6} {:>6} {:>6} {:>6} {:>6}\n",
            operation.code,
            operation.name,
            row.completed,
            row.sheets,
            row.refused[1],
            row.refused[2],
            row.refused[3],
            row.refused[4],
            row.refused[5],
            row.refused[8]
        )
    }
}

/// The words of the pages, one or two, that the next instruction can lie in.
fn words_ahead(machine: &Machine) -> [u16; 2] {
    let page_at = |offset| (machine.counter.wrapping_add(offset) / 4_096) as usize;
    let word = |page| machine.map.get(page).copied().unwrap_or(0);
    match page_at(4) {
        next if next == page_at(0) => [word(next), 0],
        next => [word(page_at(0)), word(next)],
    }
}
