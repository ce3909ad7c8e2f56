//! Counts of cases, for an instruction and for all.

use crate::case::{After, Case, End, DIVIDE, SPECIFICATION};

#[derive(Clone, Copy, Default)]
pub struct Tally {
    pub cases: usize,
    pub different: usize,
    /// The code or an operand lay across the edge of a page.
    pub crossings: usize,
    /// The counter went elsewhere than past the instruction.
    pub branches: usize,
    /// Hercules interrupted for overflow.
    pub overflows: usize,
    /// Hercules refused to divide.
    pub divides: usize,
    /// Hercules refused an odd register for a pair.
    pub odd_pairs: usize,
}

impl Tally {
    pub fn of(case: &Case, after: &After, is_different: bool) -> Tally {
        let next = case.counter + case.text().len() as u32;
        let is_refused = |wanted: u16| matches!(after.end, End::Refused { interruption, .. } if interruption == wanted);
        Tally {
            cases: 1,
            different: is_different.into(),
            crossings: case.crosses.into(),
            branches: matches!(after.end, End::At(counter) if counter != next).into(),
            overflows: matches!(after.end, End::Overflow(_)).into(),
            divides: is_refused(DIVIDE).into(),
            odd_pairs: is_refused(SPECIFICATION).into(),
        }
    }

    pub fn add(&mut self, other: Tally) {
        self.cases += other.cases;
        self.different += other.different;
        self.crossings += other.crossings;
        self.branches += other.branches;
        self.overflows += other.overflows;
        self.divides += other.divides;
        self.odd_pairs += other.odd_pairs;
    }
}
