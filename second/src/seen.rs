//! What calls of a listing have shown: so that a comparison can say what it
//! was made of.

use crate::listing::{lines, Line, Listed, OUT_OF_RANGE};
use crate::operations::find;
use crate::stretches::Case;
use std::collections::BTreeSet;

/// Counts of cases, and of the lines that were written.
#[derive(Default)]
pub struct Seen {
    pub cases: usize,
    pub lines: usize,
    pub first_bytes: BTreeSet<u8>,
    pub first_halfwords: BTreeSet<u16>,
    /// Codes of the operations that were listed by name.
    pub operations: BTreeSet<u8>,
    /// Lengths of the code.
    pub lengths: BTreeSet<usize>,
    /// Lines of operations that the set has not.
    pub unknown: usize,
    /// Lines of instructions that the end cut off.
    pub cut_off: usize,
    /// Lines of a lone last byte.
    pub lone: usize,
    /// Cases in which the addresses wrapped from a line to the next.
    pub wraps: usize,
    /// Cases that ended before the code did.
    pub short_of_room: usize,
    /// Cases with a start out of range.
    pub refused: usize,
}

impl Seen {
    /// Counts a case and its answer.
    pub fn add(&mut self, case: &Case, listed: &Listed) {
        self.cases += 1;
        self.lengths.insert(case.code.len());
        if listed.number == OUT_OF_RANGE {
            self.refused += 1;
            return;
        }
        self.short_of_room += usize::from(listed.next < case.code.len());
        let all = lines(&case.code, case.start);
        let written = &all[..listed.lines];
        let is_wrap = |pair: &[Line]| pair[1].address < pair[0].address;
        self.wraps += usize::from(written.windows(2).any(is_wrap));
        for line in written {
            self.add_line(line);
        }
    }

    fn add_line(&mut self, line: &Line) {
        self.lines += 1;
        self.first_bytes.insert(line.bytes[0]);
        if let [high, low, ..] = line.bytes {
            self.first_halfwords
                .insert(u16::from_be_bytes([*high, *low]));
        }
        let is_known = find(line.bytes[0]).is_some();
        match (line.bytes.len(), line.text.contains("\tDC\t")) {
            (1, _) => self.lone += 1,
            (_, true) if is_known => self.cut_off += 1,
            (_, true) => self.unknown += 1,
            _ => {
                self.operations.insert(line.bytes[0]);
            }
        }
    }
}
