//! Calls of the engine with lists of any length and numbers of any size, as the program `probe` reads them.
//!
//! A call in bytes, all numbers big-endian: kind (1 byte: 0 a step, 1 a run, 2 a look-up, 3 a step by the plain way); length of memory
//! (4 bytes), number of page words (2) and of registers (1); page words (2 each); registers (4 each); counter, code, mask and budget (4
//! each); number of pieces of memory (2); pieces: address (4), length (1), the bytes. What no piece names is zero.
//!
//! A look-up has the very same form. Its counter is the address that is looked up, and its code what the byte is wanted for: 0 a fetch,
//! 1 a load, 2 a store; with any other code the call is malformed. Mask and budget play no part. There is no number 6: a page for which
//! the map has no word has word 0, memory ends where it ends, and an address of 2^24 or more is one of 2,097,152 or more.
//!
//! A step by the plain way has the form of a step, and does the move or the compare at the counter byte by byte, whatever quicker way
//! the engine has. The counter is even, the instruction is MVC or CLC and can be fetched whole, and the pages that it is fetched from are
//! marked as accessed already. Its outcome is that of the step, and told in the same way.
//!
//! An outcome in text, numbers in decimal, fields parted by tabs: lines ANSWER number, place, count; STATE counter, code, mask; REGS
//! all of them; MAP all page words; MEMORY its checksum. A look-up's outcome is a single line: LOOK 0, real address, reach; or, refused,
//! LOOK number (1, 3 or 4), the address that was looked up, 0.

/// What a call asks for.
#[derive(Clone, Copy, Debug, PartialEq, Eq)]
pub enum Kind {
    Step,
    /// A run, with its budget.
    Run(u32),
    /// A look-up: the counter is the address, the code what the byte is wanted for.
    LookUp,
    /// A step, of a move or a compare byte by byte.
    Plain,
}

/// A call to be written.
pub struct Call<'a> {
    pub kind: Kind,
    pub memory: &'a [u8],
    pub map: &'a [u16],
    pub registers: &'a [u32],
    pub counter: u32,
    pub code: u32,
    pub mask: u32,
}

impl Call<'_> {
    /// Appends the call in bytes.
    pub fn push(&self, all: &mut Vec<u8>) {
        let (kind, budget) = match self.kind {
            Kind::Step => (0, 0),
            Kind::Run(budget) => (1, budget),
            Kind::LookUp => (2, 0),
            Kind::Plain => (3, 0),
        };
        all.push(kind);
        all.extend((self.memory.len() as u32).to_be_bytes());
        all.extend((self.map.len() as u16).to_be_bytes());
        all.push(self.registers.len() as u8);
        all.extend(self.map.iter().flat_map(|word| word.to_be_bytes()));
        all.extend(self.registers.iter().flat_map(|word| word.to_be_bytes()));
        for scalar in [self.counter, self.code, self.mask, budget] {
            all.extend(scalar.to_be_bytes());
        }
        let pieces = pieces(self.memory);
        all.extend((pieces.len() as u16).to_be_bytes());
        for (address, content) in pieces {
            all.extend((address as u32).to_be_bytes());
            all.push(content.len() as u8);
            all.extend(content);
        }
    }
}

/// The parts of memory that are not zero, each of at most 255 bytes.
fn pieces(memory: &[u8]) -> Vec<(usize, &[u8])> {
    let mut pieces = Vec::new();
    let mut at = 0;
    while at < memory.len() {
        if memory[at] == 0 {
            at += 1;
            continue;
        }
        let mut end = at + 1;
        // A gap of a few zeros is cheaper than a new piece.
        while end < memory.len() && end - at < 255 {
            let ahead = &memory[end..memory.len().min(end + 6)];
            if ahead.iter().all(|byte| *byte == 0) {
                break;
            }
            end += 1;
        }
        pieces.push((at, &memory[at..end]));
        at = end;
    }
    pieces
}

/// The bytes as digits to the base 251 after a leading 1, cut to 56 bits before each digit. The base is odd, so no byte can change
/// alone unseen.
pub fn checksum(memory: &[u8]) -> u64 {
    memory
        .iter()
        .fold(1, |sum, byte| sum % (1 << 56) * 251 + u64::from(*byte))
}

#[cfg(test)]
mod tests {
    use super::*;

    #[test]
    fn a_changed_byte_changes_the_checksum() {
        let mut memory = vec![0; 8_192];
        let before = checksum(&memory);
        for at in [0, 1, 4_095, 8_191] {
            memory[at] = 128;
            assert_ne!(checksum(&memory), before);
            memory[at] = 0;
        }
    }

    #[test]
    fn pieces_hold_all_that_is_not_zero() {
        let mut memory = vec![0; 1_000];
        for at in [0, 3, 12, 300, 301, 999] {
            memory[at] = 7;
        }
        memory[400..900].fill(9);
        let mut again = vec![0; 1_000];
        for (at, content) in pieces(&memory) {
            assert!(content.len() <= 255);
            again[at..at + content.len()].copy_from_slice(content);
        }
        assert_eq!(again, memory);
    }
}
