//! The numbers 1 to 6 and 8, and all that this crate does not know.

use crate::raw;
use core::error::Error;
use core::fmt;

/// Why the machine would not do an instruction. `at` is the place that it reports: a virtual address of 24 bits.
///
/// Number 6 alters nothing. Any other leaves memory, registers, counter, code and mask as they were before that instruction, and the page
/// words too, but for one mark: G, `0x4000`, is set on each page from which a halfword of the instruction was fetched. So the cause can be
/// mended, and the machine goes on with the same instruction.
///
/// ```
/// use spectra46::{Machine, Refusal};
///
/// let mut machine = Machine::new(65_536)?;
/// machine.pages[10] = 0x3003; // its first two bytes are zeros: no operation of the set
/// machine.counter = 0x00_A000;
/// assert_eq!(machine.step(), Err(Refusal::Operation { at: 0x00_A000 }));
/// assert_eq!((machine.counter, machine.pages[10]), (0x00_A000, 0x7003));
/// # Ok::<(), spectra46::WrongLibrary>(())
/// ```
///
/// More will come: a `match` needs an arm for the rest, and that arm has to take it as a refusal.
#[derive(Clone, Copy, Debug, PartialEq, Eq, Hash)]
#[non_exhaustive]
#[must_use]
pub enum Refusal {
    /// Number 1: an address of 2,097,152 or more, or a real address beyond memory.
    Addressing {
        /// The first failing byte.
        at: u32,
    },
    /// Number 2: an odd program counter, an odd R1 where a pair of registers is needed, or an operand off its boundary.
    Specification {
        /// The counter, or the operand's address.
        at: u32,
    },
    /// Number 3: a page that is not usable.
    PagingQueue {
        /// The first failing byte.
        at: u32,
    },
    /// Number 4: a page that does not allow the access.
    PagingError {
        /// The first failing byte.
        at: u32,
    },
    /// Number 5: the operation is not in the set.
    Operation {
        /// The program counter.
        at: u32,
    },
    /// Number 6: memory of a wrong size, or counter, code, mask or budget out of range.
    OutOfRange,
    /// Number 8: a divisor of zero, or a quotient that does not fit a register.
    DivideError {
        /// The program counter.
        at: u32,
    },
    /// A number that this crate does not know, from a later library: a refusal of which nothing more can be said.
    Unknown {
        /// The number.
        number: u32,
        /// The place that came with it.
        at: u32,
    },
}

impl Refusal {
    /// The refusal with this number and place. Whoever asks has seen that the number is not the one that says all went well.
    pub(crate) fn of(number: u32, at: u32) -> Refusal {
        match number {
            raw::ADDRESSING => Refusal::Addressing { at },
            raw::SPECIFICATION => Refusal::Specification { at },
            raw::PAGING_QUEUE => Refusal::PagingQueue { at },
            raw::PAGING_ERROR => Refusal::PagingError { at },
            raw::OPERATION => Refusal::Operation { at },
            raw::OUT_OF_RANGE => Refusal::OutOfRange,
            raw::DIVIDE_ERROR => Refusal::DivideError { at },
            _ => Refusal::Unknown { number, at },
        }
    }

    /// Its number.
    #[must_use]
    pub fn number(self) -> u32 {
        match self {
            Refusal::Addressing { .. } => raw::ADDRESSING,
            Refusal::Specification { .. } => raw::SPECIFICATION,
            Refusal::PagingQueue { .. } => raw::PAGING_QUEUE,
            Refusal::PagingError { .. } => raw::PAGING_ERROR,
            Refusal::Operation { .. } => raw::OPERATION,
            Refusal::OutOfRange => raw::OUT_OF_RANGE,
            Refusal::DivideError { .. } => raw::DIVIDE_ERROR,
            Refusal::Unknown { number, .. } => number,
        }
    }

    /// The place, 0 for [`Refusal::OutOfRange`].
    #[must_use]
    pub fn place(self) -> u32 {
        match self {
            Refusal::Addressing { at }
            | Refusal::Specification { at }
            | Refusal::PagingQueue { at }
            | Refusal::PagingError { at }
            | Refusal::Operation { at }
            | Refusal::DivideError { at }
            | Refusal::Unknown { at, .. } => at,
            Refusal::OutOfRange => 0,
        }
    }
}

impl fmt::Display for Refusal {
    fn fmt(&self, f: &mut fmt::Formatter<'_>) -> fmt::Result {
        let (number, at) = (self.number(), self.place());
        write!(f, "{number}, ")?;
        match self {
            Refusal::Addressing { .. } => write!(f, "addressing: no memory at {at:06X}"),
            Refusal::Specification { .. } => {
                write!(
                    f,
                    "specification: {at:06X} is off its boundary, or has an odd R1 for a pair"
                )
            }
            Refusal::PagingQueue { .. } => {
                write!(f, "paging queue: the page of {at:06X} is not usable")
            }
            Refusal::PagingError { .. } => write!(
                f,
                "paging error: the page of {at:06X} does not allow this access"
            ),
            Refusal::Operation { .. } => write!(f, "operation: that at {at:06X} is not in the set"),
            Refusal::OutOfRange => write!(f, "out of range: memory, counter, code, mask or budget"),
            Refusal::DivideError { .. } => {
                write!(
                    f,
                    "divide error: that at {at:06X} has no quotient that fits"
                )
            }
            Refusal::Unknown { .. } => write!(f, "a number of a later library, at {at:06X}"),
        }
    }
}

impl Error for Refusal {}

#[cfg(test)]
mod tests {
    use super::Refusal;

    #[test]
    fn every_number_is_kept() {
        for number in (0..=1_000).chain([u32::MAX]) {
            assert_eq!(Refusal::of(number, 9).number(), number);
        }
    }

    #[test]
    fn only_1_to_6_and_8_are_known() {
        for number in (0..=1_000).chain([u32::MAX]) {
            let is_known = !matches!(Refusal::of(number, 9), Refusal::Unknown { .. });
            assert_eq!(is_known, matches!(number, 1..=6 | 8), "{number}");
        }
    }

    #[test]
    fn places_are_kept() {
        for number in [1, 2, 3, 4, 5, 8, 9, 10] {
            assert_eq!(Refusal::of(number, 9).place(), 9);
        }
        assert_eq!(Refusal::of(6, 0).place(), 0);
    }
}
