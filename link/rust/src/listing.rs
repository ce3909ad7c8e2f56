//! A listing of code bytes, line by line. All that a line says is the library's own text; here it is only taken apart.

use crate::library::{check_library, WrongLibrary};
use crate::line::{Line, Text, ADDRESSES};
use crate::raw;
use alloc::vec;
use alloc::vec::Vec;
use core::error::Error;
use core::fmt;
use core::iter::FusedIterator;
use core::ops::Range;

/// How many bytes of text the library is lent room for at a time.
const ROOM: usize = 4_096;

/// The function that is asked for lines: [`raw::list`], but for tests.
type Ask = fn(&[u8], u32, &mut [u8], &mut [usize]) -> u32;

/// The listing of code whose first byte lies at the address `start`, below 2^24: one [`Line`] an instruction.
///
/// Bytes that are no instruction of the set, or that the code's end cuts off, have a line with the name `DC`: two bytes, or the one
/// that is left. No byte is listed twice or left out. Addresses wrap at 2^24.
///
/// ```
/// let code = [0x41, 0x10, 0x00, 0x05, 0x1E, 0x11, 0x00, 0x00];
/// let mut lines = spectra46::listing(&code, 0x00_A000)?;
///
/// let first = lines.next().expect("a line")?;
/// assert_eq!((first.address, first.bytes), (0x00_A000, &code[..4]));
/// assert_eq!((first.name(), first.operands()), ("LA", "1,5(0,0)"));
///
/// let rest = lines.collect::<Result<Vec<_>, _>>()?;
/// assert_eq!(rest[0].to_string(), "00A004\tALR\t1,1");
/// assert_eq!(rest[1].text(), "00A006\tDC\tX'0000'");
/// assert!(!rest[1].is_instruction());
/// # Ok::<(), spectra46::ListingError>(())
/// ```
///
/// # Errors
///
/// A library that this crate is not for, and a start out of range:
///
/// ```
/// use spectra46::ListingError;
///
/// assert_eq!(spectra46::listing(&[], 1 << 24).err(), Some(ListingError::OutOfRange));
/// ```
pub fn listing(code: &[u8], start: u32) -> Result<Listing<'_>, ListingError> {
    check_library()?;
    Listing::of(raw::list, ROOM, code, start)
}

/// The lines of some code, from [`listing`](crate::listing()). It asks the library for some at a time.
///
/// An item is an error where the library says what this crate does not understand, and then it is the last. So if no item is an error
/// the code is listed to its end, and the lines' bytes, one behind the other, are the code.
#[derive(Clone, Debug)]
#[must_use]
pub struct Listing<'a> {
    ask: Ask,
    code: &'a [u8],
    start: u32,
    /// The code byte that the next line begins with.
    at: usize,
    room: Vec<u8>,
    /// Where in the room the lines are that were not yet given.
    lines: Range<usize>,
    /// The code byte that the last line in the room ends before.
    end: usize,
}

impl<'a> Listing<'a> {
    /// With a room of this size for the text. The first lines are asked for at once, so that a start out of range is told here.
    fn of(ask: Ask, room: usize, code: &'a [u8], start: u32) -> Result<Self, ListingError> {
        let mut listing = Listing {
            ask,
            code,
            start,
            at: 0,
            room: vec![0; room],
            lines: 0..0,
            end: 0,
        };
        listing.fill(start)?;
        Ok(listing)
    }

    /// The address of the next line.
    fn address(&self) -> u32 {
        ((u64::from(self.start) + self.at as u64) % ADDRESSES) as u32
    }

    /// Asks for as many lines as the room holds: some, where there is code left.
    fn fill(&mut self, address: u32) -> Result<(), ListingError> {
        let left = &self.code[self.at..];
        let mut told = [0; raw::TOLD];
        let number = (self.ask)(left, address, &mut self.room, &mut told);
        ListingError::check(number)?;
        let [lines, next, written] = told;
        let is_some = lines > 0;
        if !holds(&self.room, lines, written) || next > left.len() || is_some == left.is_empty() {
            return Err(self.not_understood());
        }
        self.lines = 0..written;
        self.end = self.at + next;
        Ok(())
    }

    fn not_understood(&self) -> ListingError {
        ListingError::NotUnderstood { at: self.at }
    }

    /// The next line, where there is code left.
    fn line(&mut self) -> Result<Line<'a>, ListingError> {
        if self.lines.is_empty() {
            self.fill(self.address())?;
        }
        self.take().ok_or(self.not_understood())
    }

    /// The first line in the room. It stands for the code up to where the line behind it begins, as that one's address tells, or up to
    /// the end of what was listed.
    fn take(&mut self) -> Option<Line<'a>> {
        let left = &self.code[self.at..self.end];
        let (text, others) = Text::first(&self.room[self.lines.clone()])?;
        let size = match others {
            [] => left.len(),
            others => text.size_before(others)?,
        };
        let is_last = size == left.len();
        if text.address != self.address() || size == 0 || is_last != others.is_empty() {
            return None;
        }
        let (behind, line) = (others.len(), Line::new(text, left.get(..size)?));
        self.lines.start = self.lines.end - behind;
        self.at += size;
        Some(line)
    }
}

impl<'a> Iterator for Listing<'a> {
    type Item = Result<Line<'a>, ListingError>;

    fn next(&mut self) -> Option<Self::Item> {
        if self.at == self.code.len() {
            return None;
        }
        let line = self.line();
        if line.is_err() {
            // Nothing more is asked or given.
            self.at = self.code.len();
        }
        Some(line)
    }
}

impl FusedIterator for Listing<'_> {}

/// Whether the room holds so many whole lines in so many bytes.
fn holds(room: &[u8], lines: usize, written: usize) -> bool {
    room.get(..written).is_some_and(|text| {
        let ends = text.iter().filter(|byte| **byte == b'\n').count();
        ends == lines && text.last().is_none_or(|byte| *byte == b'\n')
    })
}

/// Why there is no listing, or no more of it. More will come: a `match` needs an arm for the rest.
#[derive(Clone, Copy, Debug, PartialEq, Eq, Hash)]
#[non_exhaustive]
#[must_use]
pub enum ListingError {
    /// The library that is linked is not one that this crate is for.
    WrongLibrary(WrongLibrary),
    /// Number 6: a start of 2^24 or more.
    OutOfRange,
    /// A number that this crate does not know, from a later library: a refusal of which nothing more can be said.
    Unknown {
        /// The number.
        number: u32,
    },
    /// What the library wrote is no listing as this crate knows it. The proved library of this version never does so.
    NotUnderstood {
        /// The code byte from which on nothing was listed.
        at: usize,
    },
}

impl ListingError {
    fn check(number: u32) -> Result<(), ListingError> {
        match number {
            raw::COMPLETED => Ok(()),
            raw::OUT_OF_RANGE => Err(ListingError::OutOfRange),
            number => Err(ListingError::Unknown { number }),
        }
    }
}

impl From<WrongLibrary> for ListingError {
    fn from(wrong: WrongLibrary) -> ListingError {
        ListingError::WrongLibrary(wrong)
    }
}

impl fmt::Display for ListingError {
    fn fmt(&self, f: &mut fmt::Formatter<'_>) -> fmt::Result {
        match self {
            ListingError::WrongLibrary(wrong) => wrong.fmt(f),
            ListingError::OutOfRange => write!(f, "6, out of range: the start of a listing"),
            ListingError::Unknown { number } => write!(f, "{number}, a number of a later library"),
            ListingError::NotUnderstood { at } => write!(
                f,
                "the library's listing is not understood from code byte {at} on"
            ),
        }
    }
}

impl Error for ListingError {}

#[cfg(test)]
mod tests {
    extern crate std;
    use super::*;
    use std::string::ToString;

    const CODE: [u8; 6] = [0x18, 0x12, 0x41, 0x10, 0x00, 0x05];
    const START: u32 = 0xFF_FFFE;
    const LINES: &str = "FFFFFE\tLR\t1,2\n000000\tLA\t1,5(0,0)\n";

    /// As a library that writes this text, and tells so many lines and the byte to go on from.
    fn write(text: &str, lines: usize, next: usize, out: &mut [u8], told: &mut [usize]) -> u32 {
        out[..text.len()].copy_from_slice(text.as_bytes());
        told.copy_from_slice(&[lines, next, text.len()]);
        raw::COMPLETED
    }

    /// The code by a library that is wrong: how many lines there are before the error, and the error.
    fn fails(ask: Ask) -> (usize, ListingError) {
        let mut listing = match Listing::of(ask, ROOM, &CODE, START) {
            Ok(listing) => listing,
            Err(error) => return (0, error),
        };
        for lines in 0..CODE.len() {
            if let Err(error) = listing.next().expect("an item") {
                assert!(listing.next().is_none() && listing.next().is_none());
                return (lines, error);
            }
        }
        panic!("no error")
    }

    #[test]
    fn lines_and_their_bytes() {
        let ask: Ask = |_, _, out, told| write(LINES, 2, 6, out, told);
        let listing = Listing::of(ask, ROOM, &CODE, START).expect("a listing");
        let lines: Vec<_> = listing.map(|line| line.expect("a line")).collect();
        let seen: Vec<_> = lines
            .iter()
            .map(|line| (line.address, line.bytes, line.text()))
            .collect();
        let wanted = [
            (0xFF_FFFE, &CODE[..2], "FFFFFE\tLR\t1,2"),
            (0, &CODE[2..], "000000\tLA\t1,5(0,0)"),
        ];
        assert_eq!(seen, wanted);
    }

    #[test]
    fn a_number_other_than_0_is_a_refusal() {
        assert_eq!(ListingError::check(0), Ok(()));
        for number in (1..=1_000).chain([u32::MAX]) {
            let wanted = match number {
                6 => ListingError::OutOfRange,
                number => ListingError::Unknown { number },
            };
            assert_eq!(ListingError::check(number), Err(wanted));
        }
        let later: Ask = |_, _, _, _| 8;
        assert_eq!(fails(later), (0, ListingError::Unknown { number: 8 }));
    }

    #[test]
    fn what_is_told_is_held_against_the_text() {
        let not = (0, ListingError::NotUnderstood { at: 0 });
        let none: Ask = |_, _, out, told| write("", 0, 0, out, told);
        assert_eq!(fails(none), not);
        let passed: Ask = |_, _, out, told| write("", 0, 6, out, told);
        assert_eq!(fails(passed), not);
        let one: Ask = |_, _, out, told| write(LINES, 1, 6, out, told);
        assert_eq!(fails(one), not);
        let beyond: Ask = |_, _, out, told| write(LINES, 2, 7, out, told);
        assert_eq!(fails(beyond), not);
        let no_end: Ask = |_, _, out, told| write("FFFFFE\tLR\t1,2\n000", 1, 6, out, told);
        assert_eq!(fails(no_end), not);
        let no_room: Ask = |_, _, out, told| {
            told.copy_from_slice(&[1, 6, out.len() + 1]);
            raw::COMPLETED
        };
        assert_eq!(fails(no_room), not);
    }

    #[test]
    fn addresses_are_held_against_the_code() {
        let not = |lines, at| (lines, ListingError::NotUnderstood { at });
        let other: Ask = |_, _, out, told| write("FFFFFC\tLR\t1,2\n", 1, 6, out, told);
        assert_eq!(fails(other), not(0, 0));
        let twice: Ask =
            |_, _, out, told| write("FFFFFE\tLR\t1,2\nFFFFFE\tLR\t1,2\n", 2, 6, out, told);
        assert_eq!(fails(twice), not(0, 0));
        let none_left: Ask = |_, _, out, told| write(LINES, 2, 2, out, told);
        assert_eq!(fails(none_left), not(0, 0));
        let far: Ask =
            |_, _, out, told| write("FFFFFE\tLR\t1,2\n000010\tLR\t1,2\n", 2, 6, out, told);
        assert_eq!(fails(far), not(0, 0));
        let no_operands: Ask =
            |_, _, out, told| write("FFFFFE\tLR\t1,2\n000000\tLA\n", 2, 6, out, told);
        assert_eq!(fails(no_operands), not(1, 2));
    }

    #[test]
    fn a_library_that_does_not_get_on_ends_it() {
        let stuck: Ask = |code, _, out, told| match code.len() {
            6 => write("FFFFFE\tLR\t1,2\n", 1, 2, out, told),
            _ => write("", 0, 0, out, told),
        };
        assert_eq!(fails(stuck), (1, ListingError::NotUnderstood { at: 2 }));
    }

    #[test]
    fn it_goes_on_in_every_room() {
        let code: Vec<u8> = (0..=255).chain([0xD2; 7]).chain([0x47]).collect();
        let all = |room| {
            let listing = Listing::of(raw::list, room, &code, START).expect("a listing");
            let lines: Result<Vec<_>, _> = listing.collect();
            lines.expect("no error")
        };
        let whole = all(1 << 16);
        for room in raw::LINE_LONGEST..=600 {
            assert_eq!(all(room), whole, "a room of {room}");
        }
    }

    #[test]
    fn what_an_error_says() {
        let said = |error: ListingError| error.to_string();
        assert_eq!(
            said(ListingError::OutOfRange),
            "6, out of range: the start of a listing"
        );
        assert_eq!(
            said(ListingError::Unknown { number: 9 }),
            "9, a number of a later library"
        );
        assert_eq!(
            said(ListingError::NotUnderstood { at: 12 }),
            "the library's listing is not understood from code byte 12 on"
        );
    }
}
