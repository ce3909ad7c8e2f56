//! A line of a listing, taken apart.

use alloc::string::String;
use core::fmt;
use core::ops::Range;
use core::str;

/// Addresses lie below this and wrap at it.
pub(crate) const ADDRESSES: u64 = 1 << 24;

/// How many digits an address has.
const DIGITS: usize = 6;

/// The name of a line that stands for raw bytes.
const RAW: &str = "DC";

/// A line of a listing. It is shown as the library wrote it, without the LF.
#[derive(Clone, Debug, PartialEq, Eq, Hash)]
pub struct Line<'a> {
    /// Where its first byte lies, below 2^24.
    pub address: u32,
    /// The bytes of the code that it stands for.
    pub bytes: &'a [u8],
    text: String,
    name: Range<usize>,
}

impl<'a> Line<'a> {
    pub(crate) fn new(text: Text<'_>, bytes: &'a [u8]) -> Line<'a> {
        Line {
            address: text.address,
            bytes,
            text: String::from(text.whole),
            name: text.name,
        }
    }

    /// The whole line, without its LF: address, name and operands, parted by tabs.
    #[must_use]
    pub fn text(&self) -> &str {
        &self.text
    }

    /// The operation's name, or `DC`.
    #[must_use]
    pub fn name(&self) -> &str {
        &self.text[self.name.clone()]
    }

    /// The operands, every field of them; of a line `DC` the raw bytes. Section 12 of docs/RULES.md has their form.
    #[must_use]
    pub fn operands(&self) -> &str {
        &self.text[self.name.end + 1..]
    }

    /// Whether it stands for an instruction, and not for raw bytes.
    #[must_use]
    pub fn is_instruction(&self) -> bool {
        self.name() != RAW
    }
}

impl fmt::Display for Line<'_> {
    fn fmt(&self, f: &mut fmt::Formatter<'_>) -> fmt::Result {
        f.pad(&self.text)
    }
}

/// A line as the library wrote it, without its LF.
#[derive(Clone, Debug, PartialEq, Eq)]
pub(crate) struct Text<'a> {
    pub(crate) address: u32,
    whole: &'a str,
    /// Where in the whole the name is.
    name: Range<usize>,
}

impl<'a> Text<'a> {
    /// From three fields parted by tabs: an address, and two that have nothing but characters that can be seen.
    fn of(whole: &'a [u8]) -> Option<Text<'a>> {
        let whole = str::from_utf8(whole).ok()?;
        let mut fields = whole.split('\t');
        let (address, name, operands) = (fields.next()?, fields.next()?, fields.next()?);
        let is_word = |word: &str| !word.is_empty() && word.bytes().all(|b| b.is_ascii_graphic());
        if fields.next().is_some() || !is_word(name) || !is_word(operands) {
            return None;
        }
        let from = address.len() + 1;
        Some(Text {
            address: address_of(address.as_bytes())?,
            whole,
            name: from..from + name.len(),
        })
    }

    /// The first of some lines, and the others.
    pub(crate) fn first(lines: &'a [u8]) -> Option<(Text<'a>, &'a [u8])> {
        let end = lines.iter().position(|byte| *byte == b'\n')?;
        Some((Text::of(&lines[..end])?, &lines[end + 1..]))
    }

    /// How many bytes of code lie between this line's address and that of the first of the lines behind it.
    pub(crate) fn size_before(&self, lines: &[u8]) -> Option<usize> {
        let next = u64::from(address_of(lines.get(..DIGITS)?)?);
        Some(((next + ADDRESSES - u64::from(self.address)) % ADDRESSES) as usize)
    }
}

fn address_of(digits: &[u8]) -> Option<u32> {
    let is_digit = |byte: &u8| matches!(byte, b'0'..=b'9' | b'A'..=b'F');
    if digits.len() != DIGITS || !digits.iter().all(is_digit) {
        return None;
    }
    u32::from_str_radix(str::from_utf8(digits).ok()?, 16).ok()
}

#[cfg(test)]
mod tests {
    extern crate std;
    use super::{Line, Text};
    use std::string::ToString;

    fn line(text: &str) -> Line<'_> {
        Line::new(Text::of(text.as_bytes()).expect(text), &[])
    }

    #[test]
    fn a_line_has_three_fields() {
        let line = line("00A004\tMVC\t0(256,1),4095(15)");
        assert_eq!(line.address, 0x00_A004);
        assert_eq!((line.name(), line.operands()), ("MVC", "0(256,1),4095(15)"));
        assert_eq!(line.text(), "00A004\tMVC\t0(256,1),4095(15)");
        assert_eq!(line.to_string(), line.text());
    }

    #[test]
    fn raw_bytes_are_no_instruction() {
        assert!(line("00A000\tLR\t1,2").is_instruction());
        assert!(!line("00A000\tDC\tX'1812'").is_instruction());
    }

    #[test]
    fn what_is_no_line() {
        for text in [
            "",
            "00A000",
            "00A000\tLR",
            "00A000\tLR\t",
            "00A000\t\t1,2",
            "00A000\tLR\t1,2\t",
            "00A000\tLR\t1,2\tX",
            "00A000\tLR\t1, 2",
            "00A000\tLR\t1,2\r",
            "00A000 LR 1,2",
            "00a000\tLR\t1,2",
            "0A000\tLR\t1,2",
            "000A000\tLR\t1,2",
            "+0A000\tLR\t1,2",
            "00A000\tLR\t1,é",
        ] {
            assert_eq!(Text::of(text.as_bytes()), None, "{text:?}");
        }
        assert_eq!(Text::of(b"00A000\tLR\t1,\xFF"), None);
    }

    #[test]
    fn a_line_ends_in_lf() {
        let lines = b"00A000\tLR\t1,2\n00A002\tLR\t";
        let (first, others) = Text::first(lines).expect("a line");
        assert_eq!((first.whole, others), ("00A000\tLR\t1,2", &lines[14..]));
        assert_eq!(Text::first(others), None);
    }

    #[test]
    fn sizes_go_by_addresses_that_wrap() {
        let text = Text::of(b"FFFFFC\tLA\t1,5(0,0)").expect("a line");
        assert_eq!(text.size_before(b"FFFFFE\tLR\t1,2\n"), Some(2));
        assert_eq!(text.size_before(b"000002"), Some(6));
        assert_eq!(text.size_before(b"FFFFFC"), Some(0));
        assert_eq!(text.size_before(b"FFFFF"), None);
        assert_eq!(text.size_before(b""), None);
    }
}
