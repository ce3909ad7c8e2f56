//! What a witness tells of one instruction, and whether a line agrees with it.

use common::bytes::from_hex;

/// Stands for a name or a figure that a witness does not tell.
pub const UNTOLD: &str = "?";

/// The shifts, which ignore R3, so that no witness tells it.
pub const SHIFTS: [&str; 6] = ["SLL", "SRL", "SLA", "SRA", "SLDA", "SRDA"];

/// One line of a witness, in the spelling of the listing.
#[derive(Clone, Debug, PartialEq, Eq)]
pub struct Told {
    pub address: u32,
    pub bytes: Vec<u8>,
    pub name: String,
    pub operands: String,
    /// The line as the witness has it.
    pub own: String,
}

impl Told {
    /// For tests: it says this, at A000.
    #[cfg(test)]
    pub fn spells(&self, name: &str, operands: &str) {
        let Told { own, .. } = self;
        assert_eq!(
            (&self.name[..], &self.operands[..]),
            (name, operands),
            "{own}"
        );
        assert_eq!(self.address, 0xA000, "{own}");
    }

    /// The line as the listing would have it.
    pub fn text(&self) -> String {
        let Told { name, operands, .. } = self;
        format!("{:06X}\t{name}\t{operands}\n", self.address)
    }

    /// Is there something in it that is not told?
    pub fn has_gap(&self) -> bool {
        self.text().contains(UNTOLD)
    }

    /// Does a line say the same, for as many bytes?
    pub fn agrees(&self, bytes: &[u8], text: &str) -> bool {
        self.bytes == bytes && is_like(&self.text(), text)
    }

    /// The line with one letter or digit changed, a different one for each number: one before or after all that is not told.
    pub fn slip(&self, text: &str, number: usize) -> String {
        let told = self.text();
        let before = told.find(UNTOLD).unwrap_or(told.len());
        let after = told.rfind(UNTOLD).map_or(0, |last| told.len() - last - 1);
        let is_told = |place: &usize| *place < before || place + after >= text.len();
        let is_figure = |place: &usize| text.as_bytes()[*place].is_ascii_alphanumeric();
        let places: Vec<usize> = (0..text.len()).filter(is_told).filter(is_figure).collect();
        let (before, rest) = text.split_at(places[number % places.len()]);
        let (old, after) = rest.split_at(1);
        let new = if old == "1" { "2" } else { "1" };
        [before, new, after].concat()
    }
}

/// The bytes that a witness shows, with or without blanks between them.
pub fn bytes_of(text: &str) -> Option<Vec<u8>> {
    let digits = text.replace(' ', "");
    let is_whole = digits.len() % 2 == 0 && digits.bytes().all(|c| c.is_ascii_hexdigit());
    is_whole.then(|| from_hex(&digits))
}

/// Is the text this pattern, with one or more letters and digits for each question mark?
fn is_like(pattern: &str, text: &str) -> bool {
    let mut pieces = pattern.split(UNTOLD);
    let first = pieces.next().unwrap_or("");
    let Some(mut rest) = text.strip_prefix(first) else {
        return false;
    };
    for piece in pieces {
        let after = rest.trim_start_matches(|c: char| c.is_ascii_alphanumeric());
        let Some(next) = after.strip_prefix(piece) else {
            return false;
        };
        if after.len() == rest.len() {
            return false;
        }
        rest = next;
    }
    rest.is_empty()
}

#[cfg(test)]
mod tests {
    use super::*;

    fn told(name: &str, operands: &str) -> Told {
        Told {
            address: 0xA000,
            bytes: vec![0x89, 0x19, 0x20, 0x1F],
            name: name.to_string(),
            operands: operands.to_string(),
            own: String::new(),
        }
    }

    const TEXT: &str = "00A000\tSLL\t1,9,31(2)\n";

    #[test]
    fn what_is_not_told_may_be_anything() {
        for (name, operands) in [
            ("SLL", "1,9,31(2)"),
            ("SLL", "1,?,31(2)"),
            ("?", "?,?,?(?)"),
        ] {
            let told = told(name, operands);
            assert!(told.agrees(&told.bytes, TEXT), "{operands}");
        }
    }

    #[test]
    fn every_other_line_is_found_out() {
        let bytes = told("", "").bytes;
        for operands in [
            "2,9,31(2)",
            "1,8,31(2)",
            "1,9,3(2)",
            "1,9,31(12)",
            "1,9,31",
            "1,?,30(2)",
            "1,31(2)",
            "1,9,31(2)?",
        ] {
            assert!(!told("SLL", operands).agrees(&bytes, TEXT), "{operands}");
        }
        assert!(!told("SRL", "1,9,31(2)").agrees(&bytes, TEXT));
        assert!(!told("SLL", "1,9,31(2)").agrees(&bytes[..2], TEXT));
        let elsewhere = Told {
            address: 0xA002,
            ..told("SLL", "1,9,31(2)")
        };
        assert!(!elsewhere.agrees(&bytes, TEXT));
    }

    #[test]
    fn every_slip_is_found_out() {
        for told in [
            told("SLL", "1,9,31(2)"),
            told("SLL", "1,?,31(2)"),
            told("?", "1,9,31(2)"),
            told("?", "?,?,?(?)"),
        ] {
            assert!(told.agrees(&told.bytes, TEXT));
            for number in 0..40 {
                let slip = told.slip(TEXT, number);
                assert!(slip != TEXT && !told.agrees(&told.bytes, &slip), "{slip}");
            }
        }
    }
}
