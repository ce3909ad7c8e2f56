//! Instructions in bytes, by format, and the operation codes of those that programs are written with by name.

pub const BALR: u8 = 0x05;
pub const BCTR: u8 = 0x06;
pub const BCR: u8 = 0x07;
pub const LCR: u8 = 0x13;
pub const LR: u8 = 0x18;
pub const AR: u8 = 0x1A;
pub const STH: u8 = 0x40;
pub const LA: u8 = 0x41;
pub const STC: u8 = 0x42;
pub const IC: u8 = 0x43;
pub const BAL: u8 = 0x45;
pub const BCT: u8 = 0x46;
pub const BC: u8 = 0x47;
pub const ST: u8 = 0x50;
pub const L: u8 = 0x58;
pub const M: u8 = 0x5C;
pub const D: u8 = 0x5D;
pub const BXH: u8 = 0x86;
pub const BXLE: u8 = 0x87;
pub const STM: u8 = 0x90;
pub const MVI: u8 = 0x92;
pub const NI: u8 = 0x94;
pub const CLI: u8 = 0x95;
pub const OI: u8 = 0x96;
pub const XI: u8 = 0x97;
pub const LM: u8 = 0x98;
pub const MVC: u8 = 0xD2;
pub const CLC: u8 = 0xD5;

pub fn rr(code: u8, r1: u8, r2: u8) -> Vec<u8> {
    vec![code, r1 * 16 + r2]
}

pub fn rx(code: u8, r1: u8, x2: u8, b2: u8, d2: u32) -> Vec<u8> {
    vec![
        code,
        r1 * 16 + x2,
        b2 * 16 + (d2 / 256) as u8,
        (d2 % 256) as u8,
    ]
}

pub fn rs(code: u8, r1: u8, r3: u8, b2: u8, d2: u32) -> Vec<u8> {
    rx(code, r1, r3, b2, d2)
}

pub fn si(code: u8, immediate: u8, b1: u8, d1: u32) -> Vec<u8> {
    vec![
        code,
        immediate,
        b1 * 16 + (d1 / 256) as u8,
        (d1 % 256) as u8,
    ]
}

pub fn ss(code: u8, length: u8, b1: u8, d1: u32, b2: u8, d2: u32) -> Vec<u8> {
    let mut text = si(code, length, b1, d1);
    text.push(b2 * 16 + (d2 / 256) as u8);
    text.push((d2 % 256) as u8);
    text
}

#[cfg(test)]
mod tests {
    use super::*;
    use crate::set::SET;

    #[test]
    fn the_codes_are_those_of_the_set() {
        let all = [
            ("BALR", BALR),
            ("BCTR", BCTR),
            ("BCR", BCR),
            ("LCR", LCR),
            ("LR", LR),
            ("AR", AR),
            ("STH", STH),
            ("LA", LA),
            ("STC", STC),
            ("IC", IC),
            ("BAL", BAL),
            ("BCT", BCT),
            ("BC", BC),
            ("ST", ST),
            ("L", L),
            ("M", M),
            ("D", D),
            ("BXH", BXH),
            ("BXLE", BXLE),
            ("STM", STM),
            ("MVI", MVI),
            ("NI", NI),
            ("CLI", CLI),
            ("OI", OI),
            ("XI", XI),
            ("LM", LM),
            ("MVC", MVC),
            ("CLC", CLC),
        ];
        for (name, code) in all {
            let row = SET.iter().find(|one| one.name == name).expect(name);
            assert_eq!(row.operation, code, "{name}");
        }
    }

    #[test]
    fn fields_stand_where_the_formats_have_them() {
        assert_eq!(rr(AR, 1, 15), [0x1A, 0x1F]);
        assert_eq!(rx(L, 1, 2, 3, 0xABC), [0x58, 0x12, 0x3A, 0xBC]);
        assert_eq!(si(MVI, 0xC1, 3, 0xABC), [0x92, 0xC1, 0x3A, 0xBC]);
        let moved = ss(MVC, 255, 1, 0x002, 14, 0xFFF);
        assert_eq!(moved, [0xD2, 0xFF, 0x10, 0x02, 0xEF, 0xFF]);
    }
}
