//! The listing, against lines worked out by hand, and back to its bytes.

mod assemble;

use assemble::assemble;
use common::bytes::from_hex;
use common::dice::Dice;
use second::listing::{lines, list, Listed};
use second::operations::{find, length};

/// What stands in the output where nothing is written.
const UNTOUCHED: u8 = 0xA5;

/// The answer for a room of this size, and what the room holds then.
fn listed(code: &[u8], start: u32, room: usize) -> (Listed, Vec<u8>) {
    let mut out = vec![UNTOUCHED; room];
    let listed = list(code, start, &mut out);
    (listed, out)
}

/// Code lists whole as this text, in which blanks stand for tabs.
fn gives(code: &str, start: u32, text: &str) {
    let code = from_hex(code);
    let wanted = text.replace(' ', "\t");
    let all: String = lines(&code, start).into_iter().map(|l| l.text).collect();
    assert_eq!(all, wanted);
    let (answer, out) = listed(&code, start, wanted.len());
    assert_eq!(out, wanted.as_bytes());
    let whole = Listed {
        number: 0,
        lines: wanted.lines().count(),
        next: code.len(),
        written: wanted.len(),
    };
    assert_eq!(answer, whole);
}

#[test]
fn a_whole_listing() {
    gives(
        "41100005 D2FF1000FFFF 89190020 95C12007 07FE FFFF 4710 47",
        0x00_A000,
        "00A000 LA 1,5(0,0)\n\
         00A004 MVC 0(256,1),4095(15)\n\
         00A00A SLL 1,9,32(0)\n\
         00A00E CLI 7(2),X'C1'\n\
         00A012 BCR 15,14\n\
         00A014 DC X'FFFF'\n\
         00A016 DC X'4710'\n\
         00A018 DC X'47'\n",
    );
}

#[test]
fn registers() {
    gives("1800", 0, "000000 LR 0,0\n");
    gives("1EFF", 0, "000000 ALR 15,15\n");
    gives("05A9", 0, "000000 BALR 10,9\n");
    gives("0700", 0, "000000 BCR 0,0\n");
}

#[test]
fn register_and_indexed_storage() {
    gives("58000000", 0, "000000 L 0,0(0,0)\n");
    gives("47FFFFFF", 0, "000000 BC 15,4095(15,15)\n");
    gives("50123456", 0, "000000 ST 1,1110(2,3)\n");
}

#[test]
fn registers_and_storage() {
    gives("98000000", 0, "000000 LM 0,0,0(0)\n");
    gives("86FFFFFF", 0, "000000 BXH 15,15,4095(15)\n");
    gives("90E3C048", 0, "000000 STM 14,3,72(12)\n");
    gives("881F0001", 0, "000000 SRL 1,15,1(0)\n");
}

#[test]
fn multiply_divide_and_signed_shifts() {
    gives("1C24", 0, "000000 MR 2,4\n");
    // An odd first register is the machine's to refuse, not the listing's.
    gives("1D31", 0, "000000 DR 3,1\n");
    gives(
        "49123456 4A123456 4B123456 4C123456",
        0,
        "000000 CH 1,1110(2,3)\n000004 AH 1,1110(2,3)\n000008 SH 1,1110(2,3)\n00000C MH 1,1110(2,3)\n",
    );
    gives(
        "5C20F004 5DE0B010",
        0,
        "000000 M 2,4(0,15)\n000004 D 14,16(0,11)\n",
    );
    gives(
        "8A10001F 8B1F203F",
        0,
        "000000 SRA 1,0,31(0)\n000004 SLA 1,15,63(2)\n",
    );
    gives(
        "8E200020 8F20F001",
        0,
        "000000 SRDA 2,0,32(0)\n000004 SLDA 2,0,1(15)\n",
    );
    // The logical double shifts between them are not in the set.
    gives("8C20", 0, "000000 DC X'8C20'\n");
    gives("8D20", 0, "000000 DC X'8D20'\n");
}

#[test]
fn storage_and_a_byte() {
    gives("92000000", 0, "000000 MVI 0(0),X'00'\n");
    gives("91FFFFFF", 0, "000000 TM 4095(15),X'FF'\n");
    gives("970A8010", 0, "000000 XI 16(8),X'0A'\n");
}

#[test]
fn storage_and_storage() {
    gives("D50000000000", 0, "000000 CLC 0(1,0),0(0)\n");
    gives("D2FFFFFFFFFF", 0, "000000 MVC 4095(256,15),4095(15)\n");
    gives("D20910642100", 0, "000000 MVC 100(10,1),256(2)\n");
}

#[test]
fn what_is_not_in_the_set() {
    gives("0A05", 0, "000000 DC X'0A05'\n");
    // SPM, CVB and EX are the manual's, not the set's; two bytes later the walk goes on.
    gives("0420", 0, "000000 DC X'0420'\n");
    gives("4F2018AB", 0, "000000 DC X'4F20'\n000002 LR 10,11\n");
    gives("44000700", 0, "000000 DC X'4400'\n000002 BCR 0,0\n");
    gives(
        "FC0012345678",
        0,
        "000000 DC X'FC00'\n000002 LTR 3,4\n000004 DC X'5678'\n",
    );
}

#[test]
fn what_the_end_cuts_off() {
    gives("41", 0, "000000 DC X'41'\n");
    gives("00", 0, "000000 DC X'00'\n");
    gives("4110", 0, "000000 DC X'4110'\n");
    gives("411018", 0, "000000 DC X'4110'\n000002 DC X'18'\n");
    gives("D2FF1812", 0, "000000 DC X'D2FF'\n000002 LR 1,2\n");
    gives(
        "D2FF47F018",
        0,
        "000000 DC X'D2FF'\n000002 DC X'47F0'\n000004 DC X'18'\n",
    );
    gives("181218", 0, "000000 LR 1,2\n000002 DC X'18'\n");
}

#[test]
fn no_code_no_line() {
    gives("", 0, "");
    gives("", 0xFF_FFFF, "");
    let (answer, out) = listed(&[], 5, 3);
    assert_eq!((answer, out), (Listed::default(), vec![UNTOUCHED; 3]));
}

#[test]
fn addresses_wrap() {
    gives(
        "41100005 1812 18",
        0xFF_FFFC,
        "FFFFFC LA 1,5(0,0)\n000000 LR 1,2\n000002 DC X'18'\n",
    );
    gives(
        "41100005 1812",
        0xFF_FFFF,
        "FFFFFF LA 1,5(0,0)\n000003 LR 1,2\n",
    );
    gives("FFFF 18", 0xFF_FFFE, "FFFFFE DC X'FFFF'\n000000 DC X'18'\n");
}

#[test]
fn a_start_out_of_range() {
    for start in [1 << 24, (1 << 24) + 1, u32::MAX] {
        for code in [&b""[..], b"\x18\x12"] {
            let (answer, out) = listed(code, start, 20);
            let refused = Listed {
                number: 6,
                ..Listed::default()
            };
            assert_eq!((answer, out), (refused, vec![UNTOUCHED; 20]));
        }
    }
}

/// LA, LR and DC: lines of 19, 14 and 18 bytes.
const THREE: &str = "41100005 1812 FFFF";

/// Lines, next and written for a room of this size; the rest of it is as it was.
fn fits(room: usize, wanted: (usize, usize, usize)) {
    let code = from_hex(THREE);
    let (answer, out) = listed(&code, 0, room);
    let (whole, text) = listed(&code, 0, 51);
    assert_eq!((whole.lines, whole.next, whole.written), (3, 8, 51));
    let told = (answer.lines, answer.next, answer.written);
    assert_eq!((answer.number, told), (0, wanted), "room {room}");
    assert_eq!(out[..answer.written], text[..answer.written]);
    assert!(out[answer.written..].iter().all(|byte| *byte == UNTOUCHED));
}

#[test]
fn a_line_that_does_not_fit_is_not_begun() {
    fits(0, (0, 0, 0));
    fits(18, (0, 0, 0));
    fits(19, (1, 4, 19));
    fits(20, (1, 4, 19));
    fits(32, (1, 4, 19));
    fits(33, (2, 6, 33));
    fits(34, (2, 6, 33));
    fits(50, (2, 6, 33));
    fits(51, (3, 8, 51));
    fits(52, (3, 8, 51));
    fits(10_000, (3, 8, 51));
}

#[test]
fn a_later_line_is_not_tried() {
    // The first line has 19 bytes; the second would fit with its 14.
    let (answer, out) = listed(&from_hex(THREE), 0, 15);
    assert_eq!((answer, out), (Listed::default(), vec![UNTOUCHED; 15]));
}

#[test]
fn going_on_gives_the_same_lines() {
    let mut dice = Dice::new(3);
    for _ in 0..200 {
        let code: Vec<u8> = (0..dice.below(60)).map(|_| dice.byte()).collect();
        let start = dice.pick(&[0, 0xFF_FFF0, 0xFF_FFFF, 0x12_3456]);
        let (mut next, mut text) = (0, Vec::new());
        while next < code.len() {
            // The longest line, an SS instruction of greatest fields, has 33 bytes.
            let room = 33 + dice.below(40) as usize;
            let at = (start + next as u32) % (1 << 24);
            let (answer, out) = listed(&code[next..], at, room);
            assert!(answer.lines > 0);
            text.extend(&out[..answer.written]);
            next += answer.next;
        }
        let (whole, all) = listed(&code, start, text.len());
        assert_eq!((whole.next, all), (code.len(), text));
    }
}

/// Reads every line back: its address follows the one before it, and its bytes together are the code.
fn reads_back(code: &[u8], start: u32) {
    let mut place = 0;
    for line in lines(code, start) {
        let address = (start + place as u32) % (1 << 24);
        let read = assemble(&line.text);
        assert_eq!(read, Some((address, line.bytes.to_vec())), "{}", line.text);
        assert_eq!(line.address, address);
        let size = line.bytes.len();
        assert_eq!(line.bytes, &code[place..place + size]);
        let whole = find(code[place]).map(|row| length(row.code) as usize);
        let wanted = whole.filter(|size| *size <= code.len() - place);
        assert_eq!(size, wanted.unwrap_or(2.min(code.len() - place)));
        place += size;
    }
    assert_eq!(place, code.len());
}

#[test]
fn every_first_halfword_reads_back() {
    let mut dice = Dice::new(1);
    for first in 0..=u16::MAX {
        let some: Vec<u8> = (0..5).map(|_| dice.byte()).collect();
        for tail in [&[][..], &[0; 4], &[0xFF; 4], &some[..4], &some] {
            let code = [&first.to_be_bytes()[..], tail].concat();
            reads_back(&code, dice.below(1 << 24));
        }
    }
}

#[test]
fn the_assembler_takes_no_other_spelling() {
    for text in [
        "000000\tLR\t1,2",
        "000000 LR 1,2\n",
        "00000\tLR\t1,2\n",
        "00000a\tLR\t1,2\n",
        "000000\tLR\t01,2\n",
        "000000\tLR\t1,16\n",
        "000000\tLR\t1,2 \n",
        "000000\tL\t1,4096(0,0)\n",
        "000000\tL\t1,5\n",
        "000000\tCLI\t7(2),X'c1'\n",
        "000000\tMVC\t0(0,1),0(2)\n",
        "000000\tMVC\t0(257,1),0(2)\n",
        "000000\tDC\tX'123'\n",
        "000000\tSVC\t5\n",
    ] {
        assert_eq!(assemble(text), None, "{text}");
    }
}
