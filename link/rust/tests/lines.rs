//! Typed lines beside the second program's, and listings that go on in rooms of every size.
use second::listing::{lines, ADDRESSES};
use second::stretches::{cases, Case};
use spectra46::{listing, raw, Line, ListingError};

fn all_lines(code: &[u8], start: u32) -> Vec<Line<'_>> {
    let lines: Result<Vec<_>, _> = listing(code, start).expect("a listing").collect();
    lines.expect("no error")
}

fn same_lines(case: &Case) {
    let ours = all_lines(&case.code, case.start);
    let theirs = lines(&case.code, case.start);
    assert_eq!(ours.len(), theirs.len());
    for (line, other) in ours.iter().zip(&theirs) {
        assert_eq!((line.address, line.bytes), (other.address, other.bytes));
        assert_eq!(format!("{line}\n"), other.text);
        let parts = format!("{:06X}\t{}\t{}", line.address, line.name(), line.operands());
        assert_eq!(line.text(), parts);
    }
    let bytes: Vec<u8> = ours.iter().flat_map(|line| line.bytes).copied().collect();
    assert_eq!(bytes, case.code);
}

#[test]
fn the_same_lines() {
    let (mut listed, mut refused) = (0, 0);
    for case in cases(2) {
        if case.start < ADDRESSES {
            same_lines(&case);
            listed += 1;
        } else {
            let error = listing(&case.code, case.start).err();
            assert_eq!(error, Some(ListingError::OutOfRange));
            refused += 1;
        }
    }
    assert!(listed >= 10_000 && refused > 0);
}

#[test]
fn no_code_has_no_line() {
    assert_eq!(all_lines(&[], 0), []);
}

/// The whole text, by calls that go on from one another, each with this much room.
fn text_by_calls(code: &[u8], start: u32, room: usize) -> Vec<u8> {
    let (mut text, mut at) = (Vec::new(), 0);
    while at < code.len() {
        let (mut out, mut told) = (vec![0; room], [0; raw::TOLD]);
        let address = (start + at as u32) % ADDRESSES;
        let number = raw::list(&code[at..], address, &mut out, &mut told);
        assert_eq!(number, raw::COMPLETED);
        let [lines, next, written] = told;
        assert!(lines > 0, "a room of {room} got no line at byte {at}");
        text.extend(&out[..written]);
        at += next;
    }
    text
}

/// Every first byte, the longest line, an instruction that is cut off, and a lone byte.
fn some_code() -> Vec<u8> {
    let longest = [0xD2, 0xFF, 0xFF, 0xFF, 0xFF, 0xFF];
    let first_bytes = (0..=255).flat_map(|byte| [byte, 0xFF, 0xAB, 0xCD]);
    first_bytes
        .chain(longest)
        .chain([0x47, 0x10, 0x47])
        .collect()
}

#[test]
fn it_goes_on_in_rooms_of_every_size() {
    let (code, start) = (some_code(), ADDRESSES - 100);
    let text: String = all_lines(&code, start)
        .iter()
        .map(|line| format!("{line}\n"))
        .collect();
    for room in (raw::LINE_LONGEST..=1_000).chain([text.len(), text.len() + 1]) {
        assert_eq!(
            text_by_calls(&code, start, room),
            text.as_bytes(),
            "a room of {room}"
        );
    }
}

#[test]
fn the_longest_line_needs_all_of_its_room() {
    let (mut out, mut told) = ([7; raw::LINE_LONGEST], [9; raw::TOLD]);
    let code = [0xD2, 0xFF, 0xFF, 0xFF, 0xFF, 0xFF];
    let (short, _) = out.split_at_mut(raw::LINE_LONGEST - 1);
    assert_eq!(raw::list(&code, 0, short, &mut told), raw::COMPLETED);
    assert_eq!((out, told), ([7; raw::LINE_LONGEST], [0, 0, 0]));
    assert_eq!(raw::list(&code, 0, &mut out, &mut told), raw::COMPLETED);
    assert_eq!(&out, b"000000\tMVC\t4095(256,15),4095(15)\n");
    assert_eq!(told, [1, 6, raw::LINE_LONGEST]);
}
