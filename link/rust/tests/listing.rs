//! The library's listing beside the second program's, byte for byte: answer, text, and the output where nothing is written.
use second::listing::{list, Listed};
use second::operations::OPERATIONS;
use second::seen::Seen;
use second::stretches::{cases, Case};
use spectra46::raw;

const UNTOUCHED: u8 = 0xA5;

fn by_library(case: &Case) -> (Listed, Vec<u8>) {
    let mut out = vec![UNTOUCHED; case.room];
    let mut told = [usize::MAX; 3];
    let number = raw::list(&case.code, case.start, &mut out, &mut told);
    let [lines, next, written] = told;
    let listed = Listed {
        number,
        lines,
        next,
        written,
    };
    (listed, out)
}

fn by_second(case: &Case) -> (Listed, Vec<u8>) {
    let mut out = vec![UNTOUCHED; case.room];
    let listed = list(&case.code, case.start, &mut out);
    (listed, out)
}

/// Both answers do the same, and this is what they answer.
fn agreed(number: usize, case: &Case) -> Listed {
    let ((ours, text), (theirs, wanted)) = (by_library(case), by_second(case));
    let first = text.iter().zip(&wanted).position(|(a, b)| a != b);
    if ours != theirs || first.is_some() {
        let (start, room, size) = (case.start, case.room, case.code.len());
        let code = &case.code[..size.min(80)];
        panic!(
            "case {number}: start {start:X}, room {room}, {size} bytes of code {code:02X?}\n\
             library {ours:?}\nsecond {theirs:?}\nfirst byte of the output that differs {first:?}"
        );
    }
    ours
}

#[test]
fn the_same_listings() {
    let mut seen = Seen::default();
    for (number, case) in cases(1).enumerate() {
        let listed = agreed(number, &case);
        seen.add(&case, &listed);
    }
    assert!(seen.cases >= 10_000);
    assert_eq!(seen.first_bytes.len(), 256);
    assert_eq!(seen.operations.len(), OPERATIONS.len());
    assert!(seen.unknown > 0 && seen.cut_off > 0 && seen.lone > 0);
    assert!(seen.wraps > 0 && seen.short_of_room > 0 && seen.refused > 0);
}

#[test]
fn a_list_of_another_length_for_what_is_told() {
    for places in [0, 1, 2, 4] {
        let mut out = [UNTOUCHED; 40];
        let mut told = vec![usize::MAX; places];
        let number = raw::list(&[0x18, 0x12], 0, &mut out, &mut told);
        assert_eq!(number, raw::OUT_OF_RANGE);
        assert_eq!(told, vec![usize::MAX; places]);
        assert_eq!(out, [UNTOUCHED; 40]);
    }
}
