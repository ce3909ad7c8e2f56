//! The cases for comparing listings: that nothing is missing among them, and what holds for each.

use second::listing::{lines, list, Listed, ADDRESSES};
use second::operations::OPERATIONS;
use second::seen::Seen;
use second::stretches::{cases, Case};

/// What stands in the output where nothing is written.
const UNTOUCHED: u8 = 0xA5;

fn listed(case: &Case) -> (Listed, Vec<u8>) {
    let mut out = vec![UNTOUCHED; case.room];
    let listed = list(&case.code, case.start, &mut out);
    (listed, out)
}

#[test]
fn nothing_is_missing() {
    let mut seen = Seen::default();
    for case in cases(1) {
        seen.add(&case, &listed(&case).0);
    }
    assert!(seen.cases >= 20_000 && seen.lines >= 100_000);
    assert_eq!(seen.first_bytes.len(), 256);
    assert_eq!(seen.first_halfwords.len(), 65_536);
    assert_eq!(seen.operations.len(), OPERATIONS.len());
    assert!((0..=40).all(|length| seen.lengths.contains(&length)));
    assert!(seen.unknown >= 1_000 && seen.cut_off >= 1_000 && seen.lone >= 1_000);
    assert!(seen.wraps >= 1_000 && seen.short_of_room >= 1_000 && seen.refused >= 1_000);
}

#[test]
fn starts_and_rooms_lie_at_the_edges() {
    let (mut starts, mut exact, mut less, mut more, mut none) = (Vec::new(), 0, 0, 0, 0);
    for case in cases(1) {
        let mut end = 0;
        for line in lines(&case.code, case.start) {
            end += line.text.len();
            exact += usize::from(case.room == end);
            less += usize::from(case.room + 1 == end);
            more += usize::from(case.room == end + 1);
        }
        none += usize::from(case.room == 0 && end > 0);
        starts.push(case.start);
    }
    for start in [0, ADDRESSES - 1, ADDRESSES, ADDRESSES + 1, u32::MAX] {
        assert!(starts.contains(&start), "{start}");
    }
    assert!([exact, less, more, none]
        .iter()
        .all(|count| *count >= 1_000));
}

#[test]
fn a_list_is_the_first_lines_that_fit() {
    for case in cases(2) {
        let (listed, out) = listed(&case);
        if case.start >= ADDRESSES {
            let number = 6;
            let refused = Listed {
                number,
                ..Listed::default()
            };
            assert_eq!(listed, refused);
            assert!(out.iter().all(|byte| *byte == UNTOUCHED));
            continue;
        }
        let all = lines(&case.code, case.start);
        let (first, later) = all.split_at(listed.lines);
        let text: String = first.iter().map(|line| line.text.as_str()).collect();
        assert_eq!(out[..listed.written], *text.as_bytes());
        assert!(out[listed.written..].iter().all(|byte| *byte == UNTOUCHED));
        let next: usize = first.iter().map(|line| line.bytes.len()).sum();
        assert_eq!((listed.number, listed.next), (0, next));
        let needs = later.first().map_or(usize::MAX, |line| line.text.len());
        assert!(needs > case.room - listed.written);
    }
}

#[test]
fn a_seed_has_its_own_cases() {
    let some = |seed| cases(seed).step_by(97).collect::<Vec<Case>>();
    assert_eq!(some(1), some(1));
    assert_ne!(some(1), some(2));
}
