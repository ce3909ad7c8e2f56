//! Sheets through the library: the repository's cases, and what no bench meets.
use spectra46::raw;
use std::fs;
use std::path::Path;

fn answer(sheet: &[u8]) -> Vec<u8> {
    spectra46::answer(sheet).expect("the library of this version")
}

fn same_answers(folder: &str) {
    let folder = Path::new(env!("CARGO_MANIFEST_DIR"))
        .join("../..")
        .join(folder);
    let mut met = 0;
    for entry in fs::read_dir(&folder).expect("the folder") {
        let sheet = entry.expect("an entry").path();
        if sheet.extension().is_some_and(|e| e == "sheet") {
            let expected =
                fs::read(sheet.with_extension("answer")).expect("an answer beside the sheet");
            let text = fs::read(&sheet).expect("the sheet");
            assert_eq!(answer(&text), expected, "{}", sheet.display());
            met += 1;
        }
    }
    assert!(met > 0, "no sheets in {}", folder.display());
}

#[test]
fn cases() {
    same_answers("second/cases");
}

#[test]
fn desk_examples() {
    same_answers("docs/desk/examples");
}

#[test]
fn too_long() {
    assert_eq!(answer(&[b'X'; 65_537]), b"BAD\t0\n");
    assert_eq!(answer(&[b'X'; 65_536]), b"BAD\t1\n");
    assert_eq!(answer(&[]), b"BAD\t1\n");
}

#[test]
fn a_room_of_a_wrong_size_is_left_alone() {
    for size in [0, 8_191, 8_193] {
        let mut room = vec![7; size];
        assert_eq!(raw::sheet(b"X\n", &mut room), 0);
        assert_eq!(room, vec![7; size]);
    }
}

#[test]
fn zeros_follow_the_answer() {
    let mut room = vec![7; 8_192];
    assert_eq!(raw::sheet(b"X\n", &mut room), 6);
    assert_eq!(&room[..6], b"BAD\t1\n");
    assert!(room[6..].iter().all(|byte| *byte == 0));
}
