//! The cases whose answers were written by hand.

use std::fs;
use std::path::Path;

/// Cases that must not go missing: the checks at the edges.
const NAMED: [&str; 24] = [
    "whole-case",
    "whole-case-run-2",
    "page-10-absent-110-open",
    "word-3403-at-2047",
    "word-3403-at-2048",
    "word-3603-at-0",
    "word-3803-load",
    "word-3803-store",
    "word-2003-code",
    "word-1043-code",
    "word-3043-code",
    "word-3010-code",
    "address-1FFFFF",
    "address-200000",
    "four-bytes-at-00AFFE",
    "ar-overflow",
    "lcr-of-80000000",
    "alr-to-zero",
    "alr-past-zero",
    "balr-link",
    "mvc-one-right",
    "bctr-on-0",
    "lh-of-8000",
    "sll-by-32",
];

#[test]
fn every_case_gives_its_answer() {
    let folder = Path::new(env!("CARGO_MANIFEST_DIR")).join("cases");
    let mut names = Vec::new();
    for entry in fs::read_dir(&folder).expect("the folder of cases") {
        let path = entry.expect("an entry").path();
        if path.extension().is_some_and(|end| end == "sheet") {
            let name = path.file_stem().expect("a name");
            names.push(name.to_string_lossy().into_owned());
        }
    }
    names.sort();
    assert!(names.len() >= 201, "only {} cases", names.len());
    for name in NAMED {
        assert!(names.iter().any(|other| other == name), "{name} is missing");
    }
    for name in &names {
        let sheet = fs::read(folder.join(format!("{name}.sheet"))).expect("a sheet");
        let expected = fs::read(folder.join(format!("{name}.answer"))).expect("an answer");
        let given = second::answer(&sheet);
        assert_eq!(
            String::from_utf8_lossy(&given),
            String::from_utf8_lossy(&expected),
            "{name}"
        );
    }
}

#[test]
fn sizes_at_the_limit() {
    // A single endless line of the largest size is misformed as line 1; one
    // byte more is refused before it is read.
    assert_eq!(second::answer(&vec![b'X'; 65_536]), b"BAD\t1\n");
    assert_eq!(second::answer(&vec![b'X'; 65_537]), b"BAD\t0\n");
    assert_eq!(second::answer(&vec![b'\n'; 65_536]), b"BAD\t1\n");
    assert_eq!(second::answer(&vec![b'\n'; 65_537]), b"BAD\t0\n");
}

#[test]
fn numbers_of_many_digits() {
    for budget in ["65535", "0"] {
        let sheet = format!("START\t00A000\t0\t0\nRUN\t{budget}\n");
        assert!(second::answer(sheet.as_bytes()).starts_with(b"STOP\t"));
    }
    for budget in [
        "65536",
        "4294967296",
        "4294967297",
        "18446744073709551616",
        "18446744073709551617",
        "340282366920938463463374607431768211457",
    ] {
        let sheet = format!("START\t00A000\t0\t0\nRUN\t{budget}\n");
        assert_eq!(second::answer(sheet.as_bytes()), b"BAD\t2\n", "{budget}");
    }
}
