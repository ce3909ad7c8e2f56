//! The file VERSION, the C header, this crate and the library that is linked say the same.
use spectra46::{raw, BUILT, VERSION};
use std::fs;
use std::path::Path;

fn read(name: &str) -> String {
    let top = Path::new(env!("CARGO_MANIFEST_DIR")).join("../..");
    fs::read_to_string(top.join(name)).expect(name)
}

/// The number that the header has for a name: `#define NAME NUMBER`, or `NAME = NUMBER` of an enumeration.
fn of_header(header: &str, name: &str) -> u32 {
    let found = header.lines().find_map(|line| {
        let mut words = line.split([' ', '=', ',']).filter(|word| !word.is_empty());
        match words.next()? {
            "#define" => (words.next()? == name).then(|| words.next())?,
            first => (first == name).then(|| words.next())?,
        }
    });
    let number = found.unwrap_or_else(|| panic!("the header has no {name}"));
    number.parse().expect(name)
}

#[test]
fn versions() {
    let version = read("VERSION");
    assert_eq!(version.trim_end(), env!("CARGO_PKG_VERSION"));
    assert_eq!(version.trim_end(), VERSION.to_string());
    assert_eq!(spectra46::version(), VERSION);
    let header = read("link/include/spectra46.h");
    assert_eq!(raw::version(), of_header(&header, "SPECTRA46_VERSION"));
    let number = VERSION.major << 16 | VERSION.minor << 8 | VERSION.patch;
    assert_eq!(raw::version(), number);
    assert_eq!(spectra46::check_library(), Ok(()));
}

#[test]
fn numbers_of_the_header() {
    let header = read("link/include/spectra46.h");
    let all = [
        ("COMPLETED", raw::COMPLETED),
        ("ADDRESSING", raw::ADDRESSING),
        ("SPECIFICATION", raw::SPECIFICATION),
        ("PAGING_QUEUE", raw::PAGING_QUEUE),
        ("PAGING_ERROR", raw::PAGING_ERROR),
        ("OPERATION", raw::OPERATION),
        ("OUT_OF_RANGE", raw::OUT_OF_RANGE),
        ("BUDGET_SPENT", raw::BUDGET_SPENT),
        ("DIVIDE_ERROR", raw::DIVIDE_ERROR),
        ("PAGES", raw::PAGES as u32),
        ("REGISTERS", raw::REGISTERS as u32),
        ("REPLY", raw::REPLY as u32),
        ("ROOM", raw::ROOM as u32),
        ("TOLD", raw::TOLD as u32),
        ("LINE_LONGEST", raw::LINE_LONGEST as u32),
    ];
    for (name, number) in all {
        assert_eq!(
            of_header(&header, &format!("SPECTRA46_{name}")),
            number,
            "{name}"
        );
    }
}

#[test]
fn how_the_archive_was_made() {
    let version = read("VERSION");
    assert!([version.trim_end(), "unknown"].contains(&BUILT.version));
    assert!(!BUILT.toolchain.is_empty() && !BUILT.commit.is_empty());
}
