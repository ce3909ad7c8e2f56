//! The machine and the listing are witnesses of their own: what goes from a sheet to its answer, or from code to its listing, uses
//! nothing of the repository but itself.
use std::fs;
use std::path::Path;

const OWN: [&str; 10] = [
    "machine",
    "reach",
    "actions",
    "pairs",
    "results",
    "wide",
    "operations",
    "sheet",
    "print",
    "listing",
];

/// The word that follows each place where `path` stands.
fn named_after<'a>(text: &'a str, path: &str) -> Vec<&'a str> {
    let ends = |c: char| !c.is_alphanumeric() && c != '_';
    text.split(path)
        .skip(1)
        .map(|rest| rest.split(ends).next().unwrap_or(""))
        .collect()
}

#[test]
fn machine_and_listing_use_themselves_alone() {
    let folder = Path::new(env!("CARGO_MANIFEST_DIR")).join("src");
    let mut uses = 0;
    for name in OWN {
        let text = fs::read_to_string(folder.join(name).with_extension("rs")).expect(name);
        for used in named_after(&text, "crate::") {
            assert!(OWN.contains(&used), "{name} uses {used}");
            uses += 1;
        }
        for used in named_after(&text, "\nuse ") {
            assert!(
                ["crate", "std", "self"].contains(&used),
                "{name} uses {used}"
            );
        }
        // `super::*` is what a file's own tests say.
        let above = named_after(&text, "super::");
        assert!(
            above.iter().all(|used| used.is_empty()),
            "{name}: {above:?}"
        );
        for foreign in ["common::", "include!", "extern crate"] {
            assert!(!text.contains(foreign), "{name} has {foreign}");
        }
    }
    assert!(uses >= 6, "no use was found at all");
}
