//! Finds libouter.a, in the folder that SPECTRA46_LIB names or where it is built in this repository, and hands on what the text file
//! beside it says of its making.
use std::env;
use std::fs;
use std::path::{Path, PathBuf};

fn main() {
    println!("cargo::rerun-if-env-changed=SPECTRA46_LIB");
    match folder() {
        Ok(folder) => link(&folder),
        Err(message) => println!("cargo::error={message}"),
    }
}

/// The folder of the archive, or what to do about it that there is none.
fn folder() -> Result<PathBuf, String> {
    let folder = match env::var_os("SPECTRA46_LIB") {
        // Cargo runs this file and the linker in different folders.
        Some(given) if Path::new(&given).is_relative() => {
            return Err("SPECTRA46_LIB has to name a folder from the root on".to_string());
        }
        Some(given) => PathBuf::from(given),
        None => top().join("target").join("staticlib"),
    };
    if folder.join("libouter.a").is_file() {
        return Ok(folder);
    }
    let shown = folder.display();
    Err(format!(
        "no libouter.a in {shown}: run 'scripts/build outer' at the top of the repository, or let SPECTRA46_LIB name the folder that has it"
    ))
}

/// The repository's top, two folders above this one.
fn top() -> PathBuf {
    let here = PathBuf::from(env::var_os("CARGO_MANIFEST_DIR").expect("cargo sets it"));
    here.ancestors().nth(2).unwrap_or(&here).to_path_buf()
}

fn link(folder: &Path) {
    println!("cargo::rerun-if-changed={}", folder.display());
    println!("cargo::rustc-link-search=native={}", folder.display());
    println!("cargo::rustc-link-lib=static=outer");
    let told = fs::read_to_string(folder.join("libouter.txt")).unwrap_or_default();
    for name in ["version", "toolchain", "commit"] {
        let value = value(&told, name).unwrap_or("unknown");
        let variable = name.to_uppercase();
        println!("cargo::rustc-env=SPECTRA46_BUILT_{variable}={value}");
    }
}

/// What stands after a name and a blank, in the line that begins with them.
fn value<'a>(told: &'a str, name: &str) -> Option<&'a str> {
    let values = told.lines().filter_map(|line| line.strip_prefix(name));
    let mut values = values.filter_map(|rest| rest.strip_prefix(' '));
    values
        .next()
        .map(str::trim)
        .filter(|value| !value.is_empty())
}
