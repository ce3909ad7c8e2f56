//! Which library is linked, and whether it is the one that this crate is for.

use crate::raw;
use core::error::Error;
use core::fmt;

/// A version of the library, or of this crate.
#[derive(Clone, Copy, Debug, PartialEq, Eq, PartialOrd, Ord, Hash)]
#[non_exhaustive]
pub struct Version {
    /// The first of its three numbers.
    pub major: u32,
    /// The second: while it stays, functions, lists and the reply's numbers stay as they are.
    pub minor: u32,
    /// The third.
    pub patch: u32,
}

/// This crate's version, which is that of the library that it is for.
pub const VERSION: Version = Version {
    major: decimal(env!("CARGO_PKG_VERSION_MAJOR")),
    minor: decimal(env!("CARGO_PKG_VERSION_MINOR")),
    patch: decimal(env!("CARGO_PKG_VERSION_PATCH")),
};

const fn decimal(digits: &str) -> u32 {
    let (digits, mut number, mut i) = (digits.as_bytes(), 0, 0);
    while i < digits.len() {
        number = 10 * number + (digits[i] - b'0') as u32;
        i += 1;
    }
    number
}

/// How the archive was made, as the file `libouter.txt` beside it says; `unknown` where it does not.
#[derive(Clone, Copy, Debug, PartialEq, Eq, Hash)]
#[non_exhaustive]
pub struct Built {
    /// The library's version.
    pub version: &'static str,
    /// The toolchain that proved and compiled it.
    pub toolchain: &'static str,
    /// The commit that it was built from.
    pub commit: &'static str,
}

/// How the archive was made that this crate was built with.
///
/// ```
/// println!("commit {}, toolchain {}", spectra46::BUILT.commit, spectra46::BUILT.toolchain);
/// ```
pub const BUILT: Built = Built {
    version: env!("SPECTRA46_BUILT_VERSION"),
    toolchain: env!("SPECTRA46_BUILT_TOOLCHAIN"),
    commit: env!("SPECTRA46_BUILT_COMMIT"),
};

/// The library that is linked is not one that this crate is for: nothing was asked of it.
#[derive(Clone, Copy, Debug, PartialEq, Eq, Hash)]
#[non_exhaustive]
#[must_use]
pub struct WrongLibrary {
    /// The version of the library that is linked.
    pub linked: Version,
}

impl Version {
    /// From the one number that the library has for it: major × 65,536 + minor × 256 + patch.
    const fn of(number: u32) -> Version {
        Version {
            major: number >> 16,
            minor: number >> 8 & 0xFF,
            patch: number & 0xFF,
        }
    }
}

impl fmt::Display for Version {
    fn fmt(&self, f: &mut fmt::Formatter<'_>) -> fmt::Result {
        write!(f, "{}.{}.{}", self.major, self.minor, self.patch)
    }
}

impl fmt::Display for WrongLibrary {
    fn fmt(&self, f: &mut fmt::Formatter<'_>) -> fmt::Result {
        let Version { major, minor, .. } = VERSION;
        let linked = self.linked;
        write!(
            f,
            "the library linked is {linked}, and this crate is for {major}.{minor}"
        )
    }
}

impl Error for WrongLibrary {}

/// The version of the library that is linked.
///
/// ```
/// assert_eq!(spectra46::version().minor, spectra46::VERSION.minor);
/// ```
#[must_use]
pub fn version() -> Version {
    Version::of(raw::version())
}

/// Whether the library that is linked has this crate's major and minor number. [`Machine::new`](crate::Machine::new),
/// [`answer`](crate::answer) and [`listing`](crate::listing()) ask it themselves; who calls [`raw`] has to.
pub fn check_library() -> Result<(), WrongLibrary> {
    check(raw::version())
}

fn check(number: u32) -> Result<(), WrongLibrary> {
    let linked = Version::of(number);
    if (linked.major, linked.minor) == (VERSION.major, VERSION.minor) {
        Ok(())
    } else {
        Err(WrongLibrary { linked })
    }
}

#[cfg(test)]
mod tests {
    extern crate std;
    use super::*;
    use std::format;
    use std::string::ToString;

    fn number(version: Version) -> u32 {
        version.major << 16 | version.minor << 8 | version.patch
    }

    #[test]
    fn a_version_there_and_back() {
        for number_of in [0, 1_024, 0x01_02_03, 0xFFFF_FFFF] {
            assert_eq!(number(Version::of(number_of)), number_of);
        }
        assert_eq!(Version::of(1_536).to_string(), "0.6.0");
        assert_eq!(decimal("1203"), 1203);
    }

    #[test]
    fn another_patch_will_do() {
        let own = number(VERSION);
        for patch in [0, 1, 255] {
            assert_eq!(check(own & !0xFF | patch), Ok(()));
        }
    }

    #[test]
    fn another_minor_or_major_will_not() {
        let own = number(VERSION);
        for other in [own + 0x100, own - 0x100, own + 0x1_0000, 0, u32::MAX] {
            let linked = Version::of(other);
            assert_eq!(check(other), Err(WrongLibrary { linked }));
        }
        let linked = Version::of(own + 0x100);
        let Version { major, minor, .. } = VERSION;
        let said = format!("the library linked is {linked}, and this crate is for {major}.{minor}");
        assert_eq!(WrongLibrary { linked }.to_string(), said);
    }
}
