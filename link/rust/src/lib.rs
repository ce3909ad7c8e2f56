//! The Spectra 70/46 engine: every answer is that of functions proved in Rattle (crate `outer`), linked from `libouter.a`.
//!
//! ```
//! use spectra46::{Machine, Stop};
//!
//! let mut machine = Machine::new(65_536)?;
//! machine.pages[10] = 0x3003; // usable, nonprivileged, frame 3: real address 12,288
//! machine.memory[12_288..12_294].copy_from_slice(&[0x41, 0x10, 0x00, 0x05, 0x1E, 0x11]); // LA 1,5 and ALR 1,1
//! machine.counter = 0x00_A000;
//! let ran = machine.run(2);
//! assert_eq!((ran.count, ran.stop), (2, Stop::BudgetSpent));
//! assert_eq!(machine.registers[1], 10);
//! # Ok::<(), spectra46::WrongLibrary>(())
//! ```
//!
//! To read a program before it runs, [`listing()`] gives its instructions, one a line:
//!
//! ```
//! for line in spectra46::listing(&[0x41, 0x10, 0x00, 0x05, 0x1E, 0x11], 0x00_A000)? {
//!     println!("{}", line?); // 00A000, LA, 1,5(0,0); then 00A004, ALR, 1,1
//! }
//! # Ok::<(), spectra46::ListingError>(())
//! ```
//!
//! Whatever the library says that this crate does not know is an error: a number of a later version is [`Refusal::Unknown`] or
//! [`ListingError::Unknown`], and a library of another version makes no machine and no listing at all ([`WrongLibrary`]).
//!
//! Byte order: memory is bytes as the 70/46 has them, the highest byte of a word first. Registers, page words and all other numbers are
//! numbers of the host, whatever its byte order.
#![no_std]
#![deny(missing_docs)]
#![deny(unsafe_code)]

extern crate alloc;

mod library;
mod line;
mod listing;
mod machine;
pub mod raw;
mod refusal;

pub use library::{check_library, version, Built, Version, WrongLibrary, BUILT, VERSION};
pub use line::Line;
pub use listing::{listing, Listing, ListingError};
pub use machine::{Machine, Ran, Stop};
pub use refusal::Refusal;

use alloc::vec;
use alloc::vec::Vec;

/// The answer to a bench sheet, as the bench prints it; it is never empty.
///
/// ```
/// let sheet = "PAGE\t10\t3003\nBYTES\t12288\t41100005\nSTART\t00A000\t0\t0\nRUN\t1\n";
/// let answer = "STOP\t7\t000000\t1\nREG\t1\t00000005\nSTART\t00A004\t0\t0\nPAGE\t10\t7003\n";
/// assert_eq!(spectra46::answer(sheet.as_bytes())?, answer.as_bytes());
/// # Ok::<(), spectra46::WrongLibrary>(())
/// ```
pub fn answer(sheet: &[u8]) -> Result<Vec<u8>, WrongLibrary> {
    check_library()?;
    let mut room = vec![0; raw::ROOM];
    let length = raw::sheet(sheet, &mut room);
    room.truncate(length);
    Ok(room)
}
