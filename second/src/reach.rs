//! How far a look-up reaches: counted out, byte after byte.

use crate::machine::{page_of, Access, Machine, Refusal};

/// A byte that was found, and how many bytes there are from it on.
#[derive(Clone, Copy, Debug, PartialEq, Eq)]
pub struct Found {
    pub real: usize,
    /// The bytes from there on, this one among them, that lie in the same page
    /// and in memory under the same right.
    pub reach: u32,
}

impl Machine {
    /// Look up a byte, and say how far the answer reaches. Refused as the byte
    /// itself is, and only then.
    pub fn look_up_reach(&self, address: u32, access: Access) -> Result<Found, Refusal> {
        let real = self.look_up(address, access)?;
        let mut reach = 1;
        while self.goes_on(address, real, reach, access) {
            reach += 1;
        }
        Ok(Found { real, reach })
    }

    /// Is the byte so many places after a found one still in its page, found
    /// for the same access, and so many places after it in memory?
    fn goes_on(&self, address: u32, real: usize, places: u32, access: Access) -> bool {
        let next = address + places;
        page_of(next) == page_of(address)
            && self.look_up(next, access) == Ok(real + places as usize)
    }
}
