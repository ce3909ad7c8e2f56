//! Memory behind the map: page words, the look-up of a byte, and what a way to reach storage has to offer.

use crate::machine::PAGES;
use std::cmp::Ordering;

pub const WRITTEN: u16 = 0x8000;
pub const ACCESSED: u16 = 0x4000;
const USABLE: u16 = 0x2000;
const NONPRIVILEGED: u16 = 0x1000;
const NOT_TO_BE_WRITTEN: u16 = 0x0800;
const HALF: u16 = 0x0400;
const UPPER: u16 = 0x0200;
const MUST_BE_ZERO: u16 = 0x01C0;
const FRAME: u16 = 0x003F;

/// The greatest virtual address.
pub const ADDRESS: u32 = 0xFF_FFFF;
const MAPPED: u32 = 0x20_0000;
const DISPLACEMENT: u32 = 0xFFF;
const HALF_PAGE: u32 = 2048;
const WHOLE_PAGE: u32 = 4096;

#[derive(Clone, Copy)]
pub struct Refusal {
    pub number: u32,
    pub place: u32,
}

pub const ADDRESSING: u32 = 1;
pub const SPECIFICATION: u32 = 2;
const PAGING_QUEUE: u32 = 3;
const PAGING_ERROR: u32 = 4;
pub const OPERATION: u32 = 5;
pub const DIVIDE_ERROR: u32 = 8;

#[cold]
pub fn refuse<T>(number: u32, place: u32) -> Result<T, Refusal> {
    Err(Refusal { number, place })
}

/// What a byte is looked up for. A fetch is a read.
#[derive(Clone, Copy, PartialEq, Eq)]
pub enum Purpose {
    Read,
    Write,
}

pub struct Store<'a> {
    pub memory: &'a mut [u8],
    pub map: &'a mut [u16; PAGES],
}

/// The page of an address that has been looked up.
#[inline(always)]
pub fn page_of(address: u32) -> usize {
    (address >> 12) as usize % PAGES
}

#[inline(always)]
pub fn onward(address: u32, bytes: u32) -> u32 {
    (address + bytes) & ADDRESS
}

#[inline(always)]
fn begin(word: u16) -> u32 {
    let upper = if word & (HALF | UPPER) == HALF | UPPER {
        HALF_PAGE
    } else {
        0
    };
    u32::from(word & FRAME) << 12 | upper
}

impl Store<'_> {
    /// A byte's real address, or why it has none. Most bytes lie in a whole page that is open to the access; the rest take the
    /// tests one by one.
    #[inline(always)]
    pub fn look(&self, address: u32, purpose: Purpose) -> Result<usize, Refusal> {
        if address >= MAPPED {
            return refuse(ADDRESSING, address);
        }
        let word = self.map[page_of(address)];
        let barred = match purpose {
            Purpose::Read => MUST_BE_ZERO | HALF,
            Purpose::Write => MUST_BE_ZERO | HALF | NOT_TO_BE_WRITTEN,
        };
        let real = (u32::from(word & FRAME) << 12 | address & DISPLACEMENT) as usize;
        let open = USABLE | NONPRIVILEGED;
        if word & (open | barred) == open && real < self.memory.len() {
            Ok(real)
        } else {
            self.look_closely(address, word, purpose)
        }
    }

    #[cold]
    #[inline(never)]
    fn look_closely(&self, address: u32, word: u16, purpose: Purpose) -> Result<usize, Refusal> {
        let displacement = address & DISPLACEMENT;
        if word & USABLE == 0 {
            return refuse(PAGING_QUEUE, address);
        }
        if word & MUST_BE_ZERO != 0
            || word & HALF != 0 && displacement >= HALF_PAGE
            || word & NONPRIVILEGED == 0
            || word & NOT_TO_BE_WRITTEN != 0 && purpose == Purpose::Write
        {
            return refuse(PAGING_ERROR, address);
        }
        let real = (begin(word) + displacement) as usize;
        if real < self.memory.len() {
            Ok(real)
        } else {
            refuse(ADDRESSING, address)
        }
    }

    /// The real address of a byte that has been looked up.
    #[inline(always)]
    pub fn real(&self, address: u32) -> usize {
        (begin(self.map[page_of(address)]) + (address & DISPLACEMENT)) as usize
    }

    /// How many bytes lie in its page from a byte that has been looked up onward.
    #[inline(always)]
    pub fn room(&self, address: u32) -> usize {
        let size = if self.map[page_of(address)] & HALF == 0 {
            WHOLE_PAGE
        } else {
            HALF_PAGE
        };
        (size - (address & DISPLACEMENT)) as usize
    }

    #[inline(always)]
    pub fn mark(&mut self, page: usize, marks: u16) {
        if self.map[page] & marks != marks {
            self.map[page] |= marks;
        }
    }
}

/// A way to reach storage. Fetching marks the pages that it reaches, whatever becomes of the instruction. Looking an operand up alters
/// nothing; loading and saving, which come after, set the marks of what they reach.
pub trait Access {
    /// Where an instruction was fetched from.
    type Code;
    /// 1, 2 or 4 bytes on their boundary: they lie in one page.
    type Short: Copy;
    /// Up to 256 bytes anywhere.
    type Long;

    fn fetch(store: &mut Store, counter: u32) -> Result<([u8; 2], Self::Code), Refusal>;
    /// The `N` bytes after the first halfword.
    fn fetch_more<const N: usize>(
        store: &mut Store,
        counter: u32,
        code: Self::Code,
    ) -> Result<[u8; N], Refusal>;

    fn short<const N: usize>(
        store: &Store,
        address: u32,
        purpose: Purpose,
    ) -> Result<Self::Short, Refusal>;
    fn load<const N: usize>(store: &mut Store, at: Self::Short) -> [u8; N];
    /// A load that sets no marks yet: what is loaded may still be refused.
    fn peek<const N: usize>(store: &Store, at: Self::Short) -> [u8; N];
    fn save<const N: usize>(store: &mut Store, at: Self::Short, bytes: [u8; N]);

    fn long(
        store: &Store,
        address: u32,
        length: usize,
        purpose: Purpose,
    ) -> Result<Self::Long, Refusal>;
    fn load_long(store: &mut Store, field: &Self::Long, into: &mut [u8]);
    fn save_long(store: &mut Store, field: &Self::Long, bytes: &[u8]);
    /// Byte by byte from the left, or as if it were so.
    fn move_long(store: &mut Store, to: &Self::Long, from: &Self::Long);
    fn compare_long(store: &mut Store, first: &Self::Long, second: &Self::Long) -> Ordering;
}
