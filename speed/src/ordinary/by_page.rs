//! Storage by the page: what lies within a page is looked up once, marked once, and moved as a slice.

use super::store::{onward, page_of, Access, Purpose, Refusal, Store, ACCESSED, WRITTEN};
use std::cmp::Ordering;

pub struct ByPage;

#[derive(Clone, Copy)]
pub struct Place {
    real: usize,
    page: usize,
}

/// Bytes in a row within a page.
#[derive(Clone, Copy)]
pub struct Stretch {
    real: usize,
    page: usize,
    length: usize,
}

/// A field of at most 256 bytes has at most two stretches; the second has no bytes where one is enough.
pub struct Field {
    first: Stretch,
    second: Stretch,
}

impl Field {
    fn length(&self) -> usize {
        self.first.length + self.second.length
    }

    /// The real address of the byte at `offset`, and how many bytes from there on lie in the same stretch.
    fn rest(&self, offset: usize) -> (usize, usize) {
        if offset < self.first.length {
            (self.first.real + offset, self.first.length - offset)
        } else {
            let offset = offset - self.first.length;
            (self.second.real + offset, self.second.length - offset)
        }
    }

    /// Whether it lies in one page.
    fn whole(&self) -> bool {
        self.second.length == 0
    }

    #[inline(always)]
    fn mark(&self, store: &mut Store, marks: u16) {
        store.mark(self.first.page, marks);
        if !self.whole() {
            store.mark(self.second.page, marks);
        }
    }
}

#[inline(always)]
fn bytes_at<const N: usize>(store: &Store, real: usize) -> [u8; N] {
    let mut bytes = [0; N];
    bytes.copy_from_slice(&store.memory[real..real + N]);
    bytes
}

#[inline(always)]
fn stretch(
    store: &Store,
    address: u32,
    length: usize,
    purpose: Purpose,
) -> Result<Stretch, Refusal> {
    let real = store.look(address, purpose)?;
    Ok(Stretch {
        real,
        page: page_of(address),
        length: length.min(store.room(address)),
    })
}

/// The bytes after the first halfword where a page ends among them or before them.
#[cold]
#[inline(never)]
fn fetch_over_an_edge<const N: usize>(store: &mut Store, counter: u32) -> Result<[u8; N], Refusal> {
    let mut bytes = [0; N];
    for (i, half) in (1..).zip(bytes.chunks_exact_mut(2)) {
        let address = onward(counter, 2 * i);
        let real = store.look(address, Purpose::Read)?;
        store.mark(page_of(address), ACCESSED);
        half.copy_from_slice(&store.memory[real..real + 2]);
    }
    Ok(bytes)
}

/// A move between two stretches of real memory: as a slice where they do not overlap, and byte by byte where they do.
#[inline(always)]
fn move_stretch(memory: &mut [u8], to: usize, from: usize, length: usize) {
    if to + length <= from || from + length <= to {
        memory.copy_within(from..from + length, to);
    } else {
        for i in 0..length {
            memory[to + i] = memory[from + i];
        }
    }
}

impl Access for ByPage {
    /// The first halfword's real address.
    type Code = usize;
    type Short = Place;
    type Long = Field;

    #[inline(always)]
    fn fetch(store: &mut Store, counter: u32) -> Result<([u8; 2], usize), Refusal> {
        let real = store.look(counter, Purpose::Read)?;
        store.mark(page_of(counter), ACCESSED);
        Ok((bytes_at(store, real), real))
    }

    #[inline(always)]
    fn fetch_more<const N: usize>(
        store: &mut Store,
        counter: u32,
        real: usize,
    ) -> Result<[u8; N], Refusal> {
        if store.room(counter) >= 2 + N {
            Ok(bytes_at(store, real + 2))
        } else {
            fetch_over_an_edge(store, counter)
        }
    }

    #[inline(always)]
    fn short<const N: usize>(
        store: &Store,
        address: u32,
        purpose: Purpose,
    ) -> Result<Place, Refusal> {
        let real = store.look(address, purpose)?;
        let page = page_of(address);
        Ok(Place { real, page })
    }

    #[inline(always)]
    fn load<const N: usize>(store: &mut Store, at: Place) -> [u8; N] {
        store.mark(at.page, ACCESSED);
        bytes_at(store, at.real)
    }

    #[inline(always)]
    fn peek<const N: usize>(store: &Store, at: Place) -> [u8; N] {
        bytes_at(store, at.real)
    }

    #[inline(always)]
    fn save<const N: usize>(store: &mut Store, at: Place, bytes: [u8; N]) {
        store.mark(at.page, ACCESSED | WRITTEN);
        store.memory[at.real..at.real + N].copy_from_slice(&bytes);
    }

    #[inline(always)]
    fn long(
        store: &Store,
        address: u32,
        length: usize,
        purpose: Purpose,
    ) -> Result<Field, Refusal> {
        let first = stretch(store, address, length, purpose)?;
        let second = if first.length == length {
            Stretch { length: 0, ..first }
        } else {
            let next = onward(address, first.length as u32);
            stretch(store, next, length - first.length, purpose)?
        };
        Ok(Field { first, second })
    }

    #[inline(always)]
    fn load_long(store: &mut Store, field: &Field, into: &mut [u8]) {
        field.mark(store, ACCESSED);
        let (left, right) = into.split_at_mut(field.first.length);
        left.copy_from_slice(&store.memory[field.first.real..][..field.first.length]);
        right.copy_from_slice(&store.memory[field.second.real..][..field.second.length]);
    }

    #[inline(always)]
    fn save_long(store: &mut Store, field: &Field, bytes: &[u8]) {
        field.mark(store, ACCESSED | WRITTEN);
        let (left, right) = bytes.split_at(field.first.length);
        store.memory[field.first.real..][..field.first.length].copy_from_slice(left);
        store.memory[field.second.real..][..field.second.length].copy_from_slice(right);
    }

    #[inline(always)]
    fn move_long(store: &mut Store, to: &Field, from: &Field) {
        from.mark(store, ACCESSED);
        to.mark(store, ACCESSED | WRITTEN);
        let length = to.length();
        let mut done = 0;
        while done < length {
            let (target, room) = to.rest(done);
            let (source, left) = from.rest(done);
            let part = room.min(left);
            move_stretch(store.memory, target, source, part);
            done += part;
        }
    }

    #[inline(always)]
    fn compare_long(store: &mut Store, first: &Field, second: &Field) -> Ordering {
        first.mark(store, ACCESSED);
        second.mark(store, ACCESSED);
        let length = first.length();
        let mut done = 0;
        while done < length {
            let (one, room) = first.rest(done);
            let (other, left) = second.rest(done);
            let part = room.min(left);
            let found = store.memory[one..one + part].cmp(&store.memory[other..other + part]);
            if found.is_ne() {
                return found;
            }
            done += part;
        }
        Ordering::Equal
    }
}
