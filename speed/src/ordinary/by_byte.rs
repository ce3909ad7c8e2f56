//! Storage by the byte: each is looked up, read, stored and marked through the map on its own.

use super::store::{onward, page_of, Access, Purpose, Refusal, Store, ACCESSED, WRITTEN};
use std::cmp::Ordering;

pub struct ByByte;

pub struct Field {
    address: u32,
    length: u32,
}

#[inline(always)]
fn fetch_byte(store: &mut Store, address: u32) -> Result<u8, Refusal> {
    let real = store.look(address, Purpose::Read)?;
    store.mark(page_of(address), ACCESSED);
    Ok(store.memory[real])
}

#[inline(always)]
fn read(store: &mut Store, address: u32) -> u8 {
    store.mark(page_of(address), ACCESSED);
    store.memory[store.real(address)]
}

#[inline(always)]
fn write(store: &mut Store, address: u32, byte: u8) {
    store.mark(page_of(address), ACCESSED | WRITTEN);
    let real = store.real(address);
    store.memory[real] = byte;
}

#[inline(always)]
fn look_all(store: &Store, address: u32, length: u32, purpose: Purpose) -> Result<(), Refusal> {
    for i in 0..length {
        store.look(onward(address, i), purpose)?;
    }
    Ok(())
}

impl Access for ByByte {
    type Code = ();
    type Short = u32;
    type Long = Field;

    #[inline(always)]
    fn fetch(store: &mut Store, counter: u32) -> Result<([u8; 2], ()), Refusal> {
        let first = fetch_byte(store, counter)?;
        Ok(([first, fetch_byte(store, onward(counter, 1))?], ()))
    }

    #[inline(always)]
    fn fetch_more<const N: usize>(
        store: &mut Store,
        counter: u32,
        _: (),
    ) -> Result<[u8; N], Refusal> {
        let mut bytes = [0; N];
        for (i, byte) in (2..).zip(&mut bytes) {
            *byte = fetch_byte(store, onward(counter, i))?;
        }
        Ok(bytes)
    }

    #[inline(always)]
    fn short<const N: usize>(
        store: &Store,
        address: u32,
        purpose: Purpose,
    ) -> Result<u32, Refusal> {
        look_all(store, address, N as u32, purpose)?;
        Ok(address)
    }

    #[inline(always)]
    fn load<const N: usize>(store: &mut Store, at: u32) -> [u8; N] {
        std::array::from_fn(|i| read(store, onward(at, i as u32)))
    }

    #[inline(always)]
    fn peek<const N: usize>(store: &Store, at: u32) -> [u8; N] {
        std::array::from_fn(|i| store.memory[store.real(onward(at, i as u32))])
    }

    #[inline(always)]
    fn save<const N: usize>(store: &mut Store, at: u32, bytes: [u8; N]) {
        for (i, byte) in (0..).zip(bytes) {
            write(store, onward(at, i), byte);
        }
    }

    #[inline]
    fn long(
        store: &Store,
        address: u32,
        length: usize,
        purpose: Purpose,
    ) -> Result<Field, Refusal> {
        let length = length as u32;
        look_all(store, address, length, purpose)?;
        Ok(Field { address, length })
    }

    #[inline]
    fn load_long(store: &mut Store, field: &Field, into: &mut [u8]) {
        for (i, byte) in (0..field.length).zip(into) {
            *byte = read(store, onward(field.address, i));
        }
    }

    #[inline]
    fn save_long(store: &mut Store, field: &Field, bytes: &[u8]) {
        for (i, byte) in (0..field.length).zip(bytes) {
            write(store, onward(field.address, i), *byte);
        }
    }

    #[inline]
    fn move_long(store: &mut Store, to: &Field, from: &Field) {
        for i in 0..to.length {
            let byte = read(store, onward(from.address, i));
            write(store, onward(to.address, i), byte);
        }
    }

    /// All bytes are read, since all of them mark their pages.
    #[inline]
    fn compare_long(store: &mut Store, first: &Field, second: &Field) -> Ordering {
        let mut found = Ordering::Equal;
        for i in 0..first.length {
            let one = read(store, onward(first.address, i));
            let other = read(store, onward(second.address, i));
            found = found.then(one.cmp(&other));
        }
        found
    }
}
