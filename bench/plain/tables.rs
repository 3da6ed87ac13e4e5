//! Slots that are given again, rows of bits, quick hashes and lists of circuits: what the indexes are made of.

use std::collections::HashMap;
use std::hash::{BuildHasherDefault, Hasher};

#[derive(Default, Clone, Copy)]
pub struct Quick(u64);

impl Quick {
    fn mix(&mut self, word: u64) {
        self.0 = (self.0 ^ word).wrapping_mul(0xf135_7aea_2e62_a9c5).rotate_left(26);
    }
}

impl Hasher for Quick {
    fn write(&mut self, bytes: &[u8]) {
        let (words, rest) = bytes.split_at(bytes.len() & !7);
        for word in words.chunks_exact(8) {
            self.mix(u64::from_le_bytes(word.try_into().expect("eight bytes")));
        }
        let mut last = 0;
        for byte in rest {
            last = last << 8 | u64::from(*byte);
        }
        self.mix(last);
    }

    fn write_u8(&mut self, byte: u8) {
        self.mix(u64::from(byte));
    }

    fn write_u32(&mut self, word: u32) {
        self.mix(u64::from(word));
    }

    fn write_u64(&mut self, word: u64) {
        self.mix(word);
    }

    fn finish(&self) -> u64 {
        self.0
    }
}

pub type Map<K, V> = HashMap<K, V, BuildHasherDefault<Quick>>;

/// Rows in slots; a slot that is free is given again.
pub struct Slab<T> {
    rows: Vec<Option<T>>,
    free: Vec<u32>,
}

impl<T> Default for Slab<T> {
    fn default() -> Slab<T> {
        Slab { rows: Vec::new(), free: Vec::new() }
    }
}

impl<T> Slab<T> {
    pub fn len(&self) -> usize {
        self.rows.len() - self.free.len()
    }

    pub fn put(&mut self, row: T) -> u32 {
        if let Some(slot) = self.free.pop() {
            self.rows[slot as usize] = Some(row);
            return slot;
        }
        self.rows.push(Some(row));
        self.rows.len() as u32 - 1
    }

    /// The slot that the next row gets.
    pub fn next_slot(&self) -> u32 {
        self.free.last().copied().unwrap_or(self.rows.len() as u32)
    }

    pub fn take(&mut self, slot: u32) -> T {
        self.free.push(slot);
        self.rows[slot as usize].take().expect("a row")
    }

    pub fn holds(&self, slot: u32) -> bool {
        self.rows.get(slot as usize).is_some_and(Option::is_some)
    }
}

impl<T> std::ops::Index<u32> for Slab<T> {
    type Output = T;
    fn index(&self, slot: u32) -> &T {
        self.rows[slot as usize].as_ref().expect("a row")
    }
}

impl<T> std::ops::IndexMut<u32> for Slab<T> {
    fn index_mut(&mut self, slot: u32) -> &mut T {
        self.rows[slot as usize].as_mut().expect("a row")
    }
}

/// A row of bits, one for each slot of a kind.
#[derive(Default, Clone)]
pub struct Bits(pub Vec<u64>);

impl Bits {
    pub fn has(&self, slot: u32) -> bool {
        self.0.get(slot as usize / 64).is_some_and(|word| word >> (slot % 64) & 1 == 1)
    }

    pub fn set(&mut self, slot: u32, to: bool) {
        let at = slot as usize / 64;
        if at >= self.0.len() {
            self.0.resize(at + 1, 0);
        }
        self.0[at] = self.0[at] & !(1 << (slot % 64)) | u64::from(to) << (slot % 64);
    }

    pub fn join(&mut self, other: &Bits) {
        if self.0.len() < other.0.len() {
            self.0.resize(other.0.len(), 0);
        }
        for (word, more) in self.0.iter_mut().zip(&other.0) {
            *word |= more;
        }
    }

    pub fn meet(&mut self, other: &Bits) {
        self.0.truncate(other.0.len());
        for (word, more) in self.0.iter_mut().zip(&other.0) {
            *word &= more;
        }
    }

    pub fn list(&self) -> Vec<u32> {
        let mut slots = Vec::new();
        for (at, word) in self.0.iter().enumerate() {
            let mut rest = *word;
            while rest != 0 {
                slots.push(at as u32 * 64 + rest.trailing_zeros());
                rest &= rest - 1;
            }
        }
        slots
    }
}

/// Takes one value out of a list whose order does not matter.
pub fn drop_from(list: &mut Vec<u32>, value: u32) {
    let at = list.iter().position(|it| *it == value).expect("in the list");
    list.swap_remove(at);
}
