//! A row as a call gets it: in memory whose every word is known, between guards.

use crate::{case::Row, random::Random};

pub struct Lent {
    memory: Vec<u64>,
    before: Vec<u64>,
    /// In bytes.
    start: usize,
    /// The bytes of an element.
    width: usize,
    pub len: usize,
}

fn bytes_of(memory: &[u64]) -> Vec<u8> {
    memory.iter().flat_map(|x| x.to_le_bytes()).collect()
}

impl Lent {
    fn of_words(random: &mut Random, row: &[u64]) -> Lent {
        let mut memory = guard(random);
        let start = 8 * memory.len();
        memory.extend_from_slice(row);
        memory.extend(guard(random));
        Lent { before: memory.clone(), memory, start, width: 8, len: row.len() }
    }

    /// At any byte.
    fn of_bytes(random: &mut Random, row: &[u8]) -> Lent {
        let start = 8 + random.index(8);
        let mut bytes = random.bytes(start);
        bytes.extend_from_slice(row);
        let rest = random.bytes(8 + (8 - bytes.len() % 8));
        bytes.extend(rest);
        let memory: Vec<u64> = bytes.chunks_exact(8).map(|x| u64::from_le_bytes(x.try_into().unwrap())).collect();
        Lent { before: memory.clone(), memory, start, width: 1, len: row.len() }
    }

    pub fn new(random: &mut Random, row: &Row) -> Lent {
        match row {
            Row::Bytes(bytes) | Row::WrittenBytes(bytes) => Lent::of_bytes(random, bytes),
            Row::Doubles(row) | Row::Elements(row) | Row::Aggregate(row) | Row::Written(row) => {
                Lent::of_words(random, row)
            }
        }
    }

    pub fn pointer<E>(&mut self) -> *mut E {
        // in the memory, or at its end
        unsafe { self.memory.as_mut_ptr().cast::<u8>().add(self.start).cast() }
    }

    /// The elements of the row as it is now.
    pub fn now(&self) -> Vec<u64> {
        match self.width {
            8 => self.memory[self.start / 8..][..self.len].to_vec(),
            _ => bytes_of(&self.memory)[self.start..][..self.len].iter().map(|x| u64::from(*x)).collect(),
        }
    }

    /// From here on the row is to stay as it is now.
    pub fn settle(&mut self) {
        self.before.clone_from(&self.memory);
    }

    /// Whether the row and its guards are as they were.
    pub fn is_unchanged(&self) -> bool {
        self.memory == self.before
    }

    /// Whether the guards alone are.
    pub fn has_its_guards(&self) -> bool {
        let (now, before) = (bytes_of(&self.memory), bytes_of(&self.before));
        let end = self.start + self.width * self.len;
        now[..self.start] == before[..self.start] && now[end..] == before[end..]
    }
}

/// A few words, so that rows begin at every multiple of 8 bytes.
fn guard(random: &mut Random) -> Vec<u64> {
    let len = 2 + random.index(8);
    random.words(len)
}
