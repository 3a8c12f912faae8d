//! Records: 20 bytes to a node, in memory as in the file.

use std::ops::Range;

pub const BYTES: usize = 20;

/// The kinds of nodes.
pub mod kind {
    pub const STRING: u8 = 1;
    pub const NUMBER: u8 = 2;
    pub const BOOLEAN: u8 = 3;
    pub const NULL: u8 = 4;
    pub const NAME: u8 = 5;
    pub const HOLE: u8 = 6;
    pub const SPREAD: u8 = 7;
    pub const ARRAY: u8 = 8;
    pub const STATIC: u8 = 9;
    pub const COMPUTED: u8 = 10;
    pub const CALL: u8 = 11;
    pub const TEMPLATE: u8 = 12;
    pub const QUASI: u8 = 13;
    pub const UNARY: u8 = 14;
    pub const BINARY: u8 = 15;
    pub const OPAQUE: u8 = 16;
}

/// A set of kinds.
#[derive(Clone, Copy)]
pub struct Kinds(u32);

impl Kinds {
    pub const fn of(kinds: &[u8]) -> Kinds {
        let mut set = 0;
        let mut i = 0;
        while i < kinds.len() {
            set |= 1 << kinds[i];
            i += 1;
        }
        Kinds(set)
    }

    pub const fn but(self) -> Kinds {
        Kinds(!self.0)
    }

    #[inline]
    pub fn contains(self, kind: u8) -> bool {
        self.0 >> (kind & 31) & 1 == 1
    }
}

/// A piece of the entries or of the text.
#[derive(Clone, Copy, Debug, PartialEq, Eq)]
pub struct Run {
    pub start: u32,
    pub len: u32,
}

impl Run {
    pub const EMPTY: Run = Run { start: 0, len: 0 };

    pub fn between(start: usize, end: usize) -> Run {
        Run { start: start as u32, len: (end - start) as u32 }
    }

    #[inline]
    pub fn range(self) -> Range<usize> {
        self.start as usize..self.start as usize + self.len as usize
    }
}

/// The fields of a record.
pub trait Fields {
    fn kind(&self) -> u8;
    fn flag(&self) -> u8;
    fn zeros(&self) -> u16;
    fn word(&self, k: usize) -> u32;
    fn set_word(&mut self, k: usize, value: u32);
    /// The piece that two words name.
    fn run(&self, k: usize) -> Run;
}

impl Fields for [u8; BYTES] {
    #[inline]
    fn kind(&self) -> u8 {
        self[0]
    }

    #[inline]
    fn flag(&self) -> u8 {
        self[1]
    }

    #[inline]
    fn zeros(&self) -> u16 {
        u16::from_le_bytes([self[2], self[3]])
    }

    #[inline]
    fn word(&self, k: usize) -> u32 {
        let (words, _) = self[4..].as_chunks();
        u32::from_le_bytes(words[k])
    }

    #[inline]
    fn set_word(&mut self, k: usize, value: u32) {
        self[4 + 4 * k..8 + 4 * k].copy_from_slice(&value.to_le_bytes());
    }

    #[inline]
    fn run(&self, k: usize) -> Run {
        Run { start: self.word(k), len: self.word(k + 1) }
    }
}

/// A record with these fields.
#[inline]
pub fn record(kind: u8, flag: u8, words: [u32; 4]) -> [u8; BYTES] {
    let mut record = [0; BYTES];
    record[0] = kind;
    record[1] = flag;
    for (k, word) in words.into_iter().enumerate() {
        record.set_word(k, word);
    }
    record
}
