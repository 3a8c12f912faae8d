//! The two sides, which take the same and answer the same.

use crate::library;
use crate::set::{Payoff, Set};
use plain::{Memory, Report};
use std::hint::black_box;

#[derive(Clone, Copy, Debug, PartialEq, Eq)]
pub enum Side {
    Library,
    Plain,
}

#[derive(Clone, Copy, Debug, PartialEq, Eq)]
pub enum What {
    Load,
    Both,
}

const RECORD: usize = 20;

/// Memory that is lent: as much as any payoff may have.
pub struct Lent {
    pub records: Vec<u8>,
    pub entries: Vec<u32>,
    pub text: Vec<u8>,
}

impl Lent {
    pub fn new() -> Lent {
        Lent { records: vec![0; RECORD * 4096], entries: vec![0; 16384], text: vec![0; 65536] }
    }

    /// Fills it, so that one can see what is written.
    pub fn fill(&mut self, byte: u8) {
        self.records.fill(byte);
        self.entries.fill(u32::from_le_bytes([byte; 4]));
        self.text.fill(byte);
    }

    fn within(&mut self, [nodes, entries, text]: [usize; 3]) -> (&mut [u8], &mut [u32], &mut [u8]) {
        (&mut self.records[..RECORD * nodes], &mut self.entries[..entries], &mut self.text[..text])
    }
}

/// One call of one side, within these rooms.
#[inline]
pub fn call(side: Side, what: What, payoff: &Payoff, options: u32, rooms: [usize; 3], lent: &mut Lent) -> Report {
    let (records, entries, text) = lent.within(rooms);
    let file = payoff.file.as_slice();
    if side == Side::Library {
        return match (what, &payoff.rows) {
            (What::Load, _) => library::load(file),
            (What::Both, None) => library::shorten(file, options, records, entries, text),
            (What::Both, Some(rows)) => library::shorten_by_table(file, rows, options, records, entries, text),
        };
    }
    let (records, _) = records.as_chunks_mut();
    let memory = Memory { records, entries, text };
    match (what, &payoff.rows) {
        (What::Load, _) => plain::load(file, memory),
        (What::Both, None) => plain::shorten(file, options, memory),
        (What::Both, Some(rows)) => plain::shorten_by_table(file, rows, options, memory),
    }
}

/// One pass over a set.
pub fn pass(side: Side, what: What, set: &Set, lent: &mut Lent) {
    for payoff in &set.payoffs {
        black_box(call(side, what, black_box(payoff), payoff.options, payoff.rooms, black_box(lent)));
    }
}

/// One pass that only copies the files into the memory.
pub fn copy_pass(set: &Set, lent: &mut Lent) {
    for payoff in &set.payoffs {
        let file = black_box(payoff.file.as_slice());
        let (front, rest) = file.split_at(file.len().min(lent.records.len()));
        lent.records[..front.len()].copy_from_slice(front);
        for chunk in rest.chunks(lent.text.len()) {
            lent.text[..chunk.len()].copy_from_slice(chunk);
        }
        black_box(&lent.records);
        black_box(&lent.text);
    }
}
