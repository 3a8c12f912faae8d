//! Loading: every question about a file is asked before anything is written.

use crate::fault::Fault;
use crate::payoff::{Counts, MAX, Memory, Payoff};
use crate::record::{BYTES, Fields, Kinds, Run, kind::*};
use crate::text::{cooks_to, is_lawful};

const HEADER: usize = 32;
const VERSION: u32 = 1;

/// What may not stand as an operand, as an element, as an argument, and in a quasi's place.
const NO_OPERAND: Kinds = Kinds::of(&[HOLE, SPREAD, QUASI]);
const NO_ELEMENT: Kinds = Kinds::of(&[QUASI]);
const NO_ARGUMENT: Kinds = Kinds::of(&[HOLE, QUASI]);
const NO_QUASI: Kinds = Kinds::of(&[QUASI]).but();

/// A file, cut into its sections.
struct Sections<'a> {
    root: u32,
    records: &'a [[u8; BYTES]],
    entries: &'a [[u8; 4]],
    text: &'a [u8],
}

/// Loads a file into the memory.
pub fn load_into<'a>(file: &[u8], memory: Memory<'a>) -> Result<Payoff<'a>, Fault> {
    let sections = Sections::cut(file)?;
    let counts = sections.counts();
    let rooms = memory.rooms();
    if counts.nodes > rooms.nodes || counts.entries > rooms.entries || counts.text > rooms.text {
        return Err(Fault::StoresTooSmall);
    }
    sections.check()?;
    let Memory { records, entries, text } = memory;
    records[..counts.nodes].copy_from_slice(sections.records);
    for (entry, bytes) in entries.iter_mut().zip(sections.entries) {
        *entry = u32::from_le_bytes(*bytes);
    }
    text[..counts.text].copy_from_slice(sections.text);
    Ok(Payoff::new(Memory { records, entries, text }, counts, sections.root))
}

impl<'a> Sections<'a> {
    fn cut(file: &'a [u8]) -> Result<Sections<'a>, Fault> {
        let (header, rest) = file.split_first_chunk::<HEADER>().ok_or(Fault::BadHeader)?;
        let (words, _) = header.as_chunks::<4>();
        let word = |k: usize| u32::from_le_bytes(words[k]);
        if word(0) != VERSION {
            return Err(Fault::BadHeader);
        }
        let [nodes, entries, text] = [2, 4, 6].map(|k| word(k) as usize);
        if nodes == 0 || nodes > MAX.nodes || entries > MAX.entries || text > MAX.text {
            return Err(Fault::BadSizes);
        }
        let [first, second, third] = [3, 5, 7].map(|k| word(k) as usize);
        let in_place = first == HEADER
            && second == first + BYTES * nodes
            && third == second + 4 * entries
            && file.len() == third + text;
        if !in_place {
            return Err(Fault::BadSizes);
        }
        let (records, rest) = rest.split_at(BYTES * nodes);
        let (entries, text) = rest.split_at(4 * entries);
        Ok(Sections { root: word(1), records: records.as_chunks().0, entries: entries.as_chunks().0, text })
    }

    fn counts(&self) -> Counts {
        Counts { nodes: self.records.len(), entries: self.entries.len(), text: self.text.len() }
    }

    fn check(&self) -> Result<(), Fault> {
        let mut seen = [0u64; MAX.nodes / 64];
        let mut links = 0;
        let mut right = true;
        for (x, record) in self.records.iter().enumerate() {
            let lawful = self.check_record(record, |child, barred| {
                links += 1;
                right &= self.may_link(x, child, barred) && is_first(&mut seen, child);
            });
            if !lawful {
                return Err(Fault::BadRecord(x as u32));
            }
        }
        // As many links as there are nodes but the last, no two of them to one node: so each has one parent.
        if right && links + 1 == self.records.len() && self.has_root() { Ok(()) } else { Err(self.wrong_link()) }
    }

    /// Whether the record is lawful on its own. Hands on its children, each with what may not stand there.
    #[inline(always)]
    fn check_record(&self, record: &[u8; BYTES], mut link: impl FnMut(u32, Kinds)) -> bool {
        let flag = record.flag();
        let [a, b, c, d] = [0, 1, 2, 3].map(|k| record.word(k));
        let fields = match record.kind() {
            STRING | NAME => flag == 0 && c | d == 0 && self.has_text(record.run(0)),
            NUMBER => flag == 0 && c | d == 0 && b >> 20 & 0x7ff != 0x7ff,
            BOOLEAN => flag <= 1 && a | b | c | d == 0,
            NULL | HOLE => flag == 0 && a | b | c | d == 0,
            SPREAD => {
                link(a, NO_OPERAND);
                flag == 0 && b | c | d == 0
            }
            ARRAY => flag == 0 && c | d == 0 && self.check_list(record.run(0), |child| link(child, NO_ELEMENT)),
            STATIC => {
                link(a, NO_OPERAND);
                flag == 0 && d == 0 && self.has_text(record.run(1))
            }
            COMPUTED => {
                link(a, NO_OPERAND);
                link(b, NO_OPERAND);
                flag == 0 && c | d == 0
            }
            CALL => {
                link(a, NO_OPERAND);
                flag == 0 && d == 0 && self.check_list(record.run(1), |child| link(child, NO_ARGUMENT))
            }
            TEMPLATE => {
                let mut is_quasi = false;
                flag == 0
                    && c | d == 0
                    && b % 2 == 1
                    && self.check_list(record.run(0), |child| {
                        is_quasi = !is_quasi;
                        link(child, if is_quasi { NO_QUASI } else { NO_OPERAND });
                    })
            }
            QUASI => flag == 0 && self.has_cooked(record.run(0), record.run(2)),
            UNARY => {
                link(a, NO_OPERAND);
                flag <= 2 && b | c | d == 0
            }
            BINARY => {
                link(a, NO_OPERAND);
                link(b, NO_OPERAND);
                flag <= 2 && c | d == 0
            }
            OPAQUE => {
                flag <= 1
                    && d == 0
                    && (flag == 0 || b > 0)
                    && self.check_list(record.run(0), |child| link(child, NO_OPERAND))
            }
            _ => false,
        };
        fields && record.zeros() == 0
    }

    /// Whether the list lies within the entries. Hands on its items.
    #[inline(always)]
    fn check_list(&self, list: Run, mut item: impl FnMut(u32)) -> bool {
        let Some(list) = self.entries.get(list.range()) else {
            return false;
        };
        for &bytes in list {
            item(u32::from_le_bytes(bytes));
        }
        true
    }

    fn has_text(&self, run: Run) -> bool {
        self.text.get(run.range()).is_some_and(is_lawful)
    }

    fn has_cooked(&self, raw: Run, cooked: Run) -> bool {
        match (self.text.get(raw.range()), self.text.get(cooked.range())) {
            (Some(raw), Some(cooked)) => cooks_to(raw, cooked),
            _ => false,
        }
    }

    /// Whether the node x may have such a child.
    #[inline]
    fn may_link(&self, x: usize, child: u32, barred: Kinds) -> bool {
        self.records[..x].get(child as usize).is_some_and(|record| !barred.contains(record.kind()))
    }

    /// Whether the root is the last node, and an expression.
    fn has_root(&self) -> bool {
        let last = self.records.len() - 1;
        self.root as usize == last && !NO_OPERAND.contains(self.records[last].kind())
    }

    /// The fault of a file whose records are lawful, but whose root or some link is not.
    #[cold]
    fn wrong_link(&self) -> Fault {
        let last = self.records.len() - 1;
        if !self.has_root() {
            return Fault::BadLink(last as u32);
        }
        let mut parents = [0u16; MAX.nodes];
        let mut lowest = last;
        for (x, record) in self.records.iter().enumerate() {
            self.check_record(record, |child, barred| {
                if let Some(parents) = parents.get_mut(child as usize) {
                    *parents += 1;
                }
                if !self.may_link(x, child, barred) {
                    lowest = lowest.min(x);
                }
            });
        }
        let miscounted = (0..last).position(|x| parents[x] != 1);
        Fault::BadLink(lowest.min(miscounted.unwrap_or(last)) as u32)
    }
}

/// Whether the node is not in the set yet. Puts it in.
#[inline]
fn is_first(seen: &mut [u64; MAX.nodes / 64], node: u32) -> bool {
    let word = &mut seen[node as usize / 64 % (MAX.nodes / 64)];
    let bit = 1 << (node % 64);
    let first = *word & bit == 0;
    *word |= bit;
    first
}
