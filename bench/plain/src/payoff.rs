//! A payoff in lent memory.

use crate::fault::Fault;
use crate::record::{BYTES, Fields, Run, kind::*};

/// How many nodes, entries and bytes of text there are.
#[derive(Clone, Copy, Debug, PartialEq, Eq)]
pub struct Counts {
    pub nodes: usize,
    pub entries: usize,
    pub text: usize,
}

/// The most that a payoff may have.
pub const MAX: Counts = Counts { nodes: 4096, entries: 16384, text: 65536 };

/// Memory that the caller lends.
pub struct Memory<'a> {
    pub records: &'a mut [[u8; BYTES]],
    pub entries: &'a mut [u32],
    pub text: &'a mut [u8],
}

impl Memory<'_> {
    pub fn rooms(&self) -> Counts {
        Counts { nodes: self.records.len(), entries: self.entries.len(), text: self.text.len() }
    }
}

/// A payoff's tree: what the memory holds at its front, and the number of the root. The memory has no more room than a
/// payoff may have.
pub struct Payoff<'a> {
    pub(crate) records: &'a mut [[u8; BYTES]],
    pub(crate) entries: &'a mut [u32],
    pub(crate) text: &'a mut [u8],
    pub(crate) held: Counts,
    pub(crate) root: u32,
    pub(crate) rewrites: u32,
    loaded: u32,
}

/// Where the number of a node stands.
#[derive(Clone, Copy)]
pub(crate) enum Link {
    Root,
    Word(u32, u8),
    Entry(u32),
}

/// A call of a static member `concat`.
#[derive(Clone, Copy)]
pub(crate) struct ConcatCall {
    pub callee: u32,
    pub object: u32,
    pub arguments: Run,
}

impl<'a> Payoff<'a> {
    pub(crate) fn new(memory: Memory<'a>, held: Counts, root: u32) -> Payoff<'a> {
        let rooms = memory.rooms();
        Payoff {
            records: &mut memory.records[..rooms.nodes.min(MAX.nodes)],
            entries: &mut memory.entries[..rooms.entries.min(MAX.entries)],
            text: &mut memory.text[..rooms.text.min(MAX.text)],
            held,
            root,
            rewrites: 0,
            loaded: held.nodes as u32,
        }
    }

    pub fn root(&self) -> u32 {
        self.root
    }

    /// How many nodes were loaded.
    pub fn loaded(&self) -> u32 {
        self.loaded
    }

    pub fn rewrites(&self) -> u32 {
        self.rewrites
    }

    pub fn held(&self) -> Counts {
        self.held
    }

    #[inline]
    pub fn record(&self, node: u32) -> &[u8; BYTES] {
        &self.records[node as usize]
    }

    #[inline]
    pub fn kind(&self, node: u32) -> u8 {
        self.record(node).kind()
    }

    #[inline]
    pub fn list(&self, run: Run) -> &[u32] {
        &self.entries[run.range()]
    }

    #[inline]
    pub fn text(&self, run: Run) -> &[u8] {
        &self.text[run.range()]
    }

    /// Changes the number that stands there.
    pub(crate) fn set(&mut self, link: Link, node: u32) {
        match link {
            Link::Root => self.root = node,
            Link::Word(parent, k) => self.records[parent as usize].set_word(usize::from(k), node),
            Link::Entry(i) => self.entries[i as usize] = node,
        }
    }

    /// Refuses to rewrite the node where there is no space for what is new.
    pub(crate) fn ask(&self, node: u32, need: Counts) -> Result<(), Fault> {
        if need.nodes > self.records.len() - self.held.nodes {
            Err(Fault::NodesFull(node))
        } else if need.entries > self.entries.len() - self.held.entries {
            Err(Fault::EntriesFull(node))
        } else if need.text > self.text.len() - self.held.text {
            Err(Fault::TextFull(node))
        } else {
            Ok(())
        }
    }

    #[inline]
    pub(crate) fn concat_call(&self, node: u32) -> Option<ConcatCall> {
        let call = self.record(node);
        if call.kind() != CALL {
            return None;
        }
        let callee = call.word(0);
        let member = self.record(callee);
        if member.kind() != STATIC || self.text(member.run(1)) != b"concat" {
            return None;
        }
        Some(ConcatCall { callee, object: member.word(0), arguments: call.run(1) })
    }
}
