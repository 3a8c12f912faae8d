//! Shortening payoffs. What each function promises is proved of the static library, and told in `docs/EMBEDDING.md`; here it is
//! only put into Rust's words.

pub mod raw;

use raw::{Report, Written};

/// The bytes of a node's record.
pub const RECORD: usize = 20;

/// A refusal: the number of the fault, the layer that refused, and the node that it names, or 0.
#[derive(Clone, Copy, Debug, PartialEq, Eq)]
pub struct Fault {
    pub number: u32,
    pub layer: u32,
    pub node: u32,
}

/// How many nodes, list entries and bytes of text there are.
#[derive(Clone, Copy, Debug, PartialEq, Eq)]
pub struct Counts {
    pub nodes: usize,
    pub entries: usize,
    pub text: usize,
}

/// What the payoff's engine knows: template literals, and the operator `**`.
#[derive(Clone, Copy, Debug, PartialEq, Eq)]
pub struct Support {
    pub templates: bool,
    pub power: bool,
}

/// What is known of the payoff's nodes.
#[derive(Clone, Copy, Debug)]
pub enum Known<'a> {
    /// What they say of themselves, where these names, and no other of the language's own, are bound.
    Bound(&'a [&'a str]),
    /// A byte for each node of the file.
    Rows(&'a [u8]),
}

/// The memory that is lent: what is left stands at the front of each piece.
#[derive(Clone, Debug, PartialEq, Eq)]
pub struct Memory {
    pub records: Vec<u8>,
    pub entries: Vec<u32>,
    pub text: Vec<u8>,
}

impl Memory {
    /// Memory with room for so much.
    pub fn with_room(room: Counts) -> Memory {
        Memory {
            records: vec![0; room.nodes * RECORD],
            entries: vec![0; room.entries],
            text: vec![0; room.text],
        }
    }
}

/// A lawful file: its root's number, and how much it holds.
#[derive(Clone, Copy, Debug, PartialEq, Eq)]
pub struct Checked {
    pub root: u32,
    pub counts: Counts,
}

/// What a sweep did.
#[derive(Clone, Copy, Debug, PartialEq, Eq)]
pub struct Swept {
    pub rewrites: u32,
    pub rounds: u32,
    /// Whether places stayed unvisited, for being too far down.
    pub left: bool,
}

/// Why a sweep was refused, and how many rewrites it had made, which stay.
#[derive(Clone, Copy, Debug, PartialEq, Eq)]
pub struct SweepRefused {
    pub fault: Fault,
    pub rewrites: u32,
}

/// What is left of a payoff.
#[derive(Clone, Copy, Debug, PartialEq, Eq)]
pub struct Shortened {
    pub root: u32,
    pub counts: Counts,
    pub swept: Result<Swept, SweepRefused>,
}

/// Asks everything of a payoff's file that is asked before it is loaded.
pub fn check(file: &[u8]) -> Result<Checked, Fault> {
    // Each pointer is that of a slice, here and below, and the lengths are theirs.
    let report = unsafe { raw::mirabellejib_check(file.as_ptr(), file.len()) };
    match fault_of(&report) {
        Some(fault) => Err(fault),
        None => Ok(Checked { root: report.root, counts: counts_of(&report) }),
    }
}

/// Shortens the payoff of a file. A file that is refused leaves the memory as it was; a refused sweep leaves what it had done.
pub fn shorten(file: &[u8], known: Known<'_>, support: Support, memory: &mut Memory) -> Result<Shortened, Fault> {
    let report = match known {
        Known::Bound(names) => shorten_by_names(file, options_of(support) | bound_options(names), memory),
        Known::Rows(rows) => shorten_by_table(file, rows, options_of(support), memory),
    };
    let fault = fault_of(&report);
    match fault {
        Some(fault) if fault.number <= LAST_OF_FILES => Err(fault),
        _ => Ok(Shortened {
            root: report.root,
            counts: counts_of(&report),
            swept: match fault {
                Some(fault) => Err(SweepRefused { fault, rewrites: report.rewrites }),
                None => Ok(Swept { rewrites: report.rewrites, rounds: report.rounds, left: report.left == 1 }),
            },
        }),
    }
}

/// The raw template text of a text.
pub fn escape(text: &[u8]) -> Result<Vec<u8>, u32> {
    // Escaping writes six bytes for three at most.
    written(2 * text.len(), |out| unsafe {
        raw::mirabellejib_escape(text.as_ptr(), text.len(), out.as_mut_ptr(), out.len())
    })
}

/// The text that raw template text cooks to.
pub fn cook(raw: &[u8]) -> Result<Vec<u8>, u32> {
    // Cooking writes no more than it reads.
    written(raw.len(), |out| unsafe {
        raw::mirabellejib_cook(raw.as_ptr(), raw.len(), out.as_mut_ptr(), out.len())
    })
}

/// The last fault that refuses a file; the others of a payoff refuse a rewrite.
const LAST_OF_FILES: u32 = 5;

const TEMPLATES: u32 = 1;
const POWER: u32 = 2;

fn options_of(support: Support) -> u32 {
    (if support.templates { TEMPLATES } else { 0 }) | (if support.power { POWER } else { 0 })
}

fn bound_options(names: &[&str]) -> u32 {
    names.iter().fold(0, |options, name| options | unsafe { raw::mirabellejib_binds(name.as_ptr(), name.len()) })
}

fn shorten_by_names(file: &[u8], options: u32, memory: &mut Memory) -> Report {
    let Memory { records, entries, text } = memory;
    unsafe {
        raw::mirabellejib_shorten(
            file.as_ptr(),
            file.len(),
            options,
            records.as_mut_ptr(),
            records.len(),
            entries.as_mut_ptr(),
            entries.len(),
            text.as_mut_ptr(),
            text.len(),
        )
    }
}

fn shorten_by_table(file: &[u8], rows: &[u8], options: u32, memory: &mut Memory) -> Report {
    let Memory { records, entries, text } = memory;
    unsafe {
        raw::mirabellejib_shorten_by_table(
            file.as_ptr(),
            file.len(),
            rows.as_ptr(),
            rows.len(),
            options,
            records.as_mut_ptr(),
            records.len(),
            entries.as_mut_ptr(),
            entries.len(),
            text.as_mut_ptr(),
            text.len(),
        )
    }
}

fn fault_of(report: &Report) -> Option<Fault> {
    let Report { fault, layer, node, .. } = *report;
    (fault != 0).then_some(Fault { number: fault, layer, node })
}

fn counts_of(report: &Report) -> Counts {
    Counts { nodes: report.nodes, entries: report.entries, text: report.text }
}

fn written(room: usize, write: impl Fn(&mut [u8]) -> Written) -> Result<Vec<u8>, u32> {
    let mut out = vec![0; room];
    match write(&mut out) {
        Written { len, fault: 0 } => {
            out.truncate(len);
            Ok(out)
        }
        Written { fault, .. } => Err(fault),
    }
}
