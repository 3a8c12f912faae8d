//! Payoffs loaded and shortened by the rules of docs/FORMAT.md, docs/RULES.md and docs/SESSIONS.md, in plain Rust and
//! for speed: what the proved library is measured against. The calls have no heap: all stands in memory that the
//! caller lends.

mod fault;
mod host;
mod load;
mod making;
mod payoff;
mod record;
mod rules;
mod sweep;
mod text;

pub use fault::Fault;
pub use host::{Host, Structural, Table, Type};
pub use load::load_into;
pub use payoff::{Counts, Memory, Payoff};
pub use record::{Fields, Run, kind};
pub use sweep::{Refused, Support, Swept, sweep};

pub const TEMPLATES: u32 = 1;
pub const POWER: u32 = 2;
pub const BINDS_UNDEFINED: u32 = 4;
pub const BINDS_MATH: u32 = 8;
pub const BINDS_ARRAY: u32 = 16;

/// What became of a payoff.
#[derive(Clone, Copy, Debug, Default, PartialEq, Eq)]
#[repr(C)]
pub struct Report {
    pub fault: u32,
    pub layer: u32,
    pub node: u32,
    pub rewrites: u32,
    pub rounds: u32,
    pub left: u32,
    pub root: u32,
    pub nodes: u32,
    pub entries: u32,
    pub text: u32,
}

impl Report {
    fn refused(fault: Fault) -> Report {
        Report { fault: fault.number(), layer: fault.layer(), node: fault.node(), ..Report::default() }
    }

    fn of(payoff: &Payoff<'_>) -> Report {
        let held = payoff.held();
        Report {
            root: payoff.root(),
            rewrites: payoff.rewrites(),
            nodes: held.nodes as u32,
            entries: held.entries as u32,
            text: held.text as u32,
            ..Report::default()
        }
    }
}

/// Loads a payoff's file.
#[inline(never)]
pub fn load(file: &[u8], memory: Memory<'_>) -> Report {
    match load_into(file, memory) {
        Ok(payoff) => Report::of(&payoff),
        Err(fault) => Report::refused(fault),
    }
}

/// Loads a payoff's file and shortens it, by what its nodes say of themselves.
#[inline(never)]
pub fn shorten(file: &[u8], options: u32, memory: Memory<'_>) -> Report {
    shorten_by(file, &Structural::new(options), options, memory)
}

/// The same, by a table with a byte for each node of the file.
#[inline(never)]
pub fn shorten_by_table(file: &[u8], rows: &[u8], options: u32, memory: Memory<'_>) -> Report {
    shorten_by(file, &Table::new(rows), options, memory)
}

fn shorten_by<H: Host>(file: &[u8], host: &H, options: u32, memory: Memory<'_>) -> Report {
    let mut payoff = match load_into(file, memory) {
        Ok(payoff) => payoff,
        Err(fault) => return Report::refused(fault),
    };
    let swept = sweep(&mut payoff, host, Support::of(options));
    let report = Report::of(&payoff);
    match swept {
        Ok(swept) => Report { rounds: swept.rounds, left: u32::from(swept.left), ..report },
        Err(refused) => {
            let Report { fault, layer, node, .. } = Report::refused(refused.fault);
            Report { fault, layer, node, ..report }
        }
    }
}
