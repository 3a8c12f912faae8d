//! The sweep: the rules are tried everywhere, in rounds until one rewrites nothing.

use crate::fault::Fault;
use crate::host::Host;
use crate::payoff::{Link, Payoff};
use crate::record::{Fields, Kinds, Run, kind::*};
use crate::rules::Rules;
use crate::{POWER, TEMPLATES};

/// Which of the newer forms of the language the payoff's engine knows.
#[derive(Clone, Copy, Debug, PartialEq, Eq)]
pub struct Support {
    pub templates: bool,
    pub power: bool,
}

impl Support {
    pub fn of(options: u32) -> Support {
        Support { templates: options & TEMPLATES != 0, power: options & POWER != 0 }
    }
}

/// What a sweep made, and whether places stayed unvisited.
#[derive(Clone, Copy, Debug, PartialEq, Eq)]
pub struct Swept {
    pub rewrites: u32,
    pub rounds: u32,
    pub left: bool,
}

/// Why a sweep ended early, and what it had made.
#[derive(Clone, Copy, Debug, PartialEq, Eq)]
pub struct Refused {
    pub fault: Fault,
    pub rewrites: u32,
}

/// How a place takes its expression.
#[derive(Clone, Copy, PartialEq, Eq)]
pub(crate) enum Place {
    Ordinary,
    ConcatObject,
    Referred,
}

/// How many steps below the root a place may be.
const MAX_STEPS: u32 = 256;

/// What has no children.
const LEAVES: Kinds = Kinds::of(&[STRING, NUMBER, BOOLEAN, NULL, NAME, HOLE, QUASI]);

/// Sweeps the payoff.
pub fn sweep<H: Host>(payoff: &mut Payoff<'_>, host: &H, support: Support) -> Result<Swept, Refused> {
    let before = payoff.rewrites;
    let mut visitor = Visitor { rules: Rules { payoff, host, support }, left: false };
    let rounds = visitor.make_rounds();
    let left = visitor.left;
    let rewrites = payoff.rewrites - before;
    match rounds {
        Ok(rounds) => Ok(Swept { rewrites, rounds, left }),
        Err(fault) => Err(Refused { fault, rewrites }),
    }
}

struct Visitor<'s, 'a, H> {
    rules: Rules<'s, 'a, H>,
    /// Whether the round has left places unvisited.
    left: bool,
}

impl<H: Host> Visitor<'_, '_, H> {
    fn make_rounds(&mut self) -> Result<u32, Fault> {
        for rounds in 1.. {
            let before = self.rules.payoff.rewrites;
            self.left = false;
            self.visit(Link::Root, self.rules.payoff.root, Place::Ordinary, 0)?;
            if self.rules.payoff.rewrites == before {
                return Ok(rounds);
            }
        }
        unreachable!("each round but the last makes the payoff smaller")
    }

    /// Visits a node, children first.
    fn visit(&mut self, link: Link, node: u32, place: Place, depth: u32) -> Result<(), Fault> {
        let kind = self.rules.payoff.kind(node);
        if depth == MAX_STEPS {
            self.left |= self.has_children(node);
        } else {
            self.visit_children(node, depth + 1)?;
        }
        match kind {
            CALL => self.rules.try_call(link, node, place),
            COMPUTED => self.rules.try_property(link, node, place),
            _ => Ok(()),
        }
    }

    #[inline(always)]
    fn visit_children(&mut self, node: u32, depth: u32) -> Result<(), Fault> {
        let record = *self.rules.payoff.record(node);
        match record.kind() {
            ARRAY | TEMPLATE => self.visit_list(record.run(0), depth),
            STATIC => {
                let is_concat = self.rules.payoff.text(record.run(1)) == b"concat";
                let place = if is_concat { Place::ConcatObject } else { Place::Ordinary };
                self.visit_word(node, 0, record.word(0), place, depth)
            }
            COMPUTED | BINARY => {
                self.visit_word(node, 0, record.word(0), Place::Ordinary, depth)?;
                self.visit_word(node, 1, record.word(1), Place::Ordinary, depth)
            }
            CALL => {
                self.visit_word(node, 0, record.word(0), Place::Referred, depth)?;
                self.visit_list(record.run(1), depth)
            }
            SPREAD | UNARY => self.visit_word(node, 0, record.word(0), Place::Ordinary, depth),
            OPAQUE if record.flag() == 1 => {
                let Run { start, len } = record.run(0);
                let first = self.rules.payoff.entries[start as usize];
                self.visit_child(Link::Entry(start), first, Place::Referred, depth)?;
                self.visit_list(Run { start: start + 1, len: len - 1 }, depth)
            }
            OPAQUE => self.visit_list(record.run(0), depth),
            _ => Ok(()),
        }
    }

    #[inline]
    fn visit_word(&mut self, node: u32, k: u8, child: u32, place: Place, depth: u32) -> Result<(), Fault> {
        self.visit_child(Link::Word(node, k), child, place, depth)
    }

    #[inline]
    fn visit_list(&mut self, list: Run, depth: u32) -> Result<(), Fault> {
        for i in list.start..list.start + list.len {
            let child = self.rules.payoff.entries[i as usize];
            self.visit_child(Link::Entry(i), child, Place::Ordinary, depth)?;
        }
        Ok(())
    }

    #[inline(always)]
    fn visit_child(&mut self, link: Link, child: u32, place: Place, depth: u32) -> Result<(), Fault> {
        if LEAVES.contains(self.rules.payoff.kind(child)) {
            return Ok(());
        }
        self.visit(link, child, place, depth)
    }

    fn has_children(&self, node: u32) -> bool {
        let record = self.rules.payoff.record(node);
        match record.kind() {
            ARRAY | OPAQUE => record.run(0).len > 0,
            kind => !LEAVES.contains(kind),
        }
    }
}
