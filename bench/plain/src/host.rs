//! What is known of a payoff's nodes.

use crate::payoff::Payoff;
use crate::record::{Fields, Kinds, kind::*};
use crate::{BINDS_ARRAY, BINDS_MATH, BINDS_UNDEFINED};

/// Of which type a node's values are.
#[derive(Clone, Copy, Debug, PartialEq, Eq)]
pub enum Type {
    Undetermined,
    Undefined,
    Null,
    Number,
    BigInt,
    String,
    Boolean,
    Object,
}

impl Type {
    #[inline]
    pub fn may_be_object(self) -> bool {
        matches!(self, Type::Object | Type::Undetermined)
    }
}

pub trait Host {
    fn has_effects(&self, payoff: &Payoff<'_>, node: u32) -> bool;
    fn type_of(&self, payoff: &Payoff<'_>, node: u32) -> Type;
    fn is_global(&self, payoff: &Payoff<'_>, node: u32) -> bool;
}

/// Goes by what nodes say of themselves.
#[derive(Clone, Copy)]
pub struct Structural {
    options: u32,
}

impl Structural {
    pub fn new(options: u32) -> Structural {
        Structural { options }
    }
}

const LITERALS_AND_HOLES: Kinds = Kinds::of(&[STRING, NUMBER, BOOLEAN, NULL, HOLE]);

impl Host for Structural {
    #[inline]
    fn has_effects(&self, payoff: &Payoff<'_>, node: u32) -> bool {
        let record = payoff.record(node);
        if record.kind() == ARRAY {
            !payoff.list(record.run(0)).iter().all(|&element| LITERALS_AND_HOLES.contains(payoff.kind(element)))
        } else {
            !LITERALS_AND_HOLES.contains(record.kind())
        }
    }

    #[inline]
    fn type_of(&self, payoff: &Payoff<'_>, node: u32) -> Type {
        let record = payoff.record(node);
        match record.kind() {
            STRING | TEMPLATE => Type::String,
            NUMBER => Type::Number,
            BOOLEAN => Type::Boolean,
            NULL => Type::Null,
            ARRAY => Type::Object,
            UNARY if record.flag() == 2 => Type::Undefined,
            _ => Type::Undetermined,
        }
    }

    fn is_global(&self, payoff: &Payoff<'_>, node: u32) -> bool {
        let record = payoff.record(node);
        if record.kind() != NAME {
            return false;
        }
        let bound = match payoff.text(record.run(0)) {
            b"undefined" => BINDS_UNDEFINED,
            b"Math" => BINDS_MATH,
            b"Array" => BINDS_ARRAY,
            _ => return false,
        };
        self.options & bound == 0
    }
}

/// Goes by a byte for each loaded node.
#[derive(Clone, Copy)]
pub struct Table<'a> {
    rows: &'a [u8],
}

impl<'a> Table<'a> {
    /// Rows of nodes that are not loaded are left out by the sweep.
    pub fn new(rows: &'a [u8]) -> Table<'a> {
        Table { rows }
    }

    /// The row of a node, if it has one: effects, whether it is global, and its type.
    #[inline]
    fn row(&self, payoff: &Payoff<'_>, node: u32) -> Option<(bool, bool, Type)> {
        let row = *self.rows.get(node as usize)?;
        if node >= payoff.loaded() {
            return None;
        }
        let said = match row & 0x3F {
            0 => Type::Undetermined,
            1 => Type::Undefined,
            2 => Type::Null,
            3 => Type::Number,
            4 => Type::BigInt,
            5 => Type::String,
            6 => Type::Boolean,
            7 => Type::Object,
            _ => return None,
        };
        Some((row & 0x80 != 0, row & 0x40 != 0, said))
    }
}

impl Host for Table<'_> {
    #[inline]
    fn has_effects(&self, payoff: &Payoff<'_>, node: u32) -> bool {
        self.row(payoff, node).is_none_or(|(effects, _, _)| effects)
    }

    #[inline]
    fn type_of(&self, payoff: &Payoff<'_>, node: u32) -> Type {
        self.row(payoff, node).map_or(Type::Undetermined, |(_, _, said)| said)
    }

    fn is_global(&self, payoff: &Payoff<'_>, node: u32) -> bool {
        self.row(payoff, node).is_some_and(|(_, global, _)| global)
    }
}
