//! The three rules, tried at a place.

use crate::fault::Fault;
use crate::host::{Host, Type};
use crate::payoff::{ConcatCall, Link, Payoff};
use crate::record::{Fields, Kinds, Run, kind::*};
use crate::sweep::{Place, Support};
use crate::text::unit_at;

/// What `concat` on an array literal takes in.
const TAKEN: Kinds = Kinds::of(&[STRING, NUMBER, BOOLEAN, NULL, ARRAY]);

/// A table of this many calls holds nearly every chain, and one of so many any: each call has two nodes of its own.
const FEW_CALLS: usize = 16;
const MANY_CALLS: usize = 2048;

pub(crate) struct Rules<'s, 'a, H> {
    pub payoff: &'s mut Payoff<'a>,
    pub host: &'s H,
    pub support: Support,
}

/// How many arguments there are, and how many of them are strings.
#[derive(Clone, Copy)]
struct Counted {
    arguments: usize,
    strings: usize,
}

impl Counted {
    /// Whether a template of the arguments is short against that many calls.
    fn is_short(self, calls: usize) -> bool {
        3 * (self.arguments - self.strings) <= 9 * calls + self.arguments + 2 * self.strings
    }
}

impl<H: Host> Rules<'_, '_, H> {
    /// Tries `chain` at a call, then `method` and `property` at what is there.
    pub fn try_call(&mut self, link: Link, node: u32, place: Place) -> Result<(), Fault> {
        let node = self.try_chain(link, node, place)?;
        let node = self.try_method(link, node, place)?;
        self.try_property(link, node, place)
    }

    fn rewrite(&mut self, link: Link, node: u32) -> u32 {
        self.payoff.set(link, node);
        self.payoff.rewrites += 1;
        node
    }

    // ---- chain ----

    fn try_chain(&mut self, link: Link, node: u32, place: Place) -> Result<u32, Fault> {
        if place == Place::ConcatObject {
            return Ok(node);
        }
        let Some(outer) = self.payoff.concat_call(node) else {
            return Ok(node);
        };
        if self.payoff.concat_call(outer.object).is_none() {
            return Ok(node);
        }
        match self.join_chain::<FEW_CALLS>(node, outer) {
            Some(joined) => self.hang(link, node, joined),
            None => self.try_long_chain(link, node, outer),
        }
    }

    #[cold]
    fn try_long_chain(&mut self, link: Link, node: u32, outer: ConcatCall) -> Result<u32, Fault> {
        match self.join_chain::<MANY_CALLS>(node, outer) {
            Some(joined) => self.hang(link, node, joined),
            None => Ok(node),
        }
    }

    fn hang(&mut self, link: Link, node: u32, made: Result<Option<u32>, Fault>) -> Result<u32, Fault> {
        match made? {
            Some(made) => Ok(self.rewrite(link, made)),
            None => Ok(node),
        }
    }

    /// Makes what the chain becomes, if it is not kept; or nothing where it has more than N calls.
    fn join_chain<const N: usize>(&mut self, node: u32, outer: ConcatCall) -> Option<Result<Option<u32>, Fault>> {
        let mut table = [Run::EMPTY; N];
        let mut count = 0;
        let mut call = outer;
        loop {
            *table.get_mut(count)? = call.arguments;
            count += 1;
            match self.payoff.concat_call(call.object) {
                Some(inner) => call = inner,
                None => break,
            }
        }
        // The innermost call comes first from here on.
        let calls = &mut table[..count];
        calls.reverse();
        Some(self.join_calls(node, call, calls))
    }

    fn join_calls(&mut self, node: u32, innermost: ConcatCall, calls: &[Run]) -> Result<Option<u32>, Fault> {
        let base = *self.payoff.record(innermost.object);
        match base.kind() {
            STRING => {
                let Some(counted) = self.count(calls) else {
                    return Ok(None);
                };
                let templates = self.support.templates;
                if !(templates && counted.is_short(1)) && self.interleave(calls) {
                    return self.payoff.make_one_call(node, innermost.callee, calls, counted.arguments).map(Some);
                }
                if templates && counted.is_short(calls.len()) && self.each_interleaves(calls) {
                    return self.payoff.make_template(node, base.run(0), calls).map(Some);
                }
                Ok(None)
            }
            ARRAY if self.are_apart(calls) => {
                let arguments = calls.iter().map(|call| call.len as usize).sum();
                self.payoff.make_one_call(node, innermost.callee, calls, arguments).map(Some)
            }
            _ => Ok(None),
        }
    }

    /// Counts the arguments of calls, none of which is a spread.
    fn count(&self, calls: &[Run]) -> Option<Counted> {
        let mut counted = Counted { arguments: 0, strings: 0 };
        for call in calls {
            counted.arguments += call.len as usize;
            for &argument in self.payoff.list(*call) {
                match self.payoff.kind(argument) {
                    SPREAD => return None,
                    STRING => counted.strings += 1,
                    _ => {}
                }
            }
        }
        Some(counted)
    }

    /// Whether no argument with effects follows one that may be an object. None of them is a spread.
    fn interleave(&self, calls: &[Run]) -> bool {
        let mut after_object = false;
        for call in calls {
            for &argument in self.payoff.list(*call) {
                if after_object {
                    if self.host.has_effects(self.payoff, argument) {
                        return false;
                    }
                } else {
                    after_object = self.host.type_of(self.payoff, argument).may_be_object();
                }
            }
        }
        true
    }

    fn each_interleaves(&self, calls: &[Run]) -> bool {
        calls.chunks(1).all(|call| self.interleave(call))
    }

    /// Whether no argument with effects follows, in a later call, one that `concat` on an array reads only then.
    fn are_apart(&self, calls: &[Run]) -> bool {
        let Some(first) = calls.iter().position(|call| !self.can_be_read_later(*call)) else {
            return true;
        };
        let later = calls[first + 1..].iter().flat_map(|call| self.payoff.list(*call));
        later.into_iter().all(|&argument| !self.host.has_effects(self.payoff, argument))
    }

    fn can_be_read_later(&self, call: Run) -> bool {
        self.payoff.list(call).iter().all(|&argument| match self.payoff.kind(argument) {
            SPREAD => false,
            ARRAY => true,
            _ => !self.host.type_of(self.payoff, argument).may_be_object(),
        })
    }

    // ---- method ----

    fn try_method(&mut self, link: Link, node: u32, place: Place) -> Result<u32, Fault> {
        let call = *self.payoff.record(node);
        if call.kind() != CALL {
            return Ok(node);
        }
        let (callee, arguments) = (call.word(0), call.run(1));
        let member = *self.payoff.record(callee);
        let name = match member.kind() {
            STATIC => member.run(1),
            COMPUTED => match self.payoff.record(member.word(1)) {
                key if key.kind() == STRING => key.run(0),
                _ => return Ok(node),
            },
            _ => return Ok(node),
        };
        let object = member.word(0);
        let made = match self.payoff.text(name) {
            b"concat" if place != Place::ConcatObject => match self.payoff.kind(object) {
                ARRAY => self.concat_array(node, callee, object, arguments),
                STRING => self.concat_string(node, object, arguments),
                _ => Ok(None),
            },
            b"pow" => self.pow(node, object, arguments),
            b"of" => self.array_of(node, object, arguments),
            _ => Ok(None),
        };
        self.hang(link, node, made)
    }

    fn concat_array(&mut self, node: u32, callee: u32, object: u32, arguments: Run) -> Result<Option<u32>, Fault> {
        if arguments.len == 0 {
            return Ok(Some(object));
        }
        let list = self.payoff.list(arguments);
        let taken = list.iter().take_while(|&&argument| TAKEN.contains(self.payoff.kind(argument))).count();
        match taken {
            0 => Ok(None),
            taken if taken == list.len() => self.payoff.make_merged(node, object, arguments).map(Some),
            taken => self.payoff.make_concat_left(node, callee, object, arguments, taken as u32).map(Some),
        }
    }

    fn concat_string(&mut self, node: u32, object: u32, arguments: Run) -> Result<Option<u32>, Fault> {
        if arguments.len == 0 || !self.support.templates {
            return Ok(None);
        }
        let calls = &[arguments];
        match self.count(calls) {
            Some(counted) if counted.is_short(1) && self.interleave(calls) => {
                let base = self.payoff.record(object).run(0);
                self.payoff.make_template(node, base, calls).map(Some)
            }
            _ => Ok(None),
        }
    }

    fn pow(&mut self, node: u32, object: u32, arguments: Run) -> Result<Option<u32>, Fault> {
        let &[base, exponent] = self.payoff.list(arguments) else {
            return Ok(None);
        };
        let spreads = [base, exponent].iter().any(|&argument| self.payoff.kind(argument) == SPREAD);
        if !self.support.power || spreads || !self.is_global_name(object, b"Math") {
            return Ok(None);
        }
        let is_number = self.host.type_of(self.payoff, exponent) == Type::Number;
        self.payoff.make_power(node, base, exponent, is_number).map(Some)
    }

    fn array_of(&mut self, node: u32, object: u32, arguments: Run) -> Result<Option<u32>, Fault> {
        if !self.is_global_name(object, b"Array") {
            return Ok(None);
        }
        self.payoff.make_array(node, arguments).map(Some)
    }

    fn is_global_name(&self, node: u32, name: &[u8]) -> bool {
        let record = self.payoff.record(node);
        record.kind() == NAME && self.payoff.text(record.run(0)) == name && self.host.is_global(self.payoff, node)
    }

    // ---- property ----

    pub fn try_property(&mut self, link: Link, node: u32, place: Place) -> Result<(), Fault> {
        let member = self.payoff.record(node);
        if member.kind() != COMPUTED || place == Place::Referred {
            return Ok(());
        }
        let (object, key) = (member.word(0), self.payoff.record(member.word(1)));
        if key.kind() != NUMBER {
            return Ok(());
        }
        let Some(index) = index_of(u64::from(key.word(1)) << 32 | u64::from(key.word(0))) else {
            return Ok(());
        };
        let base = *self.payoff.record(object);
        let made = match base.kind() {
            STRING if !self.host.has_effects(self.payoff, object) => {
                match unit_at(self.payoff.text(base.run(0)), index) {
                    Some(unit) => self.payoff.make_unit(node, unit)?,
                    None => self.payoff.make_void_zero(node)?,
                }
            }
            ARRAY => {
                let elements = self.payoff.list(base.run(0));
                let Some(&element) = elements.get(index) else {
                    return Ok(());
                };
                let kind = self.payoff.kind(element);
                let spreads = || elements[..=index].iter().any(|&element| self.payoff.kind(element) == SPREAD);
                if self.host.has_effects(self.payoff, object) || spreads() {
                    return Ok(());
                }
                if kind == HOLE { self.payoff.make_void_zero(node)? } else { element }
            }
            _ => return Ok(()),
        };
        self.rewrite(link, made);
        Ok(())
    }
}

/// The whole number from 0 that 32 bits hold and the bits of a number stand for. −0 is 0.
fn index_of(bits: u64) -> Option<usize> {
    let number = f64::from_bits(bits);
    let index = number as u32;
    (f64::from(index) == number).then_some(index as usize)
}
