//! What the rules make, behind all that the memory holds. Space is asked for before anything is written.

use crate::fault::Fault;
use crate::payoff::{Counts, Payoff};
use crate::record::{BYTES, Fields, Run, kind::*, record};
use crate::text::{Encoded, begins_trailing, ends_leading, escape, growth, paired};

const PLUS: u8 = 0;
const VOID: u8 = 2;
const POWER_OF: u8 = 0;

impl Payoff<'_> {
    fn push(&mut self, record: [u8; BYTES]) -> u32 {
        let number = self.held.nodes;
        self.records[number] = record;
        self.held.nodes += 1;
        number as u32
    }

    fn push_list(&mut self, list: Run) {
        self.entries.copy_within(list.range(), self.held.entries);
        self.held.entries += list.len as usize;
    }

    fn push_entry(&mut self, node: u32) {
        self.entries[self.held.entries] = node;
        self.held.entries += 1;
    }

    fn push_text(&mut self, bytes: &[u8]) {
        self.text[self.held.text..self.held.text + bytes.len()].copy_from_slice(bytes);
        self.held.text += bytes.len();
    }

    fn string(&mut self, text: Run) -> u32 {
        self.push(record(STRING, 0, [text.start, text.len, 0, 0]))
    }

    fn array(&mut self, elements: Run) -> u32 {
        self.push(record(ARRAY, 0, [elements.start, elements.len, 0, 0]))
    }

    fn call(&mut self, callee: u32, arguments: Run) -> u32 {
        self.push(record(CALL, 0, [callee, arguments.start, arguments.len, 0]))
    }

    pub(crate) fn make_unit(&mut self, node: u32, unit: u16) -> Result<u32, Fault> {
        let unit = Encoded::of(u32::from(unit));
        self.ask(node, Counts { nodes: 1, entries: 0, text: unit.bytes().len() })?;
        let start = self.held.text;
        self.push_text(unit.bytes());
        Ok(self.string(Run::between(start, self.held.text)))
    }

    pub(crate) fn make_void_zero(&mut self, node: u32) -> Result<u32, Fault> {
        self.ask(node, Counts { nodes: 2, entries: 0, text: 0 })?;
        let zero = self.push(record(NUMBER, 0, [0; 4]));
        Ok(self.push(record(UNARY, VOID, [zero, 0, 0, 0])))
    }

    pub(crate) fn make_power(&mut self, node: u32, base: u32, exponent: u32, is_number: bool) -> Result<u32, Fault> {
        self.ask(node, Counts { nodes: if is_number { 1 } else { 2 }, entries: 0, text: 0 })?;
        let exponent = if is_number { exponent } else { self.push(record(UNARY, PLUS, [exponent, 0, 0, 0])) };
        Ok(self.push(record(BINARY, POWER_OF, [base, exponent, 0, 0])))
    }

    pub(crate) fn make_array(&mut self, node: u32, elements: Run) -> Result<u32, Fault> {
        self.ask(node, Counts { nodes: 1, entries: 0, text: 0 })?;
        Ok(self.array(elements))
    }

    /// An array with the elements of another, and behind them what the arguments give.
    pub(crate) fn make_merged(&mut self, node: u32, array: u32, arguments: Run) -> Result<u32, Fault> {
        let elements = self.record(array).run(0);
        self.ask(node, Counts { nodes: 1, entries: self.merged_len(elements, arguments), text: 0 })?;
        Ok(self.merge(elements, arguments))
    }

    /// A call of `concat` on such an array, with the arguments behind those that are taken.
    pub(crate) fn make_concat_left(
        &mut self,
        node: u32,
        callee: u32,
        array: u32,
        arguments: Run,
        taken: u32,
    ) -> Result<u32, Fault> {
        let elements = self.record(array).run(0);
        let given = Run { len: taken, ..arguments };
        self.ask(node, Counts { nodes: 3, entries: self.merged_len(elements, given), text: 0 })?;
        let object = self.merge(elements, given);
        let mut member = *self.record(callee);
        member.set_word(0, object);
        let callee = self.push(member);
        Ok(self.call(callee, Run { start: arguments.start + taken, len: arguments.len - taken }))
    }

    fn merged_len(&self, elements: Run, given: Run) -> usize {
        let given = self.list(given).iter().map(|&x| {
            let record = self.record(x);
            if record.kind() == ARRAY { record.run(0).len as usize } else { 1 }
        });
        elements.len as usize + given.sum::<usize>()
    }

    fn merge(&mut self, elements: Run, given: Run) -> u32 {
        let start = self.held.entries;
        self.push_list(elements);
        for i in given.range() {
            let x = self.entries[i];
            let record = self.record(x);
            if record.kind() == ARRAY { self.push_list(record.run(0)) } else { self.push_entry(x) }
        }
        self.array(Run::between(start, self.held.entries))
    }

    /// One call with the arguments of all calls.
    pub(crate) fn make_one_call(
        &mut self,
        node: u32,
        callee: u32,
        calls: &[Run],
        arguments: usize,
    ) -> Result<u32, Fault> {
        self.ask(node, Counts { nodes: 1, entries: arguments, text: 0 })?;
        let start = self.held.entries;
        for &call in calls {
            self.push_list(call);
        }
        Ok(self.call(callee, Run::between(start, self.held.entries)))
    }

    /// A template, or a string, of a base text and the arguments of calls.
    pub(crate) fn make_template(&mut self, node: u32, base: Run, calls: &[Run]) -> Result<u32, Fault> {
        self.ask(node, self.template_space(base, calls))?;
        let first_entry = self.held.entries;
        let mut quasi = self.held.text;
        self.join_text(quasi, base);
        for i in calls.iter().flat_map(|call| call.range()) {
            let argument = self.entries[i];
            let record = self.record(argument);
            if record.kind() == STRING {
                self.join_text(quasi, record.run(0));
            } else {
                let number = self.end_quasi(quasi);
                self.push_entry(number);
                self.push_entry(argument);
                quasi = self.held.text;
            }
        }
        if self.held.entries == first_entry {
            return Ok(self.string(Run::between(quasi, self.held.text)));
        }
        let number = self.end_quasi(quasi);
        self.push_entry(number);
        let pieces = Run::between(first_entry, self.held.entries);
        Ok(self.push(record(TEMPLATE, 0, [pieces.start, pieces.len, 0, 0])))
    }

    /// Joins a text to the quasi that begins at `quasi`. Two halves of a pair that meet become one character.
    fn join_text(&mut self, quasi: usize, run: Run) {
        let mut from = run.range();
        if begins_trailing(&self.text[from.clone()]) && ends_leading(&self.text[quasi..self.held.text]) {
            let half = |at: usize| [self.text[at], self.text[at + 1], self.text[at + 2]];
            let character = paired(half(self.held.text - 3), half(from.start));
            self.held.text -= 3;
            self.push_text(&character);
            from.start += 3;
        }
        let len = from.len();
        self.text.copy_within(from, self.held.text);
        self.held.text += len;
    }

    /// Ends the quasi that begins at `quasi`. Its raw text is written behind it where it is another.
    fn end_quasi(&mut self, quasi: usize) -> u32 {
        let end = self.held.text;
        let cooked = Run::between(quasi, end);
        let mut raw = cooked;
        let (front, back) = self.text.split_at_mut(end);
        if growth(&front[quasi..]) > 0 {
            self.held.text += escape(&front[quasi..], back);
            raw = Run::between(end, self.held.text);
        }
        self.push(record(QUASI, 0, [raw.start, raw.len, cooked.start, cooked.len]))
    }

    fn template_space(&self, base: Run, calls: &[Run]) -> Counts {
        let mut space = Space::default();
        space.add_text(self.text(base));
        for &call in calls {
            for &argument in self.list(call) {
                let record = self.record(argument);
                if record.kind() == STRING {
                    space.add_text(self.text(record.run(0)));
                } else {
                    space.end_quasi();
                    space.expressions += 1;
                }
            }
        }
        if space.expressions == 0 {
            return Counts { nodes: 1, entries: 0, text: space.stored };
        }
        space.end_quasi();
        Counts { nodes: space.expressions + 2, entries: 2 * space.expressions + 1, text: space.bytes }
    }
}

/// How much a template takes, as far as its parts are read.
#[derive(Default)]
struct Space {
    expressions: usize,
    /// What the quasis take that have ended.
    bytes: usize,
    /// The last quasi: how long it is, by how much its raw text is longer, and whether half a pair ends it.
    stored: usize,
    growth: usize,
    ends_leading: bool,
}

impl Space {
    fn add_text(&mut self, text: &[u8]) {
        if text.is_empty() {
            return;
        }
        self.stored += text.len();
        self.growth += growth(text);
        if self.ends_leading && begins_trailing(text) {
            self.stored -= 2; // one character of four bytes, and no escapes
            self.growth -= 6;
        }
        self.ends_leading = ends_leading(text);
    }

    fn end_quasi(&mut self) {
        self.bytes += self.stored;
        if self.growth > 0 {
            self.bytes += self.stored + self.growth;
        }
        (self.stored, self.growth, self.ends_leading) = (0, 0, false);
    }
}
