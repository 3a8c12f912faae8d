//! Whether the two sides agree: in what they report, and in what the memory holds.

use crate::set::{Payoff, Set};
use crate::side::{self, Lent, Side, What};
use plain::Report;
use std::process::ExitCode;

/// The byte that memory holds that nobody has written to.
const UNWRITTEN: u8 = 0xA5;

struct Checker {
    library: Lent,
    plain: Lent,
    calls: usize,
    wrong: usize,
    /// How often each side says something else than session.js.
    parted: [usize; 2],
    /// How many calls of each side wrote behind what they say that the memory holds.
    spilled: [usize; 2],
}

pub fn check(sets: &[&str]) -> ExitCode {
    let mut checker =
        Checker { library: Lent::new(), plain: Lent::new(), calls: 0, wrong: 0, parted: [0, 0], spilled: [0, 0] };
    for path in sets {
        let set = Set::read(path);
        for (i, payoff) in set.payoffs.iter().enumerate() {
            checker.payoff(&format!("{}[{i}]", set.name), i, payoff, set.payoffs.len() > 1000);
        }
    }
    let Checker { calls, wrong, parted, spilled, .. } = checker;
    println!("{calls} calls of each side compared, {wrong} differ");
    println!("other than session.js: {} answers of the library, {} of plain", parted[0], parted[1]);
    println!("behind what is held wrote: {} calls of the library, {} of plain", spilled[0], spilled[1]);
    if wrong == 0 && parted == [0, 0] { ExitCode::SUCCESS } else { ExitCode::FAILURE }
}

impl Checker {
    fn payoff(&mut self, name: &str, i: usize, payoff: &Payoff, many: bool) {
        let (options, rooms) = (payoff.options, payoff.rooms);
        self.calls(name, What::Load, payoff, options, rooms);
        let [library, plain] = self.calls(name, What::Both, payoff, options, rooms);
        for (k, found) in [library, plain].into_iter().enumerate() {
            if found != payoff.report {
                self.parted[k] += 1;
                if self.parted[k] <= 5 {
                    let who = ["the library", "plain"][k];
                    println!("{name}: {who} reports {found:?}, and session.js {:?}", payoff.report);
                }
            }
        }
        // Other options, rooms that are too small, and a damaged file.
        let some = if many { i % 8..i % 8 + 1 } else { 0..8 };
        for k in some {
            self.calls(name, What::Both, payoff, (5 * i + k) as u32 % 32, rooms);
            self.calls(name, What::Both, payoff, options, tight(payoff, i + k));
            self.damaged(name, i + k, payoff);
        }
    }

    fn damaged(&mut self, name: &str, i: usize, payoff: &Payoff) {
        for k in 0..6 {
            let mut file = payoff.file.clone();
            let place = (i * 7919 + k * 104_729 + k * k) % file.len();
            file[place] ^= [1, 0x80, 0xFF, 4, 0x10, 2][k];
            let damaged = Payoff { file, rows: payoff.rows.clone(), ..*payoff };
            self.calls(&format!("{name}, damaged at {place}"), What::Both, &damaged, payoff.options, payoff.rooms);
        }
    }

    /// One call of each side.
    fn calls(&mut self, name: &str, what: What, payoff: &Payoff, options: u32, rooms: [usize; 3]) -> [Report; 2] {
        let most = [rooms[0].min(4096), rooms[1], rooms[2]];
        self.library.fill(UNWRITTEN);
        self.plain.fill(UNWRITTEN);
        let library = side::call(Side::Library, what, payoff, options, most, &mut self.library);
        let plain = side::call(Side::Plain, what, payoff, options, most, &mut self.plain);
        self.calls += 1;
        if library != plain {
            self.tell(&format!("{name}, {what:?}, {options}, {rooms:?}: library {library:?}, plain {plain:?}"));
        } else if what == What::Both && held(&self.library, &library) != held(&self.plain, &plain) {
            self.tell(&format!("{name}, {what:?}, {options}, {rooms:?}: the memory differs"));
        }
        self.spilled[0] += usize::from(what == What::Both && spills(&self.library, &library));
        self.spilled[1] += usize::from(spills(&self.plain, &plain));
        [library, plain]
    }

    fn tell(&mut self, what: &str) {
        self.wrong += 1;
        if self.wrong <= 20 {
            println!("{what}");
        }
    }
}

/// What the memory holds.
fn held<'a>(lent: &'a Lent, report: &Report) -> (&'a [u8], &'a [u32], &'a [u8]) {
    let [nodes, entries, text] = [report.nodes, report.entries, report.text].map(|count| count as usize);
    (&lent.records[..20 * nodes], &lent.entries[..entries], &lent.text[..text])
}

/// Whether there was written behind what the memory holds.
fn spills(lent: &Lent, report: &Report) -> bool {
    let [nodes, entries, text] = [report.nodes, report.entries, report.text].map(|count| count as usize);
    lent.records[20 * nodes..].iter().any(|&byte| byte != UNWRITTEN)
        || lent.entries[entries..].iter().any(|&entry| entry != u32::from_le_bytes([UNWRITTEN; 4]))
        || lent.text[text..].iter().any(|&byte| byte != UNWRITTEN)
}

/// Rooms with a little more than the file has.
fn tight(payoff: &Payoff, i: usize) -> [usize; 3] {
    let count = |at: usize| u32::from_le_bytes(payoff.file[at..at + 4].try_into().unwrap()) as usize;
    let more =
        [[i % 17, 999, 9999], [999, i % 29, 9999], [999, 999, i % 53], [i % 40, i % 50, i % 60], [0, 0, 0]][i % 5];
    let few = [count(8) + more[0], count(16) + more[1], count(24) + more[2]];
    if i % 11 == 10 {
        return [count(8), count(16), count(24).saturating_sub(1)];
    }
    [few[0].min(4096), few[1].min(16384), few[2].min(65536)]
}
