//! Compares the proved library with plain Rust of the same rules, on sets of payoffs that bench/payoffs.js made.
//!
//!     driver check SET..                 do the two agree on every payoff?
//!     driver time PASSES SET..           the best time of a pass over each set, of each side
//!     driver count WHO WHAT REPEATS SET  makes that many passes, for a program that counts instructions
//!
//! WHO is library or plain, WHAT is load or both; `count copy file` copies the files alone.

mod check;
mod library;
mod set;
mod side;
mod time;

use set::Set;
use side::{Lent, Side, What};
use std::process::ExitCode;

fn main() -> ExitCode {
    let words: Vec<String> = std::env::args().skip(1).collect();
    let words: Vec<&str> = words.iter().map(String::as_str).collect();
    match words.as_slice() {
        ["check", sets @ ..] => check::check(sets),
        ["time", passes, sets @ ..] => {
            time::time(passes.parse().expect("PASSES is a number"), sets);
            ExitCode::SUCCESS
        }
        ["count", who, what, repeats, set] => {
            count(who, what, repeats.parse().expect("REPEATS is a number"), &Set::read(set));
            ExitCode::SUCCESS
        }
        _ => {
            eprintln!("driver check SET.. | time PASSES SET.. | count WHO WHAT REPEATS SET");
            ExitCode::from(2)
        }
    }
}

fn count(who: &str, what: &str, repeats: usize, set: &Set) {
    let mut lent = Lent::new();
    for _ in 0..repeats {
        match (who, what) {
            ("copy", _) => side::copy_pass(set, &mut lent),
            ("library", "load") => side::pass(Side::Library, What::Load, set, &mut lent),
            ("library", _) => side::pass(Side::Library, What::Both, set, &mut lent),
            (_, "load") => side::pass(Side::Plain, What::Load, set, &mut lent),
            _ => side::pass(Side::Plain, What::Both, set, &mut lent),
        }
    }
}
