//! Times, as the best of several passes that take turns.

use crate::set::Set;
use crate::side::{self, Lent, Side, What};
use std::time::{Duration, Instant};

const CALLS: [(Side, What); 4] =
    [(Side::Library, What::Load), (Side::Library, What::Both), (Side::Plain, What::Load), (Side::Plain, What::Both)];

/// Prints a line `time SET WHO WHAT NANOSECONDS` for each set and each thing that is timed.
pub fn time(passes: usize, sets: &[&str]) {
    let mut lent = Lent::new();
    for path in sets {
        let set = Set::read(path);
        let mut best = [Duration::MAX; CALLS.len() + 1];
        for _ in 0..passes {
            for (best, (who, what)) in best.iter_mut().zip(CALLS) {
                keep_best(best, || side::pass(who, what, &set, &mut lent));
            }
            keep_best(&mut best[CALLS.len()], || side::copy_pass(&set, &mut lent));
        }
        for (best, (who, what)) in best.iter().zip(CALLS) {
            println!(
                "time {} {} {} {}",
                set.name,
                format!("{who:?}").to_lowercase(),
                format!("{what:?}").to_lowercase(),
                best.as_nanos()
            );
        }
        println!("time {} copy file {}", set.name, best[CALLS.len()].as_nanos());
        println!("size {} {} {} {}", set.name, set.payoffs.len(), set.nodes(), set.bytes());
    }
}

fn keep_best(best: &mut Duration, work: impl FnOnce()) {
    let start = Instant::now();
    work();
    *best = (*best).min(start.elapsed());
}
