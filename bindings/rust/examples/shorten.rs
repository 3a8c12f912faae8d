//! Shortens the payoffs of files: `cargo run --example shorten FILE..`
use mirabellejib::{check, shorten, Counts, Fault, Known, Memory, Shortened, Support};
use std::{env, fs};

fn main() -> std::io::Result<()> {
    for path in env::args().skip(1) {
        match shorten_file(&fs::read(&path)?) {
            Ok(shortened) => println!("{path}: {shortened:?}"),
            Err(fault) => println!("{path}: {fault:?}"),
        }
    }
    Ok(())
}

/// What is left needs room as well: here for four times what the file holds.
fn shorten_file(file: &[u8]) -> Result<Shortened, Fault> {
    let Counts { nodes, entries, text } = check(file)?.counts;
    let mut memory = Memory::with_room(Counts { nodes: 4 * nodes, entries: 4 * entries, text: 4 * text });
    shorten(file, Known::Bound(&[]), Support { templates: true, power: true }, &mut memory)
}
