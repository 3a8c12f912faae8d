//! The vectors of files and of sessions, as far as they load and sweep: the answers have to be those of the library.

use plain::{
    BINDS_ARRAY, BINDS_MATH, BINDS_UNDEFINED, Fault, Fields, Host, Memory, Payoff, Refused, Run, Structural, Support,
    Swept, Table, Type, kind, load_into, sweep,
};
use std::fmt::Write;
use std::{fs, thread};

/// The hosts that a word may name.
enum AnyHost {
    Structural(Structural),
    Table(Vec<u8>),
}

impl Host for AnyHost {
    fn has_effects(&self, payoff: &Payoff<'_>, node: u32) -> bool {
        match self {
            AnyHost::Structural(host) => host.has_effects(payoff, node),
            AnyHost::Table(rows) => Table::new(rows).has_effects(payoff, node),
        }
    }

    fn type_of(&self, payoff: &Payoff<'_>, node: u32) -> Type {
        match self {
            AnyHost::Structural(host) => host.type_of(payoff, node),
            AnyHost::Table(rows) => Table::new(rows).type_of(payoff, node),
        }
    }

    fn is_global(&self, payoff: &Payoff<'_>, node: u32) -> bool {
        match self {
            AnyHost::Structural(host) => host.is_global(payoff, node),
            AnyHost::Table(rows) => Table::new(rows).is_global(payoff, node),
        }
    }
}

enum Call {
    Tree,
    Sweep(AnyHost),
}

fn bytes_of(hex: &str) -> Option<Vec<u8>> {
    let digit = |c: u8| (c as char).to_digit(16).filter(|_| !c.is_ascii_uppercase());
    let pairs = hex.as_bytes().chunks(2);
    pairs.map(|pair| Some((digit(*pair.first()?)? * 16 + digit(*pair.get(1)?)?) as u8)).collect()
}

fn host_of(word: &str) -> Option<AnyHost> {
    match word.split_once('=') {
        None if word == "silent" => Some(AnyHost::Table(Vec::new())),
        None if word == "structural" => Some(AnyHost::Structural(Structural::new(0))),
        Some(("table", rows)) => Some(AnyHost::Table(bytes_of(rows)?)),
        Some(("structural", names)) => {
            let names = names.split(',').map(bytes_of).collect::<Option<Vec<_>>>()?;
            let bound = names.iter().map(|name| match name.as_slice() {
                b"undefined" => BINDS_UNDEFINED,
                b"Math" => BINDS_MATH,
                b"Array" => BINDS_ARRAY,
                _ => 0,
            });
            Some(AnyHost::Structural(Structural::new(bound.fold(0, |all, one| all | one))))
        }
        _ => None,
    }
}

/// The calls, where there are only sweeps and trees.
fn calls_of(words: &[&str]) -> Option<Vec<Call>> {
    let call = |word: &&str| match word.strip_prefix("sweep:") {
        Some(host) => host_of(host).map(Call::Sweep),
        None => (*word == "tree").then_some(Call::Tree),
    };
    words.iter().map(call).collect()
}

/// The printed form of a tree.
fn print(payoff: &Payoff<'_>, node: u32, out: &mut String) {
    let record = payoff.record(node);
    let hex = |run: Run, out: &mut String| payoff.text(run).iter().for_each(|byte| write!(out, "{byte:02x}").unwrap());
    let list = |run: Run, space: bool, out: &mut String| {
        for (i, &child) in payoff.list(run).iter().enumerate() {
            if i > 0 || space {
                out.push(' ');
            }
            print(payoff, child, out);
        }
    };
    let links = |begin: &str, count: usize, out: &mut String| {
        out.push_str(begin);
        for k in 0..count {
            out.push(' ');
            print(payoff, record.word(k), out);
        }
    };
    match record.kind() {
        kind::STRING | kind::NAME => {
            out.push_str(if record.kind() == kind::NAME { "id:" } else { "s:" });
            hex(record.run(0), out);
        }
        kind::NUMBER => write!(out, "n:{:08x}{:08x}", record.word(1), record.word(0)).unwrap(),
        kind::BOOLEAN => out.push_str(if record.flag() == 1 { "true" } else { "false" }),
        kind::NULL => out.push_str("null"),
        kind::HOLE => out.push_str("hole"),
        kind::SPREAD => links("(...", 1, out),
        kind::ARRAY => {
            out.push('[');
            list(record.run(0), false, out);
        }
        kind::STATIC => {
            links("(.", 1, out);
            out.push(' ');
            hex(record.run(1), out);
        }
        kind::COMPUTED => links("(at", 2, out),
        kind::CALL => {
            links("(call", 1, out);
            list(record.run(1), true, out);
        }
        kind::TEMPLATE => {
            out.push_str("(template");
            list(record.run(0), true, out);
        }
        kind::QUASI => {
            hex(record.run(0), out);
            out.push(':');
            hex(record.run(2), out);
        }
        kind::UNARY => links(["(plus", "(minus", "(void"][usize::from(record.flag())], 1, out),
        kind::BINARY => links(["(**", "(-", "(/"][usize::from(record.flag())], 2, out),
        _ => {
            write!(out, "(opaque {} {}", record.word(2), record.flag()).unwrap();
            list(record.run(0), true, out);
        }
    }
    match record.kind() {
        kind::ARRAY => out.push(']'),
        kind::STRING | kind::NAME | kind::NUMBER | kind::BOOLEAN | kind::NULL | kind::HOLE | kind::QUASI => {}
        _ => out.push(')'),
    }
}

fn refused(fault: Fault) -> String {
    format!("refused {} layer {} node {}", fault.number(), fault.layer(), fault.node())
}

fn swept(result: Result<Swept, Refused>) -> String {
    match result {
        Ok(Swept { rewrites, rounds, left }) => format!("swept {rewrites} {rounds} {}", u8::from(left)),
        Err(Refused { fault, rewrites }) => format!("{} after {rewrites}", refused(fault)),
    }
}

fn answer(file: &[u8], rooms: [usize; 3], support: Support, calls: &[Call]) -> String {
    let mut records = vec![[0xAA; 20]; rooms[0]];
    let mut entries = vec![0xAAAAAAAA; rooms[1]];
    let mut text = vec![0xAA; rooms[2]];
    let memory = Memory { records: &mut records, entries: &mut entries, text: &mut text };
    let mut payoff = match load_into(file, memory) {
        Ok(payoff) => payoff,
        Err(fault) => return refused(fault),
    };
    let mut answer = String::from("loaded");
    for call in calls {
        answer.push_str("; ");
        match call {
            Call::Tree => print(&payoff, payoff.root(), &mut answer),
            Call::Sweep(host) => answer.push_str(&swept(sweep(&mut payoff, host, support))),
        }
    }
    let held = payoff.held();
    let (nodes, entries, text) = (held.nodes, held.entries, held.text);
    write!(answer, "; end {} {} {nodes} {entries} {text}", payoff.root(), payoff.rewrites()).unwrap();
    answer
}

/// The answer to a line, where it asks for a case with no other calls than these.
fn answer_line(line: &str) -> Option<String> {
    let words: Vec<&str> = line.split(' ').collect();
    let ["case", file, rooms, templates, power, calls @ ..] = words.as_slice() else {
        return None;
    };
    let file = bytes_of(file)?;
    let rooms = rooms.split(',').map(|room| room.parse::<usize>().ok().map(|room| room.min(1 << 20)));
    let rooms = rooms.collect::<Option<Vec<_>>>()?.try_into().ok()?;
    let flag = |word: &str| matches!(word, "0" | "1").then_some(word == "1");
    let support = Support { templates: flag(templates)?, power: flag(power)? };
    let calls = match calls_of(calls) {
        Some(calls) => calls,
        // Of a case with other calls, whether its file is loaded.
        None => return load_only(&file, rooms, support),
    };
    Some(answer(&file, rooms, support, &calls))
}

fn load_only(file: &[u8], rooms: [usize; 3], support: Support) -> Option<String> {
    Some(answer(file, rooms, support, &[])).filter(|answer| answer.starts_with("refused"))
}

fn replay(name: &str) -> usize {
    let folder = format!("{}/../../crates/{name}", env!("CARGO_MANIFEST_DIR"));
    let read = |file: &str| fs::read(format!("{folder}/{file}")).unwrap();
    let (lines, answers) = (read("stdin"), read("stdout"));
    let mut compared = 0;
    for (line, want) in lines.split(|&byte| byte == b'\n').zip(answers.split(|&byte| byte == b'\n')) {
        let (Ok(line), Ok(want)) = (str::from_utf8(line), str::from_utf8(want)) else {
            continue;
        };
        if want == "malformed" {
            continue;
        }
        if let Some(found) = answer_line(line) {
            assert_eq!(found, want, "{line}");
            compared += 1;
        }
    }
    println!("{name}: {compared} answers are the same");
    compared
}

/// Loads the file with each value of one byte in turn, as the vectors' `damage` lines ask.
fn damage(line: &str) -> Option<String> {
    let words: Vec<&str> = line.split(' ').collect();
    let ["damage", file, at] = words.as_slice() else {
        return None;
    };
    let (mut file, at) = (bytes_of(file)?, at.parse::<usize>().ok()?);
    file.get(at)?;
    let mut runs: Vec<(String, usize)> = Vec::new();
    for value in 0..=255 {
        file[at] = value;
        let full = answer(&file, [4096, 16384, 65536], Support { templates: false, power: false }, &[]);
        let words: Vec<&str> = full.split(' ').collect();
        let verdict = match words.as_slice() {
            ["refused", fault, _, _, _, node] => format!("{fault}@{node}"),
            _ => String::from("ok"),
        };
        match runs.last_mut() {
            Some((last, count)) if *last == verdict => *count += 1,
            _ => runs.push((verdict, 1)),
        }
    }
    Some(runs.iter().map(|(verdict, count)| format!("{verdict}*{count}")).collect::<Vec<_>>().join(" "))
}

fn deep<T: Send + 'static>(work: impl FnOnce() -> T + Send + 'static) -> T {
    thread::Builder::new().stack_size(64 << 20).spawn(work).unwrap().join().unwrap()
}

#[test]
fn sessions() {
    assert!(deep(|| replay("sessionvectors")) > 300);
}

#[test]
fn engine() {
    assert!(deep(|| replay("enginevectors")) >= 3000);
}

#[test]
fn files() {
    assert!(deep(|| replay("filevectors")) > 3000);
}

#[test]
fn damaged_files() {
    let folder = format!("{}/../../crates/filevectors", env!("CARGO_MANIFEST_DIR"));
    let read = |file: &str| fs::read(format!("{folder}/{file}")).unwrap();
    let (lines, answers) = (read("stdin"), read("stdout"));
    let mut compared = 0;
    for (line, want) in lines.split(|&byte| byte == b'\n').zip(answers.split(|&byte| byte == b'\n')) {
        let Some(found) = str::from_utf8(line).ok().and_then(damage) else {
            continue;
        };
        if want != b"malformed" {
            assert_eq!(found, str::from_utf8(want).unwrap());
            compared += 1;
        }
    }
    println!("damaged files: {compared} answers are the same");
    assert!(compared > 600);
}
