//! The library called from Rust: answers, refusals, and what stands in the memory then.
use mirabellejib::{check, cook, escape, shorten, Counts, Fault, Known, Memory, Shortened, Support, SweepRefused, Swept, RECORD};
use std::{fs, thread};

const NEW: Support = Support { templates: true, power: true };
const OLD: Support = Support { templates: false, power: false };
const ROOM: Counts = Counts { nodes: 64, entries: 64, text: 128 };

fn read(path: &str) -> Vec<u8> {
    fs::read(format!("{}/../../{path}", env!("CARGO_MANIFEST_DIR"))).unwrap()
}

fn quote() -> Vec<u8> {
    read("crates/payoff/data/quote.payoff")
}

/// Memory that shows where it is written.
fn marked(room: Counts) -> Memory {
    let mut memory = Memory::with_room(room);
    memory.records.fill(0xA5);
    memory.entries.fill(0xA5A5_A5A5);
    memory.text.fill(0xA5);
    memory
}

#[test]
fn the_quote_is_shortened() {
    let mut memory = marked(ROOM);
    let counts = Counts { nodes: 47, entries: 27, text: 107 };
    let swept = Ok(Swept { rewrites: 5, rounds: 2, left: false });
    assert_eq!(shorten(&quote(), Known::Bound(&[]), NEW, &mut memory), Ok(Shortened { root: 38, counts, swept }));
    let untouched = marked(ROOM);
    assert_eq!(memory.records[47 * RECORD..], untouched.records[47 * RECORD..]);
    assert_eq!(memory.entries[27..], untouched.entries[27..]);
    assert_eq!(memory.text[107..], untouched.text[107..]);
    assert_eq!(&memory.text[..76], &quote()[quote().len() - 76..]);
}

#[test]
fn bound_names_and_old_engines_keep_more() {
    let rewrites = |known, support| {
        let shortened = shorten(&quote(), known, support, &mut Memory::with_room(ROOM)).unwrap();
        shortened.swept.unwrap().rewrites
    };
    assert_eq!(rewrites(Known::Bound(&["hub", "spot"]), NEW), 5);
    assert_eq!(rewrites(Known::Bound(&["Math"]), NEW), 4);
    assert_eq!(rewrites(Known::Bound(&["Math", "Array", "undefined"]), NEW), 3);
    assert_eq!(rewrites(Known::Bound(&[]), OLD), 4);
    // Of nothing that is known, only the merged arrays are left: literals are what they are.
    assert_eq!(rewrites(Known::Rows(&[]), OLD), 1);
}

#[test]
fn a_refused_file_leaves_the_memory_as_it_was() {
    let file = quote();
    for (file, room, number) in [
        (&file[..31], ROOM, 1),
        (&file[..file.len() - 1], ROOM, 2),
        (&file[..], Counts { nodes: 38, ..ROOM }, 3),
        (&file[..], Counts { entries: 20, ..ROOM }, 3),
        (&file[..], Counts { text: 75, ..ROOM }, 3),
    ] {
        let mut memory = marked(room);
        let fault = Fault { number, layer: 2, node: 0 };
        assert_eq!(shorten(file, Known::Bound(&[]), NEW, &mut memory), Err(fault));
        assert_eq!(memory, marked(room));
    }
}

#[test]
fn a_refused_sweep_keeps_what_it_had_done() {
    let room = Counts { text: 76, ..ROOM };
    let mut memory = marked(room);
    let shortened = shorten(&quote(), Known::Bound(&[]), NEW, &mut memory).unwrap();
    assert!(matches!(shortened.swept, Err(SweepRefused { fault: Fault { number: 11, layer: 2, .. }, .. })));
    assert_eq!(shortened.counts.text, 76);
    assert_eq!(memory.records[shortened.counts.nodes * RECORD..], marked(room).records[shortened.counts.nodes * RECORD..]);
}

#[test]
fn a_file_is_checked() {
    let checked = check(&quote()).unwrap();
    assert_eq!((checked.root, checked.counts), (38, Counts { nodes: 39, entries: 21, text: 76 }));
    let mut damaged = quote();
    damaged[32] = 99;
    assert_eq!(check(&damaged), Err(Fault { number: 4, layer: 2, node: 0 }));
    assert_eq!(check(&[]), Err(Fault { number: 1, layer: 2, node: 0 }));
}

#[test]
fn texts_are_escaped_and_cooked() {
    assert_eq!(escape(b"a$"), Ok(b"a\\$".to_vec()));
    assert_eq!(escape(b"\r"), Ok(b"\\r".to_vec()));
    assert_eq!(escape(&[0xED, 0xA0, 0xBD]), Ok(b"\\ud83d".to_vec()));
    assert_eq!(cook(b"a\\$\\u{62}\r\n"), Ok(b"a$b\n".to_vec()));
    assert_eq!(cook(b"`"), Err(12));
    assert_eq!(escape(&[0xFF]), Err(12));
}

/// Each vector of sessions that is one sweep by a structural or table host gives what is stored beside it.
#[test]
fn the_vectors_of_sweeps() {
    let requests = String::from_utf8(read("crates/sessionvectors/stdin")).unwrap();
    let answers = String::from_utf8(read("crates/sessionvectors/stdout")).unwrap();
    let mut tried = 0;
    for (request, answer) in requests.split('\n').zip(answers.split('\n')) {
        if let Some(told) = sweep_of(request) {
            assert_eq!(told, without_trees(answer), "{request}");
            tried += 1;
        }
    }
    assert!(tried > 100, "only {tried} vectors are one sweep");
}

/// What the library tells of a case that makes one sweep, in the words of the protocol.
fn sweep_of(request: &str) -> Option<String> {
    let words: Vec<&str> = request.split(' ').collect();
    let ["case", file, rooms, templates, power, calls @ ..] = words.as_slice() else { return None };
    let calls: Vec<&str> = calls.iter().copied().filter(|&call| call != "tree").collect();
    let [call] = calls.as_slice() else { return None };
    let host = call.strip_prefix("sweep:")?;
    let rooms: Vec<usize> = rooms.split(',').map(|room| room.parse().unwrap()).collect();
    let limits = [4096, 16384, 65536];
    let [nodes, entries, text] = [0, 1, 2].map(|i: usize| rooms[i].min(limits[i]));
    let mut memory = Memory::with_room(Counts { nodes, entries, text });
    let support = Support { templates: *templates == "1", power: *power == "1" };
    let rows = host.strip_prefix("table=").map(bytes_of);
    let known = match (host, &rows) {
        ("structural", _) => Known::Bound(&[]),
        ("silent", _) => Known::Rows(&[]),
        (_, Some(rows)) => Known::Rows(rows),
        _ => return None,
    };
    Some(told_of(shorten(&bytes_of(file), known, support, &mut memory)))
}

fn told_of(shortened: Result<Shortened, Fault>) -> String {
    let refused = |fault: Fault| format!("refused {} layer {} node {}", fault.number, fault.layer, fault.node);
    let shortened = match shortened {
        Ok(shortened) => shortened,
        Err(fault) => return refused(fault),
    };
    let (swept, rewrites) = match shortened.swept {
        Ok(Swept { rewrites, rounds, left }) => (format!("swept {rewrites} {rounds} {}", u8::from(left)), rewrites),
        Err(SweepRefused { fault, rewrites }) => (format!("{} after {rewrites}", refused(fault)), rewrites),
    };
    let Counts { nodes, entries, text } = shortened.counts;
    format!("loaded; {swept}; end {} {rewrites} {nodes} {entries} {text}", shortened.root)
}

/// An answer without the items that are trees.
fn without_trees(answer: &str) -> String {
    let told = ["loaded", "swept", "refused", "end"];
    let items = answer.split("; ").filter(|item| told.iter().any(|word| item.starts_with(word)));
    items.collect::<Vec<_>>().join("; ")
}

fn bytes_of(hex: &str) -> Vec<u8> {
    (0..hex.len() / 2).map(|i| u8::from_str_radix(&hex[2 * i..2 * i + 2], 16).unwrap()).collect()
}

/// The stack that docs/EMBEDDING.md asks for is enough for the largest memory and the deepest payoff.
#[test]
fn the_stack_is_enough() {
    let file = deepest();
    let room = Counts { nodes: 4096, entries: 16384, text: 65536 };
    let run = move || shorten(&file, Known::Bound(&[]), NEW, &mut Memory::with_room(room)).unwrap();
    let shortened = thread::Builder::new().stack_size(512 << 10).spawn(run).unwrap().join().unwrap();
    assert_eq!(shortened.swept, Ok(Swept { rewrites: 0, rounds: 1, left: true }));
}

/// `void void .. null`, as deep as there are nodes.
fn deepest() -> Vec<u8> {
    let nodes = 4096u32;
    let end = 32 + 20 * nodes;
    let words = [1, nodes - 1, nodes, 32, 0, end, 0, end];
    let mut file: Vec<u8> = words.iter().flat_map(|word: &u32| word.to_le_bytes()).collect();
    file.extend([4u8, 0, 0, 0]);
    file.extend([0; 16]);
    for node in 1..nodes {
        file.extend([14u8, 2, 0, 0]);
        file.extend((node - 1).to_le_bytes());
        file.extend([0; 12]);
    }
    file
}
