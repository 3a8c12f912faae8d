//! Sets of payoffs, as bench/payoffs.js writes them.

use plain::Report;
use std::fs;
use std::path::Path;

pub struct Payoff {
    pub file: Vec<u8>,
    pub options: u32,
    /// The table that it is shortened by, if it has one.
    pub rows: Option<Vec<u8>>,
    /// For nodes, entries and bytes of text.
    pub rooms: [usize; 3],
    /// What a third implementation, vectors/session.js, says of it.
    pub report: Report,
}

pub struct Set {
    pub name: String,
    pub payoffs: Vec<Payoff>,
}

const NO_TABLE: u32 = u32::MAX;

struct Reader<'a>(&'a [u8]);

impl Reader<'_> {
    fn word(&mut self) -> u32 {
        let (word, rest) = self.0.split_first_chunk().expect("the set ends early");
        self.0 = rest;
        u32::from_le_bytes(*word)
    }

    fn bytes(&mut self, len: u32) -> Vec<u8> {
        let (bytes, rest) = self.0.split_at(len as usize);
        self.0 = rest;
        bytes.to_vec()
    }

    fn payoff(&mut self) -> Payoff {
        let [len, options, rows] = [(); 3].map(|()| self.word());
        let rooms = [(); 3].map(|()| self.word() as usize);
        let [fault, layer, node, rewrites, rounds, left, root, nodes, entries, text] = [(); 10].map(|()| self.word());
        let file = self.bytes(len);
        let rows = (rows != NO_TABLE).then(|| self.bytes(rows));
        let report = Report { fault, layer, node, rewrites, rounds, left, root, nodes, entries, text };
        Payoff { file, options, rows, rooms, report }
    }
}

impl Set {
    pub fn read(path: &str) -> Set {
        let bytes = fs::read(path).unwrap_or_else(|error| panic!("{path}: {error}"));
        let mut reader = Reader(&bytes);
        let payoffs = (0..reader.word()).map(|_| reader.payoff()).collect();
        let name = Path::new(path).file_stem().unwrap_or_default().to_string_lossy().into_owned();
        Set { name, payoffs }
    }

    pub fn nodes(&self) -> usize {
        self.payoffs.iter().map(|payoff| u32::from_le_bytes(payoff.file[8..12].try_into().unwrap()) as usize).sum()
    }

    pub fn bytes(&self) -> usize {
        self.payoffs.iter().map(|payoff| payoff.file.len()).sum()
    }
}
