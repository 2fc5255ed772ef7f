//! stream_list DIR: writes the fixed list of request streams, the streams into DIR/stdin and the original's lines into
//! DIR/stdout.
//!
//! crates/stream_replay says what the two files are.

use std::env;
use std::fs;
use std::path::PathBuf;

use judge::rng::Rng;
use oracle::stream::kinds::{every_bad_record, Kind, KINDS};
use oracle::stream::requests::*;
use oracle::stream::script::Script;
use oracle::stream::{Request, MOST_RECORDS, RECORD};

const SEED: u64 = 0x5354_5245_414D;

fn main() {
    let folder = PathBuf::from(env::args_os().nth(1).expect("usage: stream_list DIR"));
    let mut list = List::default();
    list.add(MOST_RECORDS, document_01);
    list.add(MOST_RECORDS, |_| {});
    list.add(MOST_RECORDS, bad_records);
    short_records(&mut list);
    for (n, (kind, length)) in CHOSEN.into_iter().enumerate() {
        list.add(length, |script| (kind_named(kind).write)(script, &Rng::new(SEED + n as u64)));
    }
    longest(&mut list);
    fs::write(folder.join("stdin"), list.streams).unwrap();
    fs::write(folder.join("stdout"), list.printed).unwrap();
}

/// The kinds of streams, and how many records of each. The short ones come first: tools/try-streams takes those alone.
const CHOSEN: [(&str, usize); 22] = [
    ("all operations", 30),
    ("entries that come and go", 24),
    ("delegations", 24),
    ("chains", 24),
    ("cascades", 24),
    ("copies", 24),
    ("recycled ids", 30),
    ("records that are refused", 24),
    ("any bytes", 24),
    ("all operations", 250),
    ("entries that come and go", 180),
    ("delegations", 220),
    ("chains", 240),
    ("cascades", 330),
    ("full spaces", 200),
    ("copies", 120),
    ("recycled ids", 120),
    ("recycled ids", 180),
    ("records that are refused", 80),
    ("R registered ids", 560),
    ("V logged pairs", 550),
    ("any bytes", 30),
];

fn kind_named(name: &str) -> Kind {
    KINDS.into_iter().find(|kind| kind.name == name).expect("a kind of streams")
}

// ---- Streams

/// The five records that document 01 prints the lines of.
fn document_01(script: &mut Script) {
    let parent = script.ask(create(0, 2, 31, 77));
    let child = script.ask(delegate(0, 1, 1, parent));
    script.ask(held_revoke(0, parent, 5));
    script.ask(check(1, 1, child));
    script.ask(drain(1));
}

/// Each where it changes nothing: a good record after them finds the world as it was opened.
fn bad_records(script: &mut Script) {
    for request in every_bad_record() {
        script.ask(request);
    }
    script.ask(create(0, 2, 31, 77));
}

/// A last record of every length that is too short, behind none and behind two.
fn short_records(list: &mut List) {
    for length in 1..RECORD {
        list.add(MOST_RECORDS, |script| script.end(&create(0, 2, 31, 77).bytes()[..length]));
    }
    for length in (1..RECORD).rev() {
        list.add(MOST_RECORDS, |script| {
            script.ask(create(3, 2, 31, 77));
            script.ask(space_made_create(3, 1, 78));
            script.end(&clear(3).bytes()[..length]);
        });
    }
}

/// As many records as a run takes; one more, whole and not; and one of two more.
fn longest(list: &mut List) {
    let ends: [&[u8]; 5] = [&[], &Request::of(8).bytes(), &[0x40], &[0x40; RECORD - 1], &[0x40; 2 * RECORD]];
    for end in ends {
        list.add(MOST_RECORDS, |script| {
            (kind_named("all operations").write)(script, &Rng::new(SEED));
            script.end(end);
        });
    }
}

// ---- The list

#[derive(Default)]
struct List {
    streams: Vec<u8>,
    printed: Vec<u8>,
    last_records: Vec<u8>,
    last_lines: Vec<u8>,
}

impl List {
    /// One more stream, of at most so many records before its end.
    fn add(&mut self, length: usize, write: impl FnOnce(&mut Script)) {
        let mut watch = |_: &_, _: &_, _: &_| {};
        let mut script = Script::new(length, &mut watch);
        write(&mut script);
        let (records, lines) = (script.records, script.lines);
        let kept = common(records.chunks(RECORD), self.last_records.chunks(RECORD));
        let unprinted = common(lines_of(&lines), lines_of(&self.last_lines));
        for number in [kept, records.len(), unprinted] {
            self.streams.extend(u16::try_from(number).unwrap().to_be_bytes());
        }
        self.streams.extend(&records[kept..]);
        self.printed.extend(&lines[unprinted..]);
        self.printed.push(b'\n');
        (self.last_records, self.last_lines) = (records, lines);
    }
}

fn lines_of(lines: &[u8]) -> impl Iterator<Item = &[u8]> {
    lines.split_inclusive(|&byte| byte == b'\n')
}

/// How many bytes there are in the pieces with which both begin.
fn common<'a>(one: impl Iterator<Item = &'a [u8]>, other: impl Iterator<Item = &'a [u8]>) -> usize {
    one.zip(other).take_while(|(a, b)| a == b).map(|(a, _)| a.len()).sum()
}
