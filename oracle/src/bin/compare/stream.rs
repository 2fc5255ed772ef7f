//! Random request streams through the port's run and through the original: the lines byte for byte, and the memory after
//! the run beside the original's state. Then which answers each operation was seen to give, and what was seen to happen.

mod events;
mod met;

use judge::layout::Numbers;
use judge::rng::Rng;
use judge::worlds;
use oracle::calls::Reply;
use oracle::stream::kinds::{Kind, KINDS};
use oracle::stream::requests::create;
use oracle::stream::script::Script;
use oracle::stream::{MOST_RECORDS, RECORD};
use oracle::{memory, Tally, Test, View};

use self::met::Met;
use crate::world::port;

const SEED: u64 = 0x5354_5245_414D;
/// Streams of each kind.
const STREAMS: usize = 180;
/// The longest line has so many bytes, and the run asks for room for as many as there can be lines.
const LINE: usize = 28;

pub fn compare(tally: &mut Tally) {
    println!("the request stream: {STREAMS} random streams of each kind, from seed {SEED:#x}");
    let mut met = Met::default();
    let mut mem = worlds::garbage(&Rng::new(SEED), Numbers::PROGRAM.length());
    for (first, kind) in (0..).step_by(STREAMS).zip(KINDS) {
        tally.test(kind.name, |test| {
            for n in first..first + STREAMS {
                one_stream(test, &mut met, &mut mem, kind, n as u64);
            }
        });
    }
    tally.test("areas too short", |test| areas_too_short(test, &mut mem));
    println!("{} records on both sides", met.records());
    met.test(tally);
}

/// Stream `n`, of this kind, on the memory that the stream before it left.
fn one_stream(test: &mut Test, met: &mut Met, mem: &mut [u64], kind: Kind, n: u64) {
    let rng = Rng::new(SEED + n);
    let length = some_length(&rng, kind.least);
    let mut watch = |served: &_, before: &_, after: &_| met.note(served, before, after);
    let mut script = Script::new(length, &mut watch);
    (kind.write)(&mut script, &rng);
    script.end(&some_end(&rng, length));
    let (records, lines, state) = (script.records, script.lines, script.state);
    met.note_end(records.len());

    let mut area =
        worlds::garbage(&rng, room(&records) + rng.pick(&[0, 1, 100])).iter().map(|word| *word as u8).collect();
    let lent: Vec<u8> = Vec::clone(&area);
    let reply = port::run(&records, mem, &mut area);
    let value = reply.values[0] as usize;
    let written = area.len().min(value);
    test.same((kind.name, n, "answer"), (0, lines.len()), (reply.answer, value));
    test.same((kind.name, n, "lines"), None, first_other_line(&lines, &area[..written]));
    test.same((kind.name, n, "the rest of the lines' area"), true, lent[written..] == area[written..]);
    test.same((kind.name, n, "memory"), (true, true), (judge::sound(mem), same_state(&state, mem)));
}

/// Short ones and long ones, seldom all that a run takes.
fn some_length(rng: &Rng, least: usize) -> usize {
    let more = match rng.below(16) {
        0 => return MOST_RECORDS,
        1..=3 => rng.below(20),
        4..=11 => rng.below(200),
        _ => rng.below(700),
    };
    least + more
}

/// Behind a run's last record anything; else mostly nothing, or a record that is too short.
fn some_end(rng: &Rng, length: usize) -> Vec<u8> {
    let bytes = match rng.below(4) {
        0 => rng.between(1, RECORD - 1),
        1 if length == MOST_RECORDS => rng.between(RECORD, 3 * RECORD),
        _ => 0,
    };
    create(0, 1, 31, 1).bytes().into_iter().cycle().take(bytes).collect()
}

/// The bytes of lines that a run asks for.
fn room(records: &[u8]) -> usize {
    LINE * records.len().div_ceil(RECORD).min(MOST_RECORDS + 1)
}

fn first_other_line(expected: &[u8], written: &[u8]) -> Option<(String, String)> {
    let lines = |bytes: &[u8]| -> Vec<String> { String::from_utf8_lossy(bytes).lines().map(String::from).collect() };
    let (expected, written) = (lines(expected), lines(written));
    let at = (0..expected.len().max(written.len())).find(|&n| expected.get(n) != written.get(n))?;
    Some((expected.get(at).cloned().unwrap_or_default(), written.get(at).cloned().unwrap_or_default()))
}

fn same_state(state: &View, mem: &[u64]) -> bool {
    memory::view(mem).as_ref() == Some(state)
}

/// The run itself is refused, with 21 for the lines' area and 26 for the memory, and changes nothing.
fn areas_too_short(test: &mut Test, mem: &mut [u64]) {
    let records = create(0, 2, 31, 77).bytes().repeat(3);
    let before = (mem.to_vec(), vec![7; room(&records)]);
    for (words, bytes, answer) in [(0, 1, 21), (1, 0, 26), (1, 1, 21), (mem.len(), 0, 26), (0, room(&records), 21)] {
        let (mut mem, mut lines) = before.clone();
        let (kept_words, kept_bytes) = (mem.len() - words, lines.len() - bytes);
        let Reply { answer: given, values, .. } = port::run(&records, &mut mem[..kept_words], &mut lines[..kept_bytes]);
        test.same((words, bytes), (answer, 0, true), (given, values[0], (mem, lines) == before));
    }
}
