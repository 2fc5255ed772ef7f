//! What the records of streams met: the answers of each operation, what happened in its call, and how streams ended.
//! A comparison fails where something that can be met was not, or something was that cannot.

use std::collections::BTreeMap;

use judge::layout::Numbers;
use oracle::stream::{Asked, Field, Served, MOST_RECORDS, RECORD};
use oracle::{Tally, View};

use super::events;
use crate::world::{Call, Made, ANSWERS};

/// The answers that each operation can give, from 0 to 15; those past 15 give 21. No record is given 9 or 12, since ids
/// do not run out; 10, since R is below 1,024; 23, since registered and recycled ids are at most R+1 together; 25, since
/// there are two pids and two queues; or 26.
const POSSIBLE: [&[u8]; 16] = [
    &[21],
    &[0, 4, 5, 20, 21, 22],
    &[0, 1, 3, 4, 6, 20, 21, 22],
    &[0, 8, 20, 21],
    &[0, 2, 3, 20, 21],
    &[0, 8, 20, 21],
    &[0, 8, 21],
    &[0, 2, 8, 20, 21, 24],
    &[0, 20, 21],
    &[0, 20, 21],
    &[0, 20, 21],
    &[0, 7, 11, 20, 21],
    &[0, 7, 11, 20, 21],
    &[0, 8, 20, 21],
    &[0, 21],
    &[0, 21, 24],
];

/// Operations have five bits.
const OPS: usize = 32;

#[derive(Default)]
pub struct Met {
    answers: [[u64; ANSWERS]; OPS],
    events: BTreeMap<&'static str, u64>,
    /// Last records by their length.
    last: [u64; RECORD + 1],
    empty: u64,
    longest: u64,
    too_long: u64,
}

impl Met {
    pub fn note(&mut self, served: &Served, before: &View, after: &View) {
        let Some(request) = served.request else { return };
        self.answers[request.get(Field::Op) as usize][usize::from(served.reply.answer)] += 1;
        let made = Made { numbers: Numbers::PROGRAM, reply: &served.reply, before, after };
        let events = match &served.call {
            Some(Asked::Space(call)) => events::of(call, &made),
            Some(Asked::Manager(call)) => call.events(&made),
            Some(Asked::Revocation(call)) => call.events(&made),
            None => Vec::new(),
        };
        for (event, happened) in events {
            *self.events.entry(event).or_default() += u64::from(happened);
        }
    }

    /// A stream of so many bytes.
    pub fn note_end(&mut self, bytes: usize) {
        self.last[(bytes + RECORD - 1) % RECORD + 1] += u64::from(bytes > 0);
        self.empty += u64::from(bytes == 0);
        self.longest += u64::from(bytes == MOST_RECORDS * RECORD);
        self.too_long += u64::from(bytes >= (MOST_RECORDS + 1) * RECORD);
    }

    pub fn records(&self) -> u64 {
        self.answers.iter().flatten().sum()
    }

    pub fn test(&self, tally: &mut Tally) {
        tally.test("each answer of each operation", |test| {
            for (op, times) in self.answers.iter().enumerate() {
                let possible = POSSIBLE.get(op).unwrap_or(&POSSIBLE[0]);
                let seen: Vec<(usize, u64)> =
                    times.iter().copied().enumerate().filter(|(_, times)| *times > 0).collect();
                println!("  operation {op}, times of each answer: {seen:?}");
                for (answer, times) in times.iter().enumerate() {
                    test.same((op, answer), possible.contains(&(answer as u8)), *times > 0);
                }
            }
        });
        tally.test("what happens in records", |test| {
            for (event, times) in &self.events {
                println!("  {event}: {times}");
                test.same(event, !events::IMPOSSIBLE.contains(event), *times > 0);
            }
            test.same("each that cannot", true, events::IMPOSSIBLE.iter().all(|event| self.events.contains_key(event)));
        });
        tally.test("each end of a stream", |test| {
            println!("  empty {}, of 2,048 records {}, longer {}", self.empty, self.longest, self.too_long);
            println!("  last records by their length: {:?}", &self.last[1..]);
            test.same("ends", true, [self.empty, self.longest, self.too_long].iter().all(|times| *times > 0));
            test.same("last records", true, self.last[1..].iter().all(|times| *times > 0));
        });
    }
}
