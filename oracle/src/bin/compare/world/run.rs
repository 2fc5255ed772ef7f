//! A run of a comparison: its kinds of histories, and what they met. It fails where something that can be met was not.

use std::collections::BTreeMap;

use judge::rng::Rng;
use oracle::{Tally, Test};

use super::call::{Call, Made, ANSWERS};
use crate::kinds;

const SEED: u64 = 0x5354_4F4E_4553_5052;

/// One in so many memories that calls leave is kept.
const KEPT: usize = 1000;

/// Histories of one kind.
pub type Kind = fn(&mut Run, &mut Test, &Rng);

/// A call by its name, and the answers that it can give.
pub type Possible = (&'static str, &'static [u8]);

#[derive(Default)]
pub struct Run {
    /// The calls that it is about: what happens in others, which are made among them, is not counted.
    about: Vec<Possible>,
    calls: usize,
    /// How often a call gave an answer, by its name.
    answers: BTreeMap<&'static str, [u64; ANSWERS]>,
    /// How often what may have happened in a call did.
    events: BTreeMap<&'static str, u64>,
    /// Some of the memories that calls left.
    pub reached: Vec<Vec<u64>>,
}

impl Run {
    /// Makes the histories of all kinds.
    pub fn of(tally: &mut Tally, subject: &str, about: &[Possible], kinds: &[(&'static str, Kind)]) -> Run {
        println!("{subject}: random histories, each from seed {SEED:#x}");
        let mut run = Run { about: about.to_vec(), ..Run::default() };
        for &(name, kind) in kinds {
            kinds::test(tally, name, |test| kind(&mut run, test, &Rng::new(SEED)));
        }
        tally.test("at least 300,000 calls", |test| test.same("calls", true, run.calls >= 300_000));
        println!("{} calls on both sides", run.calls);
        run
    }

    /// One call on both sides, and the memory that it left.
    pub fn note(&mut self, call: &impl Call, made: &Made, mem: &[u64]) {
        self.note_answer(call, made.reply.answer);
        if self.about.iter().any(|(name, _)| *name == call.name()) {
            for (event, happened) in call.events(made) {
                *self.events.entry(event).or_default() += u64::from(happened);
            }
        }
        self.calls += 1;
        if self.calls % KEPT == 0 {
            self.reached.push(mem.to_vec());
        }
    }

    pub fn note_answer(&mut self, call: &(impl Call + ?Sized), answer: u8) {
        self.answers.entry(call.name()).or_insert([0; ANSWERS])[answer as usize] += 1;
    }

    /// Each answer of a call was seen exactly where the call can give it.
    pub fn test_answers(&self, tally: &mut Tally) {
        for &(name, possible) in &self.about {
            let seen = self.answers.get(name).copied().unwrap_or([0; ANSWERS]);
            let seen: Vec<(u8, u64)> = (0..).zip(seen).collect();
            println!("  times of each answer: {:?}", seen.iter().filter(|(_, times)| *times > 0).collect::<Vec<_>>());
            tally.test(name, |test| {
                for &(answer, times) in &seen {
                    test.same(answer, possible.contains(&answer), times > 0);
                }
            });
        }
    }

    /// Each of these calls was made, and done.
    pub fn test_done(&self, tally: &mut Tally, test: &'static str, calls: impl Iterator<Item = &'static str>) {
        tally.test(test, |test| {
            for name in calls {
                test.same(name, true, self.answers.get(name).is_some_and(|times| times[0] > 0));
            }
        });
    }

    /// What may happen in a call did.
    pub fn test_events(&self, tally: &mut Tally) {
        tally.test("what happens in calls", |test| {
            for (event, times) in &self.events {
                println!("  {event}: {times}");
                test.same(event, true, *times > 0);
            }
        });
    }
}
