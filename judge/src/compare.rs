//! The judge beside another checker: cases for each rule, sound worlds, and damaged memories. They must agree on all.

use std::process::ExitCode;

use crate::damage::{Blow, Kind, Target};
use crate::layout::{Numbers, HEAD, MOST_CHILDREN};
use crate::rng::Rng;
use crate::tally::Tally;
use crate::{broken, cases, sound, worlds, Rule};

/// How many times the cases of a rule are made.
const ROUNDS: u64 = 100;
/// How many disagreements are shown.
const SHOWN: u64 = 10;

/// Compares the judge with `other` on the cases, on `count / 100` sound worlds and on `count` damaged memories.
pub fn run(other: impl Fn(&[u64]) -> bool, count: u64, seed: u64) -> ExitCode {
    println!("seed {seed}");
    let mut run = Run { other, rng: Rng::new(seed), rules: [RuleCounts::default(); Rule::ALL.len()], shown: 0 };
    run.cases();
    let worlds = run.sound_worlds(count / 100);
    let kinds = run.damage(count);

    let mut tally = Tally::default();
    println!("{:18}{:>8}{:>8}{:>10}{:>16}", "rule", "alone", "near", "damaged", "damaged alone");
    for (rule, counts) in Rule::ALL.into_iter().zip(run.rules) {
        tally.test(&counts.line(rule), counts.passed());
    }
    tally.test(&format!("sound worlds: {}, {} differ", worlds.made, worlds.differ), worlds.passed());
    for (kind, counts) in Kind::ALL.into_iter().zip(kinds) {
        tally.test(&counts.line(kind), counts.passed());
    }
    let looked: u64 = kinds.iter().map(|counts| counts.made).sum();
    tally.test(&format!("damaged memories: {looked}"), looked >= count);
    tally.finish()
}

/// What was met of one rule.
#[derive(Clone, Copy, Default)]
struct RuleCounts {
    /// Cases that break it alone, and sound ones within one of breaking it.
    alone: u64,
    near: u64,
    /// Cases that are not so, or on which the two disagree.
    wrong: u64,
    /// Damaged memories that break it, and those that break it alone.
    damage: u64,
    damage_alone: u64,
}

impl RuleCounts {
    fn line(&self, rule: Rule) -> String {
        let RuleCounts { alone, near, damage, damage_alone, .. } = self;
        format!("{:18}{alone:8}{near:8}{damage:10}{damage_alone:16}", format!("{rule:?}"))
    }

    fn passed(&self) -> bool {
        self.alone > 0 && self.near > 0 && self.wrong == 0
    }
}

/// What became of memories of one kind.
#[derive(Clone, Copy, Default)]
struct KindCounts {
    made: u64,
    sound: u64,
    differ: u64,
}

impl KindCounts {
    fn line(&self, kind: Kind) -> String {
        let name = format!("{kind:?}").to_lowercase();
        format!("damage, {name}: {}, of these {} sound, {} differ", self.made, self.sound, self.differ)
    }

    fn passed(&self) -> bool {
        self.made > 0 && self.differ == 0
    }
}

struct Run<O> {
    other: O,
    rng: Rng,
    rules: [RuleCounts; Rule::ALL.len()],
    shown: u64,
}

impl<O: Fn(&[u64]) -> bool> Run<O> {
    fn cases(&mut self) {
        for rule in Rule::ALL {
            for _ in 0..ROUNDS {
                for pair in cases::pairs(rule, &self.rng) {
                    self.case(rule, &pair);
                }
            }
        }
    }

    fn case(&mut self, rule: Rule, pair: &cases::Pair) {
        let near_is_sound = self.agreed(&pair.near, &[]);
        let breaks_alone = self.agreed(&pair.broken, &[rule]);
        let counts = &mut self.rules[rule as usize];
        counts.near += u64::from(near_is_sound);
        counts.alone += u64::from(breaks_alone);
        counts.wrong += u64::from(!near_is_sound) + u64::from(!breaks_alone);
    }

    /// Whether the memory breaks exactly these rules, and all say so.
    fn agreed(&mut self, mem: &[u64], rules: &[Rule]) -> bool {
        let found = broken(mem);
        let agreed = found == rules && self.same(mem, rules.is_empty());
        if !agreed {
            self.show(format!("a case of {rules:?} breaks {found:?}, the other says {}", (self.other)(mem)));
        }
        agreed
    }

    /// Whether the quick judge and the other checker both answer so.
    fn same(&self, mem: &[u64], answer: bool) -> bool {
        sound(mem) == answer && (self.other)(mem) == answer
    }

    fn sound_worlds(&mut self, count: u64) -> KindCounts {
        let mut counts = KindCounts::default();
        for n in 0..count {
            let numbers = some_numbers(&self.rng, n);
            let world = if n % 10 == 0 {
                let before = worlds::garbage(&self.rng, numbers.length());
                worlds::opened_at_random(&self.rng, before, numbers)
            } else if n % 10 == 1 {
                worlds::filled(self.rng.word(), numbers, self.rng.pick(&[0.25, 0.5, 1.0]))
            } else {
                worlds::random(&self.rng, numbers)
            };
            counts.made += 1;
            counts.differ += u64::from(!self.agreed(&world.mem, &[]));
        }
        counts
    }

    fn damage(&mut self, count: u64) -> [KindCounts; Kind::ALL.len()] {
        let mut kinds = [KindCounts::default(); Kind::ALL.len()];
        let mut made = 0;
        for n in 0.. {
            if made >= count {
                break;
            }
            let numbers = some_numbers(&self.rng, n);
            let mut world = worlds::random(&self.rng, numbers);
            assert!(sound(&world.mem));
            let strikes = if numbers == Numbers::LARGEST { 10 } else { 100 };
            self.strike(&mut world.mem, strikes, &mut kinds);
            made += strikes;
        }
        kinds
    }

    /// Damages a sound memory so many times.
    fn strike(&mut self, mem: &mut [u64], strikes: u64, kinds: &mut [KindCounts]) {
        let rng = Rng::new(self.rng.word());
        let mut target = Target::new(mem);
        for _ in 0..strikes {
            target.strike(&rng, |mem, blow| self.damaged(mem, blow, &mut kinds[blow.kind as usize]));
        }
    }

    fn damaged(&mut self, mem: &[u64], blow: &Blow, counts: &mut KindCounts) {
        let rules = broken(mem);
        let same = self.same(mem, rules.is_empty());
        counts.made += 1;
        counts.sound += u64::from(rules.is_empty());
        counts.differ += u64::from(!same);
        for &rule in &rules {
            self.rules[rule as usize].damage += 1;
            self.rules[rule as usize].damage_alone += u64::from(rules.len() == 1);
        }
        if !same {
            let changes: Vec<_> = blow.changed.iter().map(|&(place, old)| (place, old, mem.get(place))).collect();
            let head: Vec<_> = mem.iter().take(HEAD).collect();
            self.show(format!(
                "{:?} breaks {rules:?}, the other says {}; place, before, after: {changes:x?}; head {head:x?}",
                blow.kind,
                (self.other)(mem)
            ));
        }
    }

    fn show(&mut self, disagreement: String) {
        self.shown += 1;
        if self.shown <= SHOWN {
            println!("DIFFERS: {disagreement}");
        }
    }
}

/// The numbers of the n-th world: small ones; now and then the program's, or room for lists of 1,024 children; seldom
/// the largest.
fn some_numbers(rng: &Rng, n: u64) -> Numbers {
    match n {
        _ if n % 1000 == 999 => Numbers::LARGEST,
        _ if n % 100 == 49 => Numbers { s: 1, m: 1, r: 2 * MOST_CHILDREN + 2, v: 1, p: 1 },
        _ if n % 40 == 39 => Numbers::PROGRAM,
        _ if n % 40 == 19 => Numbers { s: 8, m: 16, r: 64, v: 64, p: 4 },
        _ => Numbers {
            s: rng.between(1, 3),
            m: rng.between(1, 6),
            r: rng.between(1, 8),
            v: rng.between(1, 6),
            p: rng.between(1, 3),
        },
    }
}
