//! The port's table and the original's, timed in one process. Prints a line a row for tools/measure: operation, live
//! entries, and the nanoseconds of one operation on each side.
//!
//! A run is a batch of operations on one side; the two sides run in turn, and each figure is the least of
//! its runs, so that what else the machine does stays out of it. Both sides are calls that are not inlined.

use std::hint::black_box;
use std::time::Instant;

use oracle::arguments::Random;
use oracle::cap::object::ObjectRef;
use oracle::cap::space::{BareTable, CapabilityEntry, EntryView};
use oracle::cap::token::{CapabilityToken, Rights};
use oracle::port_table::PortTable;

// Where code stands in a cache line moves figures as small as these. So tools/measure builds this program for four
// placements, in each of which all code behind these bytes stands 16 bytes further on.
const PLACEMENT: usize = match option_env!("STONESPRY_PLACEMENT") {
    Some(digit) => (digit.as_bytes()[0] - b'0') as usize,
    None => 0,
};
std::arch::global_asm!(
    ".pushsection .text.placement, \"axR\", @progbits",
    ".skip 16 * {}",
    ".popsection",
    const PLACEMENT,
);

const RUNS: usize = 301;
/// Operations of a batch, at least.
const BATCH: usize = 1024;

/// What is measured of a table. An entry is its id, and all else the same for all.
trait Table {
    fn new(most: usize) -> Self;
    fn clear(&mut self);
    fn find(&self, id: u64);
    fn insert(&mut self, id: u64);
    /// As a space removes: finds the id, which is there, and removes at its slot.
    fn remove(&mut self, id: u64);
}

impl Table for PortTable {
    fn new(most: usize) -> Self {
        PortTable::new(most)
    }

    fn clear(&mut self) {
        PortTable::clear(self);
    }

    fn find(&self, id: u64) {
        black_box(PortTable::find(self, id));
    }

    fn insert(&mut self, id: u64) {
        self.insert_new(EntryView { token: id, object: 77, rights: 31, uses: 0 });
    }

    fn remove(&mut self, id: u64) {
        let i = PortTable::find(self, id).at;
        let mut out = [0; 4];
        black_box(self.remove_into(i, &mut out));
        black_box(&out);
    }
}

impl Table for BareTable {
    fn new(_most: usize) -> Self {
        BareTable::new()
    }

    fn clear(&mut self) {
        *self = BareTable::new();
    }

    fn find(&self, id: u64) {
        black_box(BareTable::find(self, id));
    }

    fn insert(&mut self, id: u64) {
        let object = ObjectRef { identity: 77, valid: true, type_code: 0 };
        self.insert_uncounted(CapabilityEntry::new(CapabilityToken::from_u64(id), object, Rights::new(31)));
    }

    fn remove(&mut self, id: u64) {
        let i = BareTable::find(self, id).unwrap();
        black_box(self.remove_at(i));
    }
}

/// A measurement on one side: `prepare` is not timed, `run` is. Each `run` is a function of its own, so that
/// what stands around it takes no register from its loop.
trait Batch {
    fn prepare(&mut self);
    fn run(&mut self);
}

struct Insert<T> {
    tables: Vec<T>,
    ids: Vec<u64>,
}

impl<T: Table> Batch for Insert<T> {
    fn prepare(&mut self) {
        self.tables.iter_mut().for_each(T::clear);
    }

    #[inline(never)]
    fn run(&mut self) {
        for table in &mut self.tables {
            fill(table, &self.ids);
        }
    }
}

struct Find<T> {
    table: T,
    ids: Vec<u64>,
}

impl<T: Table> Batch for Find<T> {
    fn prepare(&mut self) {}

    #[inline(never)]
    fn run(&mut self) {
        for &id in &self.ids {
            self.table.find(id);
        }
    }
}

struct Remove<T> {
    tables: Vec<T>,
    ids: Vec<u64>,
    shuffled: Vec<u64>,
}

impl<T: Table> Batch for Remove<T> {
    fn prepare(&mut self) {
        for table in &mut self.tables {
            table.clear();
            fill(table, &self.ids);
        }
    }

    #[inline(never)]
    fn run(&mut self) {
        for table in &mut self.tables {
            self.shuffled.iter().for_each(|&id| table.remove(id));
        }
    }
}

/// The oldest entry leaves and a new one comes. With `anew` each batch begins with fresh tables, else it goes on.
struct Churn<T> {
    tables: Vec<T>,
    live: u64,
    pairs: u64,
    next: u64,
    anew: bool,
}

impl<T: Table> Batch for Churn<T> {
    fn prepare(&mut self) {
        if self.anew || self.next == 0 {
            let ids: Vec<u64> = (1..=self.live).collect();
            for table in &mut self.tables {
                table.clear();
                fill(table, &ids);
            }
            self.next = self.live + 1;
        }
    }

    #[inline(never)]
    fn run(&mut self) {
        for table in &mut self.tables {
            for next in self.next..self.next + self.pairs {
                table.remove(next - self.live);
                table.insert(next);
            }
        }
        self.next += self.pairs;
    }
}

fn fill<T: Table>(table: &mut T, ids: &[u64]) {
    ids.iter().for_each(|&id| table.insert(id));
}

/// Enough tables for a batch of operations.
fn tables<T: Table>(most: usize, each: usize) -> Vec<T> {
    (0..BATCH.div_ceil(each)).map(|_| T::new(most)).collect()
}

fn filled<T: Table>(ids: &[u64]) -> T {
    let mut table = T::new(ids.len());
    fill(&mut table, ids);
    table
}

fn shuffled(ids: &[u64], random: &mut Random) -> Vec<u64> {
    let mut ids = ids.to_vec();
    for last in (1..ids.len()).rev() {
        ids.swap(last, random.below(last as u64 + 1) as usize);
    }
    ids
}

fn time(batch: &mut impl Batch) -> f64 {
    batch.prepare();
    let start = Instant::now();
    batch.run();
    start.elapsed().as_nanos() as f64
}

/// One line: both sides in turn, so many operations a batch.
fn line(name: &str, live: usize, operations: usize, mut port: impl Batch, mut original: impl Batch) {
    let (mut ours, mut theirs) = (f64::INFINITY, f64::INFINITY);
    for _ in 0..RUNS {
        ours = ours.min(time(&mut port));
        theirs = theirs.min(time(&mut original));
    }
    let (ours, theirs) = (ours / operations as f64, theirs / operations as f64);
    println!("{name}\t{live}\t{ours:.3}\t{theirs:.3}");
}

fn insert(live: usize) {
    let ids: Vec<u64> = (1..=live as u64).collect();
    let operations = BATCH.div_ceil(live) * live;
    let port = Insert::<PortTable> { tables: tables(live, live), ids: ids.clone() };
    line("insert, from empty", live, operations, port, Insert::<BareTable> { tables: tables(live, live), ids });
}

fn find(name: &str, live: usize, pick: impl FnMut() -> u64) {
    let ids: Vec<u64> = (1..=live as u64).collect();
    let picked: Vec<u64> = std::iter::repeat_with(pick).take(BATCH).collect();
    let port = Find::<PortTable> { table: filled(&ids), ids: picked.clone() };
    line(name, live, BATCH, port, Find::<BareTable> { table: filled(&ids), ids: picked });
}

fn remove(live: usize, random: &mut Random) {
    let ids: Vec<u64> = (1..=live as u64).collect();
    let order = shuffled(&ids, random);
    let operations = BATCH.div_ceil(live) * live;
    let port = Remove::<PortTable> { tables: tables(live, live), ids: ids.clone(), shuffled: order.clone() };
    line(
        "remove, to empty",
        live,
        operations,
        port,
        Remove::<BareTable> { tables: tables(live, live), ids, shuffled: order },
    );
}

fn churn(name: &str, live: usize, anew: bool) {
    let pairs = 4 * live;
    let operations = BATCH.div_ceil(pairs) * pairs;
    let (live_ids, count) = (live as u64, pairs as u64);
    let port = Churn::<PortTable> { tables: tables(live, pairs), live: live_ids, pairs: count, next: 0, anew };
    let original = Churn::<BareTable> { tables: tables(live, pairs), live: live_ids, pairs: count, next: 0, anew };
    line(name, live, operations, port, original);
}

fn main() {
    let mut random = Random::new(1);
    let sizes = [8, 64, 256];
    for live in sizes {
        insert(live);
    }
    for live in sizes {
        find("find, hit", live, || 1 + random.below(live as u64));
    }
    for live in sizes {
        find("find, miss", live, || (1 << 40) + random.below(1 << 20));
    }
    for live in sizes {
        remove(live, &mut random);
    }
    for live in sizes {
        churn("churn, marks up to 3/4 load", live, false);
    }
    for live in [6, 48, 192] {
        churn("churn, live at 3/4 load first", live, true);
    }
}
