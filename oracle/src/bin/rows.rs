//! Document 01's rows P1 to P9, run on the original: the rows are about this source, and what the
//! comparisons see of its private state is what the rows speak of.

use std::process::ExitCode;

use oracle::arch::timer::set_timestamp_secs;
use oracle::cap::manager::{cap_manager, check_capability, CapError, ManagerView, RegisteredView};
use oracle::cap::object::ObjectRef;
use oracle::cap::revocation::{drain_notifications, revoke_held, QueueView, RevocationReason, RevocationView};
use oracle::cap::space::{BareTable, CapabilityEntry, EntryView, SlotView, SpaceView, TableView};
use oracle::cap::token::{alloc_cap_id, CapAllocError, CapabilityToken, Rights};
use oracle::services::process_server::set_process_ids;
use oracle::{History, Tally, Test};

fn object(identity: u64, type_code: u8) -> ObjectRef {
    ObjectRef { identity, valid: true, type_code }
}

/// Inserts an entry of this id; the answer is how many entries were moved.
fn insert(table: &mut BareTable, id: u64) -> usize {
    table.insert_new(CapabilityEntry::new(CapabilityToken::new(id, 0, 0, 0), object(id, 0), Rights::ALL))
}

fn remove(table: &mut BareTable, id: u64) {
    let i = table.find(id).unwrap();
    table.remove_at(i);
}

/// A table with ids 1 to `live` + `removed`, of which the last `removed` are removed again.
fn table(live: u64, removed: u64) -> BareTable {
    let mut table = BareTable::new();
    for id in 1..=live + removed {
        insert(&mut table, id);
    }
    for id in live + 1..=live + removed {
        remove(&mut table, id);
    }
    table
}

/// What inserting one more gives: slots and moved entries.
fn grown(live: u64, removed: u64) -> (usize, usize) {
    let mut table = table(live, removed);
    let moved = insert(&mut table, 99);
    (table.view().slots.len(), moved)
}

fn rows_of_the_table(tally: &mut Tally) {
    tally.test("P1", |t| {
        let eight = table(1, 0);
        let homes: Vec<usize> = (0..8).map(|id| eight.home(id)).collect();
        t.same("homes of 0..7", vec![0, 1, 2, 4, 5, 7, 0, 2], homes);
    });
    let mut two = BareTable::new();
    insert(&mut two, 2);
    insert(&mut two, 7);
    remove(&mut two, 2);
    tally.test("P2", |t| {
        t.same("search 7", (Some(3), 2), (two.find(7), two.visits(7)));
    });
    tally.test("P3", |t| {
        t.same("search 2", (None, 3), (two.find(2), two.visits(2)));
        insert(&mut two, 2);
        t.same("insert 2", true, matches!(two.view().slots[2], SlotView::Full(e) if e.token == 2));
    });
    tally.test("P4", |t| t.same("sixth live entry", (8, 0), grown(5, 0)));
    tally.test("P5", |t| t.same("seventh", (16, 6), grown(6, 0)));
    tally.test("P6", |t| t.same("five live, one removed", (16, 5), grown(5, 1)));
    tally.test("P7", |t| t.same("one live, five removed", (8, 1), grown(1, 5)));
}

fn rows_of_the_world(tally: &mut Tally) {
    tally.test("P8", |t| {
        let _history = History::open(&[]);
        cap_manager().put(&ManagerView { next_id: (1 << 48) - 1, ..cap_manager().view() });
        t.same("the last id", Ok((1 << 48) - 1), alloc_cap_id());
        t.same("past it", Err(CapAllocError::IdExhausted), alloc_cap_id());
    });
    let fresh = History::open(&[32; 4]).view();
    tally.test("P9", |t| {
        let history = History::open(&[32; 4]);
        t.same("a new history", &fresh, &history.view());
        five_calls(t, &history);
        state_after_five_calls(t, &history);
    });
}

fn five_calls(t: &mut Test, history: &History) {
    let (first, second) = (&history.spaces[0], &history.spaces[1]);
    set_process_ids(&[1, 2]);
    let parent = cap_manager().create_capability(object(77, 2), Rights::new(31), first).unwrap();
    t.same("create", 0xf200000000000001, parent.to_u64());
    let child = cap_manager().delegate(parent, first, second, Rights::new(1)).unwrap();
    t.same("delegate", 0x1200000000000002, child.to_u64());
    set_timestamp_secs(5);
    t.same("held revoke", Ok(()), revoke_held(first, parent));
    let checked = check_capability(child, Rights::new(1), second);
    t.same("check", Err(CapError::CapabilityRevoked), checked);
    t.same("drain", 1, drain_notifications(1).len());
}

/// The parent was looked up twice, the child once; both are revoked, logged and still held; the
/// notice of pid 2 is left.
fn state_after_five_calls(t: &mut Test, history: &History) {
    let view = history.view();
    let parent = EntryView { token: 0xf200000000000001, object: 77, rights: 31, uses: 2 };
    let child = EntryView { token: 0x1200000000000002, object: 77, rights: 1, uses: 1 };
    t.same("space 0", space_of_one(1, parent, 2), view.spaces[0].clone());
    t.same("space 1", space_of_one(2, child, 1), view.spaces[1].clone());
    let registered = |id| RegisteredView { id, object: 77, generation: 1, revoked: true, holders: 1 };
    let manager = ManagerView {
        registry: vec![registered(1), registered(2)],
        next_id: 3,
        recycled: vec![],
        created: 1,
        delegated: 1,
        revoked: 2,
        deleted: 0,
    };
    t.same("manager", manager, view.manager);
    let revocation = RevocationView {
        tree: vec![(1, vec![2])],
        set: vec![(1, 0), (2, 0)],
        log: vec![(1, 0), (2, 0)],
        epoch: 2,
        queues: vec![QueueView { pid: 2, notices: vec![(2, 5, RevocationReason::ParentRevoked)] }],
    };
    t.same("revocation", revocation, view.revocation);
}

/// A space of quota 32 whose one entry stands in this slot and was met this often.
fn space_of_one(slot: usize, entry: EntryView, hits: u64) -> SpaceView {
    let mut slots = vec![SlotView::Empty; 8];
    slots[slot] = SlotView::Full(entry);
    SpaceView {
        quota: 32,
        generation: 0,
        used: 1,
        hits,
        misses: 0,
        total_caps: 1,
        table: TableView { slots, full: 1, tombstones: 0 },
    }
}

fn main() -> ExitCode {
    let mut tally = Tally::default();
    rows_of_the_table(&mut tally);
    rows_of_the_world(&mut tally);
    tally.finish()
}
