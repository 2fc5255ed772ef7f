//! What a call of a space did in a stream that its answer does not say, and what of all events cannot happen there.

use judge::layout::id_of;
use oracle::calls::{SpaceCall, Words};
use oracle::states::registered;

use crate::world::{Event, Made};

/// What the program's world and its two pids leave no room for: counters at 2^64, 1,024 children, over 1,000 ids, other
/// process lists, other areas.
pub const IMPOSSIBLE: [&str; 22] = [
    "create counts around",
    "delegate counts around",
    "delete counts around",
    "the epoch counts around",
    "the count of revoked ones counts around",
    "a collection",
    "a collected child has an empty list",
    "a collected child is revoked",
    "a child stays for its holders",
    "a child stays for its children",
    "a held child of a full list is returned",
    "a collection, then a refusal",
    "a collection makes room in a full registry",
    "over 1,000 are revoked",
    "a list of 33 pids",
    "24 where 25 is near",
    "25 for one queue",
    "a subtree with no pid listed",
    "a subtree with 32 pids listed",
    "a pid is listed twice",
    "no queue is free for a pid, and nothing to tell it",
    "a drain of an area one word too short",
];

pub fn of(&(call, [s, a, ..]): &(SpaceCall, Words), made: &Made) -> Vec<Event> {
    match call {
        SpaceCall::Lookup => vec![("a lookup visits several slots", made.reply.values[1] > 1)],
        SpaceCall::Insert => insert(made, s as usize, id_of(a)).into(),
        SpaceCall::CreateCapability => space_made(made).into(),
        SpaceCall::Remove => remove(made, s as usize, id_of(a)).into(),
        SpaceCall::Copy => copy(made, [s, a].map(|number| number as usize)).into(),
        SpaceCall::Revoke => {
            vec![(
                "a space of a later generation revokes",
                made.gave(0) && made.before.spaces[s as usize].generation > 0,
            )]
        }
        _ => Vec::new(),
    }
}

fn insert(made: &Made, s: usize, id: u64) -> [Event; 6] {
    let [before, after] = [made.before, made.after].map(|view| &view.spaces[s].table);
    let (done, moved) = (made.gave(0), made.reply.values[1] > 0);
    [
        ("an insert moves entries", moved),
        ("an insert moves entries and drops removed marks", moved && before.tombstones > 0),
        ("an insert rebuilds to as many slots", moved && before.slots.len() == after.slots.len()),
        ("an insert uses up a removed mark", done && !moved && after.tombstones < before.tombstones),
        ("an insert of a registered id", done && registered(made.before, id).is_some()),
        ("an insert of an id that is next", done && id == made.before.manager.next_id),
    ]
}

fn space_made(made: &Made) -> [Event; 4] {
    let recycled = !made.before.manager.recycled.is_empty();
    [
        ("a space-made create moves entries", made.gave(0) && made.reply.values[1] > 0),
        ("a space-made create takes a recycled id", made.gave(0) && recycled),
        ("a space-made create loses its id", !made.gave(0) && !recycled),
        ("a space-made create loses a recycled id", !made.gave(0) && recycled),
    ]
}

fn remove(made: &Made, s: usize, id: u64) -> [Event; 4] {
    let (done, after) = (made.gave(0), &made.after.spaces[s].table);
    [
        ("a remove visits several slots", made.reply.values[1] > 1),
        ("a remove leaves no slots", done && after.slots.is_empty()),
        ("a remove of a stray", done && registered(made.before, id).is_none()),
        ("a remove of the last that is held", done && registered(made.after, id).is_some_and(|e| e.holders == 0)),
    ]
}

fn copy(made: &Made, [target, source]: [usize; 2]) -> [Event; 5] {
    let [into, from] = [target, source].map(|s| made.before.spaces[s].used);
    [
        ("a copy moves entries", made.reply.values[1] > 0),
        ("a copy onto itself", target == source && into > 0),
        ("a copy over entries", target != source && into > 0 && from > 0),
        ("a copy of no entries", from == 0 && into > 0),
        ("a copy takes a generation", made.before.spaces[target].generation != made.after.spaces[target].generation),
    ]
}
