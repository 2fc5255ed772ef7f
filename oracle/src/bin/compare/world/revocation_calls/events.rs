//! What a call of revocation did that its answer does not say, by the states before and after it. A comparison counts
//! each of these, and fails where one never happened.

use std::collections::{BTreeMap, BTreeSet, HashSet};

use judge::layout::{id_of, ID_END, NOTICES};
use oracle::calls::revocation::{Kernel, MOST_LISTED, MOST_TOKENS};
use oracle::calls::RevocationCall::{self, *};
use oracle::states::{entries, is_revoked, list, registered};
use oracle::View;

use crate::world::call::{Event, Made};

pub fn of(call: &RevocationCall, made: &Made) -> Vec<Event> {
    match call {
        Revoke { token, kernel } | RevokeCapability { token, kernel } => revoke(made, *token, kernel),
        RevokeHeld { s, token, kernel } => {
            let mut events = revoke(made, *token, kernel);
            events.extend(held(made, *s, *token));
            events
        }
        RevokeBatch { tokens, .. } => batch(made, tokens).into(),
        IsRevoked { token } => listed(made, *token).into(),
        Descendants { id, area } => descendants(made, *id, *area).into(),
        Notify { pid, id, reason, .. } => notify(made, *pid, *id, *reason).into(),
        Drain { pid, area } => in_area(made, *pid, *area, DRAINS).into(),
        Peek { pid, area } => in_area(made, *pid, *area, PEEKS).into(),
        Count { pid } => {
            let has = length(made.before, *pid) > 0;
            vec![("a count of notices", made.gave(0) && has), ("a count of none", made.gave(0) && !has)]
        }
        Cleanup { pid } => {
            let has = length(made.before, *pid) > 0;
            vec![("a queue is cleaned up", made.gave(0) && has), ("no queue is cleaned up", made.gave(0) && !has)]
        }
        QueueStats => {
            let processes = made.reply.values[0] as usize;
            vec![
                ("no process has notices", made.gave(0) && processes == 0),
                ("all queues have notices", made.gave(0) && processes == made.numbers.p),
            ]
        }
        WriteReason { reason, area } => name(made, *reason, *area).into(),
        Epoch => Vec::new(),
    }
}

// ---- Revoking

/// What a revoke of one token asks for in the state before it.
struct Cascade<'a> {
    kernel: &'a Kernel,
    /// Under the id, and how deep.
    descendants: usize,
    depth: usize,
    /// Not revoked yet, the id among them; and those of their pairs that the log has not.
    fresh: usize,
    new_pairs: usize,
    /// Listed pids without a queue, a repeat once, where a descendant is revoked.
    new_queues: usize,
    /// Places of the log and of queues.
    free_pairs: usize,
    free_queues: usize,
}

impl Cascade<'_> {
    fn of<'a>(made: &Made, id: u64, kernel: &'a Kernel) -> Cascade<'a> {
        let (before, numbers) = (made.before, made.numbers);
        let (descendants, depth) = descent(before, id);
        let fresh: Vec<u64> =
            [id].into_iter().chain(descendants.iter().copied()).filter(|&id| is_fresh(before, id)).collect();
        let pids: BTreeSet<u64> = kernel.listed.iter().copied().filter(|&pid| length(before, pid) == 0).collect();
        Cascade {
            kernel,
            descendants: descendants.len(),
            depth,
            fresh: fresh.len(),
            new_pairs: fresh.iter().filter(|&&id| !is_logged(before, id, 0)).count(),
            new_queues: if fresh.len() > 1 { pids.len() } else { 0 },
            free_pairs: numbers.v - before.revocation.log.len(),
            free_queues: numbers.p - before.revocation.queues.len(),
        }
    }

    /// How many notices each listed pid gets.
    fn notices(&self) -> BTreeMap<u64, usize> {
        let mut notices = BTreeMap::new();
        for pid in &self.kernel.listed {
            *notices.entry(*pid).or_default() += self.fresh - 1;
        }
        notices
    }
}

fn revoke(made: &Made, token: u64, kernel: &Kernel) -> Vec<Event> {
    let Made { before, after, .. } = made;
    let (id, entry) = (id_of(token), registered(before, id_of(token)));
    let cascade = Cascade::of(made, id, kernel);
    let logs = after.revocation.log.len() > before.revocation.log.len();
    let mut events = vec![
        ("what is revoked is revoked again", made.gave(0) && entry.is_some_and(|e| e.revoked)),
        ("an unregistered token joins the log", made.gave(0) && entry.is_none() && logs),
        ("an unregistered token is in the log already", made.gave(0) && entry.is_none() && !logs),
        ("a list of 33 pids", made.gave(21) && kernel.listed.len() == MOST_LISTED + 1),
        ("24 for one pair", made.gave(24) && cascade.new_pairs == cascade.free_pairs + 1),
        ("24 where 25 is near", made.gave(24) && cascade.new_queues > cascade.free_queues),
        ("25 for one queue", made.gave(25) && cascade.new_queues == cascade.free_queues + 1),
        ("the epoch counts around", after.revocation.epoch < before.revocation.epoch),
    ];
    let done = made.gave(0) && entry.is_some_and(|e| !e.revoked);
    events.extend(subtree(made, token, &cascade, done));
    events.extend(notices(made, &cascade, done));
    events
}

/// An id is revoked with all under it.
fn subtree(made: &Made, token: u64, cascade: &Cascade, done: bool) -> [Event; 10] {
    let Made { before, after, .. } = made;
    let many = done && cascade.fresh > 1;
    let other = || registered(before, id_of(token)).is_some_and(|e| u64::from(e.generation) != generation(token));
    [
        ("one capability is revoked", done && cascade.fresh == 1),
        ("a subtree is revoked", many),
        ("over 1,000 are revoked", done && cascade.fresh > 1000),
        ("a subtree over 100 deep is revoked", many && cascade.depth > 100),
        ("some of a subtree were revoked", many && cascade.fresh <= cascade.descendants),
        ("a token of another generation revokes", done && other()),
        ("a pair is in the log already", done && cascade.new_pairs < cascade.fresh),
        ("the log has no place, and needs none", done && cascade.free_pairs == 0),
        ("the log is full then", done && cascade.new_pairs > 0 && cascade.free_pairs == cascade.new_pairs),
        ("the count of revoked ones counts around", done && after.manager.revoked < before.manager.revoked),
    ]
}

/// Those under it are queued to the listed pids.
fn notices(made: &Made, cascade: &Cascade, done: bool) -> [Event; 9] {
    let listed = &cascade.kernel.listed;
    let (many, notices) = (done && cascade.fresh > 1, if done { cascade.notices() } else { BTreeMap::new() });
    let fills = |(pid, new): (&u64, &usize)| many && length(made.before, *pid) + new > NOTICES;
    let new = || listed.iter().any(|&pid| length(made.before, pid) == 0);
    [
        ("a subtree with no pid listed", many && listed.is_empty()),
        ("a subtree with 32 pids listed", many && listed.len() == MOST_LISTED),
        ("a pid is listed twice", many && notices.len() < listed.len()),
        ("a listed pid gets a queue", many && cascade.new_queues > 0),
        ("a listed pid has a queue", many && listed.iter().any(|&pid| length(made.before, pid) > 0)),
        ("a cascade drops the oldest notices", notices.iter().any(fills)),
        ("a cascade drops notices of its own", many && notices.values().any(|&new| new > NOTICES)),
        ("no queue is free, and none is needed", many && cascade.free_queues == 0 && !listed.is_empty()),
        ("no queue is free for a pid, and nothing to tell it", done && !many && cascade.free_queues == 0 && new()),
    ]
}

fn held(made: &Made, s: usize, token: u64) -> [Event; 4] {
    let Made { reply, before, .. } = made;
    let (id, absent) = (id_of(token), made.gave(8));
    let has_id = || entries(before, s).any(|e| id_of(e.token) == id);
    [
        ("a held revoke visits several slots", reply.values[1] > 1),
        ("a held revoke of a stray", made.gave(0) && registered(before, id).is_none()),
        ("a held revoke of what is revoked", made.gave(0) && is_revoked(before, id)),
        ("a held revoke with another token of an entry", absent && has_id()),
    ]
}

fn batch(made: &Made, tokens: &[u64]) -> [Event; 11] {
    let Made { reply, before, after, .. } = made;
    let (done, gave) = (made.gave(0), reply.values[0] as usize);
    let different: HashSet<&u64> = tokens.iter().collect();
    let some = |wanted: &dyn Fn(u64) -> bool| done && tokens.iter().any(|&token| wanted(id_of(token)));
    let refused = done && gave < tokens.len();
    let joins = |&token: &u64| {
        let logged = |view: &View| is_logged(view, id_of(token), generation(token));
        registered(before, id_of(token)).is_none() && logged(after) && !logged(before)
    };
    [
        ("an empty batch", done && tokens.is_empty()),
        ("a token is twice in a batch", done && different.len() < tokens.len()),
        ("an unregistered token in a batch", some(&|id| registered(before, id).is_none())),
        ("a revoked capability in a batch", some(&|id| is_revoked(before, id))),
        ("a capability in a batch", some(&|id| is_fresh(before, id))),
        ("all of a batch are done", done && gave > 1 && gave == tokens.len()),
        ("some of a batch are refused", refused && gave > 0),
        ("all of a batch are refused", refused && gave == 0),
        ("a batch goes on past a refusal", refused && tokens.last().is_some_and(joins)),
        ("a batch of 65,535", done && tokens.len() == MOST_TOKENS),
        ("a batch of 65,536", made.gave(21) && tokens.len() == MOST_TOKENS + 1),
    ]
}

// ---- What revocation says of itself

fn listed(made: &Made, token: u64) -> [Event; 5] {
    let (id, before) = (id_of(token), made.before);
    let [is, is_not] = [1, 0].map(|value| made.gave(0) && made.reply.values[0] == value);
    let other = (0..=255).any(|of| of != generation(token) && is_logged(before, id, of));
    [
        ("a token is in the log", is),
        ("a token is not in the log", is_not),
        ("a token of a re-issued id is in the log", is && is_fresh(before, id) && generation(token) == 0),
        ("another generation is in the log", is_not && other),
        (
            "the generation of a revoked capability is not in the log",
            is_not && is_revoked(before, id) && generation(token) == 1,
        ),
    ]
}

fn descendants(made: &Made, id: u64, area: usize) -> [Event; 7] {
    let (under, depth) = descent(made.before, id);
    let (done, count) = (made.gave(0), under.len());
    let exact = done && count > 0;
    [
        ("the descendants of an unregistered id", done && registered(made.before, id).is_none()),
        ("the descendants of an id without children", done && registered(made.before, id).is_some() && count == 0),
        ("the descendants of several depths", done && depth > 1),
        ("all descendants fill the area", exact && area == count),
        ("all descendants leave places of the area", exact && area > count),
        ("an area one descendant too short", made.gave(21) && id < ID_END && area + 1 == count),
        ("the descendants of an id over 2^48-1", made.gave(21) && id >= ID_END),
    ]
}

// ---- Notifications

fn notify(made: &Made, pid: u64, id: u64, reason: u8) -> [Event; 9] {
    let (done, had) = (made.gave(0), length(made.before, pid));
    [
        ("a notice: explicit", done && reason == 0),
        ("a notice: parent_revoked", done && reason == 1),
        ("a notice: process_exit", done && reason == 2),
        ("a notice: policy_enforced", done && reason == 3),
        ("a notice begins a queue", done && had == 0),
        ("a notice joins a queue", done && had > 0 && had < NOTICES),
        ("a notice drops the oldest", done && had == NOTICES),
        ("a notice of an id over 2^48-1", made.gave(21) && id >= ID_END),
        ("a notice of no reason", made.gave(21) && id < ID_END && reason == 4),
    ]
}

const DRAINS: [&str; 5] = [
    "a drain of no queue",
    "a drain that fills the area",
    "a drain that leaves places of the area",
    "a drain of an area one word too short",
    "a drain of 256 notices",
];
const PEEKS: [&str; 5] = [
    "a peek at no queue",
    "a peek that fills the area",
    "a peek that leaves places of the area",
    "a peek with an area one word too short",
    "a peek at 256 notices",
];

fn in_area(made: &Made, pid: u64, area: usize, names: [&'static str; 5]) -> [Event; 5] {
    let (done, notices) = (made.gave(0), length(made.before, pid));
    let (words, some) = (3 * notices, done && notices > 0);
    let happened = [
        done && notices == 0,
        some && area == words,
        some && area > words,
        made.gave(21) && area + 1 == words,
        done && notices == NOTICES,
    ];
    std::array::from_fn(|n| (names[n], happened[n]))
}

fn name(made: &Made, reason: u8, area: usize) -> [Event; 4] {
    let (done, length) = (made.gave(0), made.reply.values[0] as usize);
    [
        ("a name fills the area", done && area == length),
        ("a name leaves places of the area", done && area > length),
        ("an area too short for a name", made.gave(21) && reason < 4),
        ("the name of no reason", made.gave(21) && reason >= 4),
    ]
}

// ---- What a state says

fn generation(token: u64) -> u64 {
    token / ID_END % 256
}

/// All under an id, and how deep they go.
fn descent(view: &View, id: u64) -> (Vec<u64>, usize) {
    let (mut all, mut level, mut depth) = (Vec::new(), vec![id], 0);
    loop {
        level = level.iter().flat_map(|&id| list(view, id).unwrap_or_default().iter().copied()).collect();
        if level.is_empty() {
            return (all, depth);
        }
        all.extend(&level);
        depth += 1;
    }
}

/// Registered, and not revoked.
fn is_fresh(view: &View, id: u64) -> bool {
    registered(view, id).is_some_and(|e| !e.revoked)
}

fn is_logged(view: &View, id: u64, generation: u64) -> bool {
    view.revocation.set.binary_search(&(id, generation as u8)).is_ok()
}

/// How many notices a pid has.
fn length(view: &View, pid: u64) -> usize {
    let queues = &view.revocation.queues;
    queues.binary_search_by_key(&pid, |q| q.pid).map_or(0, |place| queues[place].notices.len())
}
