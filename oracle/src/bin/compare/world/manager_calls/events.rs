//! What a call of the manager did that its answer does not say, by the states before and after it. A comparison counts
//! each of these, and fails where one never happened.

use std::collections::HashSet;

use judge::layout::{id_of, ID_END, MOST_CHILDREN};
use oracle::calls::ManagerCall::{self, *};
use oracle::states::{entries, has_entry, has_older_entry, is_full, is_revoked, list, registered};

use crate::world::call::{Event, Made};

pub fn of(call: ManagerCall, made: &Made) -> Vec<Event> {
    match call {
        Create { s, .. } => create(made, s).into(),
        Delegate { token, source, target, .. } => {
            let mut events = delegate(made, token, source, target).to_vec();
            events.extend(undone(made, id_of(token), target));
            events.extend(beside_others(made, id_of(token), target));
            events.extend(collection(made, id_of(token)));
            events
        }
        Delete { token } => delete(made, id_of(token)).into(),
        Check { token, s, .. } => check(made, token, s).into(),
        IsValid { .. } => {
            let value = made.reply.values[0];
            vec![("a token is valid", value == 1), ("a token is not valid", made.gave(0) && value == 0)]
        }
        GetChildren { id, area } => children(made, id, area).into(),
        Census { s } => census(made, s).into(),
        Stats | TreeStats => Vec::new(),
    }
}

fn create(made: &Made, s: usize) -> [Event; 6] {
    let Made { reply, before, after, .. } = made;
    let (done, undone) = (made.gave(0), made.gave(4));
    let recycled = !before.manager.recycled.is_empty();
    [
        ("create moves entries", done && reply.values[1] > 0),
        ("create takes a recycled id", done && recycled),
        ("create takes a new id", done && !recycled),
        ("create counts around", done && after.manager.created == 0),
        ("create is undone for the quota", undone && is_full(before, s)),
        ("create is undone for a stray of its id", undone && !is_full(before, s)),
    ]
}

fn delegate(made: &Made, token: u64, source: usize, target: usize) -> [Event; 12] {
    let Made { reply, before, after, .. } = made;
    let (parent, child) = (id_of(token), id_of(reply.values[0]));
    let (new, recycled) = (makes_child(made), !before.manager.recycled.is_empty());
    let reused = made.gave(0) && !new;
    let held = || entries(before, source).any(|e| e.token == token);
    let revoked = || is_revoked(before, parent);
    [
        ("delegate moves entries", new && reply.values[1] > 0),
        ("delegate takes a recycled id", new && recycled),
        ("delegate takes a new id", new && !recycled),
        ("delegate counts around", new && after.manager.delegated == 0),
        ("delegate to the source", new && source == target),
        ("a held child is returned", reused && source != target),
        ("a held child is returned to the source", reused && source == target),
        ("a child is returned of which an entry was there before it", reused && has_older_entry(before, child)),
        ("delegate of an absent token", made.gave(1) && !held()),
        ("delegate of a stray", made.gave(1) && held()),
        ("delegate of a revoked parent", made.gave(3) && revoked()),
        ("delegate of another generation", made.gave(3) && !revoked()),
    ]
}

/// The target refused the child.
fn undone(made: &Made, parent: u64, target: usize) -> [Event; 4] {
    let undone = made.gave(4);
    let (listed, full) = (list(made.before, parent).is_some(), is_full(made.before, target));
    [
        ("delegate is undone, with a new empty list of the parent left", undone && !listed),
        ("delegate is undone, with a list that was there", undone && listed),
        ("delegate is undone for the quota", undone && full),
        ("delegate is undone for a stray of its id", undone && !full),
    ]
}

/// A new child beside others of its parent that the target holds.
fn beside_others(made: &Made, parent: u64, target: usize) -> [Event; 4] {
    let Made { reply, before, after, .. } = made;
    let mut passed = [false; 4];
    if makes_child(made) {
        let new = entries(after, target).find(|e| e.token == reply.values[0]).unwrap();
        let others: HashSet<&u64> = list(before, parent).unwrap_or_default().iter().collect();
        for held in entries(before, target).filter(|e| others.contains(&id_of(e.token))) {
            let revoked = is_revoked(before, id_of(held.token));
            let (same_token, same_rights) = (held.token / ID_END == new.token / ID_END, held.rights == new.rights);
            passed[0] |= revoked && same_token && same_rights;
            passed[1] |= !revoked && same_token && !same_rights;
            passed[2] |= !revoked && !same_token && !same_rights;
            passed[3] |= !revoked && !same_token && same_rights;
        }
    }
    [
        ("a held child that is revoked is passed over", passed[0]),
        ("a child held with the same token and other rights is passed over", passed[1]),
        ("a child held with another token and other rights is passed over", passed[2]),
        ("a child held with another token and the same rights is passed over", passed[3]),
    ]
}

/// Children leave a full list.
fn collection(made: &Made, parent: u64) -> [Event; 8] {
    let Made { numbers, before, after, .. } = made;
    let full = list(before, parent).filter(|children| children.len() == MOST_CHILDREN);
    let (kept, gone): (Vec<u64>, Vec<u64>) =
        full.unwrap_or_default().iter().partition(|&&child| registered(after, child).is_some());
    let (full, collected) = (full.is_some(), !gone.is_empty());
    let has_children = |&child: &u64| list(before, child).is_some_and(|list| !list.is_empty());
    let is_held = |&child: &u64| registered(before, child).is_some_and(|e| e.holders > 0);
    [
        ("a collection", collected),
        ("a collected child has an empty list", gone.iter().any(|&child| list(before, child).is_some())),
        ("a collected child is revoked", gone.iter().any(|&child| is_revoked(before, child))),
        ("a child stays for its holders", collected && kept.iter().any(is_held)),
        (
            "a child stays for its children",
            collected && kept.iter().any(|child| has_children(child) && !is_held(child)),
        ),
        ("a held child of a full list is returned", full && made.gave(0) && !makes_child(made)),
        ("a collection, then a refusal", collected && !made.gave(0)),
        ("a collection makes room in a full registry", collected && before.manager.registry.len() == numbers.r),
    ]
}

fn delete(made: &Made, id: u64) -> [Event; 7] {
    let Made { before, after, .. } = made;
    let deleted = made.gave(0);
    let of = before.revocation.tree.iter().find(|(_, children)| deleted && children.contains(&id));
    let parent = deleted && list(before, id).is_some_and(|children| !children.is_empty());
    let left_empty = |(of, _): &(u64, _)| list(after, *of).is_some_and(|children| children.is_empty());
    [
        ("delete in the middle of a tree", parent && of.is_some()),
        ("delete of a root with children", parent && of.is_none()),
        ("delete of a leaf", !parent && of.is_some()),
        ("delete leaves a list empty", of.is_some_and(left_empty)),
        ("delete of a revoked capability", deleted && is_revoked(before, id)),
        ("delete leaves strays", deleted && has_entry(before, id)),
        ("delete counts around", deleted && after.manager.deleted == 0),
    ]
}

fn check(made: &Made, token: u64, s: usize) -> [Event; 6] {
    let Made { reply, before, .. } = made;
    let (id, held) = (id_of(token), || entries(before, s).any(|e| e.token == token));
    let stray = || registered(before, id).is_none();
    [
        ("check visits several slots", reply.values[1] > 1),
        ("check of an absent token", made.gave(2) && !held()),
        ("check without the right", made.gave(2) && held()),
        ("check of a stray", made.gave(3) && stray()),
        ("check of a revoked capability", made.gave(3) && is_revoked(before, id)),
        ("check of another generation", made.gave(3) && !stray() && !is_revoked(before, id)),
    ]
}

fn children(made: &Made, id: u64, area: usize) -> [Event; 6] {
    let listed = list(made.before, id);
    let count = listed.map_or(0, <[u64]>::len);
    let (done, refused) = (made.gave(0), made.gave(21));
    [
        ("the children of an id without a list", done && listed.is_none()),
        ("the children of an empty list", done && listed.is_some() && count == 0),
        ("an area exactly long enough", done && count > 0 && area == count),
        ("an area longer than the list", done && count > 0 && area > count),
        ("an area one too short", refused && id < ID_END && area + 1 == count),
        ("the children of an id over 2^48-1", refused && id >= ID_END),
    ]
}

fn census(made: &Made, s: usize) -> [Event; 3] {
    let (done, strays) = (made.gave(0), made.reply.values[0] as usize);
    let used = made.before.spaces.get(s).map_or(0, |space| space.used);
    [
        ("a census without strays", done && strays == 0 && used > 0),
        ("a census of strays and others", done && strays > 0 && strays < used),
        ("a census of strays alone", done && strays > 0 && strays == used),
    ]
}

/// Whether a delegate made a child, and did not return one.
fn makes_child(made: &Made) -> bool {
    made.gave(0) && made.after.manager.delegated != made.before.manager.delegated
}
