//! What a state says of an id and of a space.

use judge::layout::id_of;

use crate::cap::manager::RegisteredView;
use crate::cap::space::{EntryView, SlotView};
use crate::View;

pub fn registered(view: &View, id: u64) -> Option<&RegisteredView> {
    let registry = &view.manager.registry;
    registry.binary_search_by_key(&id, |e| e.id).ok().map(|place| &registry[place])
}

pub fn is_revoked(view: &View, id: u64) -> bool {
    registered(view, id).is_some_and(|e| e.revoked)
}

/// The list of an id's children, if it has one.
pub fn list(view: &View, id: u64) -> Option<&[u64]> {
    let tree = &view.revocation.tree;
    tree.binary_search_by_key(&id, |(parent, _)| *parent).ok().map(|place| &tree[place].1[..])
}

pub fn is_full(view: &View, s: usize) -> bool {
    view.spaces.get(s).is_some_and(|space| space.quota <= space.used)
}

pub fn entries(view: &View, s: usize) -> impl Iterator<Item = EntryView> + '_ {
    view.spaces[s].table.slots.iter().filter_map(|slot| match slot {
        SlotView::Full(entry) => Some(*entry),
        _ => None,
    })
}

pub fn entries_of(view: &View, id: u64) -> usize {
    (0..view.spaces.len()).flat_map(|s| entries(view, s)).filter(|e| id_of(e.token) == id).count()
}

pub fn has_entry(view: &View, id: u64) -> bool {
    entries_of(view, id) > 0
}

/// An entry that was there before its id was registered is not counted among the holders.
pub fn has_older_entry(view: &View, id: u64) -> bool {
    registered(view, id).is_some_and(|e| (e.holders as usize) < entries_of(view, id))
}
