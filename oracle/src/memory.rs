//! What a world's memory holds, word for word by docs/LAYOUT.md, shown as the original's state is. Nothing is shown
//! where a count goes past its part or a coded field holds no listed value.

use std::collections::BTreeMap;
use std::ops::Range;

use judge::layout::*;

use crate::cap::manager::{ManagerView, RegisteredView};
use crate::cap::revocation::{QueueView, RevocationReason, RevocationView};
use crate::cap::space::{EntryView, SlotView, SpaceView, TableView};
use crate::View;

const MISSES: usize = HITS + 1;
/// Created, delegated, revoked, deleted.
pub const STATISTICS: usize = EPOCH + 1;

/// The reasons by their numbers.
pub const REASON_BY_NUMBER: [RevocationReason; 4] = [
    RevocationReason::Explicit,
    RevocationReason::ParentRevoked,
    RevocationReason::ProcessExit,
    RevocationReason::PolicyEnforced,
];

pub fn view(mem: &[u64]) -> Option<View> {
    let numbers = Numbers::read(mem)?;
    Some(View {
        spaces: (0..numbers.s).map(|s| space(&mem[numbers.space(s)])).collect::<Option<_>>()?,
        manager: manager(mem, numbers)?,
        revocation: revocation(mem, numbers)?,
    })
}

/// The word `live` is `used` and `total_caps` too.
fn space(words: &[u64]) -> Option<SpaceView> {
    let (slots, live) = (words[SLOTS] as usize, words[LIVE]);
    let slots = words[SPACE_HEAD..].chunks_exact(SLOT).take(slots).map(|words| slot(words.first_chunk()?));
    Some(SpaceView {
        quota: words[QUOTA] as usize,
        generation: words[GENERATION].try_into().ok()?,
        used: live as usize,
        hits: words[HITS],
        misses: words[MISSES],
        total_caps: live,
        table: TableView {
            slots: slots.collect::<Option<_>>()?,
            full: live as usize,
            tombstones: words[REMOVED] as usize,
        },
    })
}

pub fn slot(&[token, object, uses, tag]: &[u64; SLOT]) -> Option<SlotView> {
    match tag >> 32 {
        KIND_EMPTY => Some(SlotView::Empty),
        KIND_REMOVED => Some(SlotView::Tombstone),
        KIND_FULL => Some(SlotView::Full(EntryView { token, object, rights: tag as u32, uses })),
        _ => None,
    }
}

/// The revoked flag is the generation too.
fn manager(mem: &[u64], numbers: Numbers) -> Option<ManagerView> {
    let [ids, objects, states, _] = places(mem, numbers)?;
    let registered = |place: usize| {
        Some(RegisteredView {
            id: ids[place],
            object: objects[place],
            generation: (states[place] & REVOKED) as u8,
            revoked: states[place] & REVOKED != 0,
            holders: (states[place] / HOLDER).try_into().ok()?,
        })
    };
    let mut registry: Vec<RegisteredView> = (0..ids.len()).map(registered).collect::<Option<_>>()?;
    registry.sort_by_key(|e| e.id);
    let [created, delegated, revoked, deleted] = *mem[STATISTICS..].first_chunk()?;
    Some(ManagerView {
        registry,
        next_id: mem[NEXT],
        recycled: in_use(mem, numbers.recycled(), RECYCLED)?.to_vec(),
        created,
        delegated,
        revoked,
        deleted,
    })
}

fn revocation(mem: &[u64], numbers: Numbers) -> Option<RevocationView> {
    let log: Vec<(u64, u8)> = in_use(mem, numbers.log(), LOGGED)?.iter().map(pair).collect::<Option<_>>()?;
    let mut set = log.clone();
    set.sort_unstable();
    let queues = (0..numbers.p).map(|q| &mem[numbers.queue(q)]).filter(|queue| queue[LENGTH] != 0);
    let mut queues: Vec<QueueView> = queues.map(queue).collect::<Option<_>>()?;
    queues.sort_by_key(|queue| queue.pid);
    Some(RevocationView { tree: tree(mem, numbers)?, set, log, epoch: mem[EPOCH], queues })
}

/// The lists by ascending parent; a child without a list to stand in shows nothing.
fn tree(mem: &[u64], numbers: Numbers) -> Option<Vec<(u64, Vec<u64>)>> {
    let [ids, _, states, links] = places(mem, numbers)?;
    let listed = (0..ids.len()).filter(|&place| states[place] & LISTED != 0);
    let mut lists: BTreeMap<u64, Vec<u64>> = listed.map(|place| (ids[place], Vec::new())).collect();
    for (&child, &link) in ids.iter().zip(links).filter(|(_, &link)| link != 0) {
        lists.get_mut(ids.get(link as usize - 1)?)?.push(child);
    }
    Some(lists.into_iter().collect())
}

/// Ids, objects, states and links of the registered places, in their order.
fn places(mem: &[u64], numbers: Numbers) -> Option<[&[u64]; 4]> {
    let column = |range: Range<usize>| in_use(mem, range, REGISTERED);
    Some([column(numbers.ids())?, column(numbers.objects())?, column(numbers.states())?, column(numbers.links())?])
}

/// As many words of a part as the head's word `count` says.
fn in_use(mem: &[u64], part: Range<usize>, count: usize) -> Option<&[u64]> {
    mem[part].get(..mem[count] as usize)
}

fn pair(&word: &u64) -> Option<(u64, u8)> {
    Some((id_of(word), (word >> 48).try_into().ok()?))
}

fn queue(words: &[u64]) -> Option<QueueView> {
    let notice = |n: usize| {
        let at = reason_at(words[FIRST] as usize, n) - REASON;
        let [id, time, number] = *words[at..].first_chunk()?;
        Some((id, time, reason(number)?))
    };
    if words[FIRST] >= NOTICES as u64 || words[LENGTH] > NOTICES as u64 {
        return None;
    }
    Some(QueueView { pid: words[PID], notices: (0..words[LENGTH] as usize).map(notice).collect::<Option<_>>()? })
}

fn reason(number: u64) -> Option<RevocationReason> {
    REASON_BY_NUMBER.get(usize::try_from(number).ok()?).copied()
}
