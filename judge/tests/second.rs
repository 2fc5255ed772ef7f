//! The judge beside a second, slow checker, which shares no code with it: parts are cut off the memory one after the
//! other, and whatever must differ is compared pair by pair. The last line is `N passed, M failed`.

use std::process::ExitCode;

fn main() -> ExitCode {
    judge::compare::run(is_sound, 300_000, 1)
}

fn is_sound(mem: &[u64]) -> bool {
    look(mem).is_some()
}

/// Some, if all holds.
fn look(mem: &[u64]) -> Option<()> {
    let mut rest = mem;
    let head = cut(&mut rest, 16)?;
    let [s, m, r, v, p] = [(0, 64), (1, 256), (2, 4095), (3, 8192), (4, 32)].map(|(i, most)| (head[i], most));
    for (number, most) in [s, m, r, v, p] {
        holds(number != 0 && number <= most)?;
    }
    let [s, m, r, v, p] = [s, m, r, v, p].map(|(number, _)| number as usize);
    let mut c = 8;
    while c < 2 * m {
        c *= 2;
    }
    let spaces = cut_all(&mut rest, s, 8 + 4 * c)?;
    let columns = cut_all(&mut rest, 4, r)?;
    let recycled = cut(&mut rest, r + 1)?;
    let log = cut(&mut rest, v)?;
    let queues = cut_all(&mut rest, p, 771)?;

    let tables: Option<Vec<_>> = spaces.iter().map(|space| table(space, m as u64, c as u64)).collect();
    let [ids, _, states, links] = columns.try_into().ok()?;
    let [ids, states, links] = [used(ids, head[11])?, used(states, head[11])?, used(links, head[11])?];
    registry(ids, states, &tables?, head[5])?;
    derivation(states, links)?;
    recycled_ids(used(recycled, head[12])?, ids, head[5])?;
    let pairs = used(log, head[13])?;
    holds(differ(pairs) && pairs.iter().all(|pair| pair >> 56 == 0))?;
    queues_in_use(&queues)
}

fn holds(rule: bool) -> Option<()> {
    rule.then_some(())
}

fn cut<'a>(rest: &mut &'a [u64], words: usize) -> Option<&'a [u64]> {
    holds(words <= rest.len())?;
    let (part, behind) = rest.split_at(words);
    *rest = behind;
    Some(part)
}

fn cut_all<'a>(rest: &mut &'a [u64], parts: usize, words: usize) -> Option<Vec<&'a [u64]>> {
    (0..parts).map(|_| cut(rest, words)).collect()
}

fn used(part: &[u64], count: u64) -> Option<&[u64]> {
    part.get(..usize::try_from(count).ok()?)
}

fn differ(words: &[u64]) -> bool {
    (0..words.len()).all(|i| !words[..i].contains(&words[i]))
}

/// The ids of a sound table.
fn table(space: &[u64], m: u64, c: u64) -> Option<Vec<u64>> {
    let [quota, generation, _, _, _, slots, live, removed] = space[..8].try_into().ok()?;
    holds(quota <= m && generation <= 255 && live <= m)?;
    let mut sizes = vec![0];
    (3..64).map(|power| 1 << power).filter(|&size| size <= c).for_each(|size| sizes.push(size));
    holds(sizes.contains(&slots))?;
    let slots: Vec<&[u64]> = space[8..].chunks(4).take(slots as usize).collect();
    let kinds: Vec<u64> = slots.iter().map(|slot| slot[3] / (1 << 32)).collect();
    let count = |kind: u64| kinds.iter().filter(|&&k| k == kind).count();
    let (empty_slots, removed_slots, full_slots) = (count(0), count(1), count(2));
    holds(empty_slots + removed_slots + full_slots == slots.len())?;
    holds(live == full_slots as u64 && removed == removed_slots as u64)?;
    // At most three quarters in use is at least one quarter empty.
    holds(4 * empty_slots >= slots.len())?;
    holds(full_slots != 0 || slots.is_empty())?;
    let entries: Vec<(usize, u64)> =
        (0..slots.len()).filter(|&i| kinds[i] == 2).map(|i| (i, slots[i][0] & 0xFFFF_FFFF_FFFF)).collect();
    holds(entries.iter().all(|&(i, id)| is_met(&kinds, i, id)))?;
    let ids: Vec<u64> = entries.into_iter().map(|(_, id)| id).collect();
    holds(differ(&ids))?;
    Some(ids)
}

/// No slot from the id's home up to the entry's slot is empty.
fn is_met(kinds: &[u64], entry: usize, id: u64) -> bool {
    let product = u128::from(id) * 0x9E37_79B9_7F4A_7C15 % (1 << 64);
    let home = (product / (1 << 32) % kinds.len() as u128) as usize;
    let walk: Vec<u64> =
        if home <= entry { kinds[home..entry].to_vec() } else { [&kinds[home..], &kinds[..entry]].concat() };
    !walk.contains(&0)
}

fn registry(ids: &[u64], states: &[u64], tables: &[Vec<u64>], next: u64) -> Option<()> {
    holds(next != 0 && next <= 0x1_0000_0000_0000)?;
    holds(differ(ids) && ids.iter().all(|&id| id != 0 && id < next))?;
    for (id, state) in ids.iter().zip(states) {
        let spaces = tables.iter().filter(|ids| ids.contains(id)).count();
        holds(state >> 2 <= spaces as u64)?;
    }
    Some(())
}

fn derivation(states: &[u64], links: &[u64]) -> Option<()> {
    holds((0..links.len()).all(|k| links[k] <= k as u64))?;
    for parent in 0..links.len() {
        let children: Vec<usize> = (0..links.len()).filter(|&k| links[k] == parent as u64 + 1).collect();
        let (revoked, listed) = (states[parent] % 2 == 1, states[parent] / 2 % 2 == 1);
        holds(listed || children.is_empty())?;
        holds(children.len() <= 1024)?;
        holds(!revoked || children.iter().all(|&child| states[child] % 2 == 1))?;
    }
    Some(())
}

fn recycled_ids(recycled: &[u64], registered: &[u64], next: u64) -> Option<()> {
    let mut above = 0;
    for &id in recycled {
        holds(id > above && id < next && !registered.contains(&id))?;
        above = id;
    }
    Some(())
}

fn queues_in_use(queues: &[&[u64]]) -> Option<()> {
    let in_use: Vec<&[u64]> = queues.iter().copied().filter(|queue| queue[2] != 0).collect();
    let pids: Vec<u64> = in_use.iter().map(|queue| queue[0]).collect();
    holds(differ(&pids))?;
    for queue in in_use {
        let (first, length) = (queue[1], queue[2]);
        holds(first <= 255 && length <= 256)?;
        let reasons: Vec<u64> = queue[3..].chunks(3).map(|notice| notice[2]).collect();
        let mut at = first as usize;
        for _ in 0..length {
            holds([0, 1, 2, 3].contains(&reasons[at]))?;
            at = if at == 255 { 0 } else { at + 1 };
        }
    }
    Some(())
}
