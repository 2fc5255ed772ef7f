//! Document 01's "Sound memory", what it says of one table, rule for rule over the port's words and numbers.

use std::collections::HashSet;

pub fn is_sound(words: &[u64], &[slots, full, tombstones, _]: &[usize; 4], most: usize) -> bool {
    let largest = (2 * most).next_power_of_two().max(8);
    let capacity = slots == 0 || slots.is_power_of_two() && 8 <= slots && slots <= largest;
    if !capacity {
        return false;
    }
    let kind = |i: usize| words[4 * i + 3] >> 32;
    let id = |i: usize| words[4 * i] & ((1 << 48) - 1);
    let live: Vec<usize> = (0..slots).filter(|&i| kind(i) == 2).collect();
    let removed = (0..slots).filter(|&i| kind(i) == 1).count();
    let home = |id: u64| (id.wrapping_mul(0x9E37_79B9_7F4A_7C15) >> 32) as usize % slots;
    let met = |i: usize| (home(id(i))..).map(|s| s % slots).take_while(|&s| s != i).all(|s| kind(s) != 0);
    (0..slots).all(|i| kind(i) <= 2)
        && live.len() == full
        && removed == tombstones
        && 4 * (full + tombstones) <= 3 * slots
        && (full != 0 || slots == 0)
        && full <= most
        && live.iter().map(|&i| id(i)).collect::<HashSet<u64>>().len() == full
        && live.into_iter().all(met)
}
