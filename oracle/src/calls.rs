//! The calls of document 01 on the original: what it answers to each, with the answers that document 01 adds.

pub mod manager;
pub mod revocation;
pub mod space;

use std::fmt::Debug;

use judge::layout::Numbers;

use crate::cap::space::CapabilitySpace;
use crate::History;

pub use manager::ManagerCall;
pub use revocation::{Kernel, RevocationCall};
pub use space::{SpaceCall, Words};

/// A call with its arguments.
pub trait OnOriginal: Debug {
    /// Its name in the source, or document 01's where the source has two of one name.
    fn name(&self) -> &'static str;

    /// What document 01 and the source answer in a world of these numbers.
    fn original(&self, history: &mut History, numbers: Numbers) -> Reply;
}

/// A call's answer, its values in the order of the port's reply, 0 where it has fewer, and what a lent area holds after
/// it.
#[derive(Debug, Clone, PartialEq, Eq)]
pub struct Reply {
    pub answer: u8,
    pub values: [u64; 5],
    pub area: Vec<u64>,
}

pub fn replied(answer: u8, values: [u64; 5]) -> Reply {
    Reply { answer, values, area: Vec::new() }
}

pub fn refused(answer: u8) -> Reply {
    replied(answer, [0; 5])
}

/// Answer 0 with a value, and the visits or moves.
pub fn done(value: u64, count: usize) -> Reply {
    replied(0, [value, count as u64, 0, 0, 0])
}

/// A list that goes to a lent area, with its value; 21 for an area too short. The places past the list stay unchanged.
pub fn listed(list: &[u64], value: usize, mut area: Vec<u64>) -> Reply {
    if area.len() < list.len() {
        return Reply { area, ..refused(21) };
    }
    area[..list.len()].copy_from_slice(list);
    Reply { area, ..done(value as u64, 0) }
}

/// How many entries a later insert into the space has moved: all that there are now, if the slots stand elsewhere then.
pub fn moves(space: &CapabilitySpace) -> impl Fn(&CapabilitySpace) -> usize {
    let (slots, used) = (space.slots_address(), space.used());
    move |space| if space.slots_address() == slots { 0 } else { used }
}

/// An area of so many places, as it is when it is lent.
pub fn lent(places: usize) -> Vec<u64> {
    (0..places as u64).map(|place| !place).collect()
}
