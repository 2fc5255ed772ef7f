//! The calls of the manager on the port, what each may change, and what may happen in it.

mod events;

use judge::rng::Rng;
use oracle::calls::{ManagerCall, Reply};

use super::call::{Call, Event, Made};
use super::{any_token, port};

use ManagerCall::*;

/// Any of them with any arguments.
pub fn any_manager_call(rng: &Rng) -> ManagerCall {
    let [s, target, area] = [6, 6, 4].map(|end| rng.below(end));
    let (token, rights) = (any_token(rng), rng.word() as u32);
    match rng.below(ManagerCall::ALL.len()) {
        0 => Create { s, object: rng.word(), valid: rng.once_in(2), cap_type: rng.below(18) as u8, rights },
        1 => Delegate { token, source: s, target, rights },
        2 => Delete { token },
        3 => Check { token, required: rights, s },
        4 => IsValid { token },
        5 => Stats,
        6 => GetChildren { id: token, area },
        7 => TreeStats,
        _ => Census { s },
    }
}

impl Call for ManagerCall {
    /// An id taken goes to the recycled set, a lookup stays counted, a collection stays done.
    fn changes_on(&self, answer: u8) -> bool {
        match self {
            Create { .. } => matches!(answer, 0 | 4 | 22),
            Delegate { .. } => answer < 20 || answer == 22,
            Delete { .. } => answer == 0,
            Check { .. } => answer < 20,
            IsValid { .. } | Stats | GetChildren { .. } | TreeStats | Census { .. } => false,
        }
    }

    fn spaces(&self) -> Vec<usize> {
        match *self {
            Create { s, .. } | Check { s, .. } => vec![s],
            Delegate { source, target, .. } => vec![source, target],
            _ => Vec::new(),
        }
    }

    fn port(&self, mem: &mut [u64]) -> Reply {
        port::manager_call(mem, *self)
    }

    fn events(&self, made: &Made) -> Vec<Event> {
        events::of(*self, made)
    }
}
