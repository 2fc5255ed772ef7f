//! One history of the original: its spaces, and the statics that all calls share.
//! The statics are one process's, so one history runs at a time; opening the next one resets them,
//! and many histories run in one process.

use std::sync::atomic::{AtomicBool, Ordering};

use crate::arch::timer::set_timestamp_secs;
use crate::cap::manager::{cap_manager, ManagerView};
use crate::cap::revocation::{self, RevocationView};
use crate::cap::space::{CapabilitySpace, SpaceView};
use crate::services::process_server::set_process_ids;

static OPEN: AtomicBool = AtomicBool::new(false);

pub struct History {
    pub spaces: Vec<CapabilitySpace>,
}

/// The whole state, for comparing.
#[derive(Debug, Clone, PartialEq, Eq)]
pub struct View {
    pub spaces: Vec<SpaceView>,
    pub manager: ManagerView,
    pub revocation: RevocationView,
}

impl History {
    /// Empties the statics and makes a space for each quota.
    pub fn open(quotas: &[usize]) -> Self {
        assert!(!OPEN.swap(true, Ordering::SeqCst), "another history is open");
        cap_manager().reset();
        revocation::reset();
        set_timestamp_secs(0);
        set_process_ids(&[]);
        Self { spaces: quotas.iter().map(|&quota| CapabilitySpace::with_quota(quota)).collect() }
    }

    pub fn view(&self) -> View {
        View {
            spaces: self.spaces.iter().map(CapabilitySpace::view).collect(),
            manager: cap_manager().view(),
            revocation: revocation::view(),
        }
    }

    /// Takes over what a view shows, one of as many spaces.
    pub fn put(&mut self, view: &View) {
        for (space, view) in self.spaces.iter_mut().zip(&view.spaces) {
            space.put(view);
        }
        cap_manager().put(&view.manager);
        revocation::put(&view.revocation);
    }
}

impl Drop for History {
    /// The spaces give back what they hold while the registry is still theirs.
    fn drop(&mut self) {
        self.spaces.clear();
        OPEN.store(false, Ordering::SeqCst);
    }
}
