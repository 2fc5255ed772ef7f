//! The original, compiled unchanged: `cap::{token, space, manager, revocation}`.
//!
//! The crate's root plays the kernel's: the modules `error`, `security`, `services`, `arch` and
//! `process`, and the lock of the crate `spin`, are the stubs that the four files import.

extern crate alloc;
// `use spin::RwLock` finds the lock here.
extern crate self as spin;

mod stubs;
pub use stubs::{arch, error, process, security, services, RwLock};

pub mod cap {
    pub use crate::stubs::{inheritance, object, types};
    include!(concat!(env!("OUT_DIR"), "/cap.rs"));
}

mod history;
pub use history::{History, View};
mod tally;
pub use tally::{Tally, Test};

pub mod arguments;
pub mod calls;
#[cfg(feature = "port")]
pub mod host;
pub mod memory;
#[cfg(feature = "port")]
pub mod port_table;
pub mod states;
pub mod stream;
pub mod timing;
pub mod token_calls;
pub mod worlds;
