//! What the comparisons of calls on a world share: the calls on both sides, the world that they are made on, and what
//! was met while they were made.

mod both;
mod call;
mod manager_calls;
pub mod port;
mod revocation_calls;
mod run;
mod space_calls;
mod unsound;
mod wander;

pub use oracle::calls::revocation::{MOST_LISTED, MOST_TOKENS};
pub use oracle::calls::{Kernel, ManagerCall, RevocationCall, SpaceCall, Words};
pub use oracle::states::list;

pub use both::Both;
pub use call::{Call, Event, Made, ANSWERS};
pub use manager_calls::any_manager_call;
pub use revocation_calls::any_revocation_call;
pub use run::{Kind, Run};
pub use unsound::{damaged, short};
pub use wander::{any_token, set_counters, some_numbers, some_token_of};
