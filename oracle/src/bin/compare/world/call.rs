//! A call as a comparison sees it: what the port answers beside the original, and what it may change.

use judge::layout::Numbers;
use oracle::calls::{OnOriginal, Reply};
use oracle::View;

/// Answers go from 0 to 26.
pub const ANSWERS: usize = 27;

/// A call with its arguments.
pub trait Call: OnOriginal {
    /// Whether it may change the memory where it gives this answer.
    fn changes_on(&self, answer: u8) -> bool;

    /// The spaces that it may change.
    fn spaces(&self) -> Vec<usize>;

    /// Whether it may change the queues.
    fn changes_queues(&self) -> bool {
        false
    }

    fn port(&self, mem: &mut [u64]) -> Reply;

    /// What may have happened that its answer does not say.
    fn events(&self, _made: &Made) -> Vec<Event> {
        Vec::new()
    }
}

/// What may have happened in a call, and whether it did.
pub type Event = (&'static str, bool);

/// A call that was made in a world of these numbers: what both sides answered, and the state before and after it.
pub struct Made<'a> {
    pub numbers: Numbers,
    pub reply: &'a Reply,
    pub before: &'a View,
    pub after: &'a View,
}

impl Made<'_> {
    pub fn gave(&self, answer: u8) -> bool {
        self.reply.answer == answer
    }
}
