//! Kinds of histories. Each is one test, and ends where the two sides first differ: what follows would say nothing.

use std::panic::{catch_unwind, resume_unwind, AssertUnwindSafe};

use oracle::{Tally, Test};

struct Apart;

/// Makes the histories of one kind.
pub fn test(tally: &mut Tally, name: &'static str, histories: impl FnOnce(&mut Test)) {
    tally.test(name, |test| {
        if let Err(why) = catch_unwind(AssertUnwindSafe(|| histories(test))) {
            why.downcast::<Apart>().unwrap_or_else(|why| resume_unwind(why));
        }
    });
}

/// Ends the histories of this kind if the two sides differ.
pub fn end_if_apart(test: &Test) {
    if test.differs() {
        resume_unwind(Box::new(Apart));
    }
}
