//! Counts tests, one a name, and says at the end what all scripts here say: `N passed, M failed`.

use std::fmt::Debug;
use std::process::ExitCode;

/// How many differences of one test are shown.
const SHOWN: u64 = 5;

#[derive(Default)]
pub struct Tally {
    passed: u64,
    failed: u64,
}

/// One test: the calls of one function, each made on both sides.
pub struct Test {
    name: &'static str,
    calls: u64,
    differ: u64,
}

impl Tally {
    /// Runs the test `name`, whose calls `body` makes.
    pub fn test(&mut self, name: &'static str, body: impl FnOnce(&mut Test)) {
        let mut test = Test { name, calls: 0, differ: 0 };
        body(&mut test);
        if test.differ == 0 {
            println!("{name}: {} agree", test.calls);
            self.passed += 1;
        } else {
            println!("{name}: {} of {} DIFFER", test.differ, test.calls);
            self.failed += 1;
        }
    }

    pub fn finish(self) -> ExitCode {
        println!("{} passed, {} failed", self.passed, self.failed);
        if self.failed == 0 && self.passed > 0 {
            ExitCode::SUCCESS
        } else {
            ExitCode::FAILURE
        }
    }
}

impl Test {
    /// One call with `arguments`: what was to be answered, and what was.
    pub fn same<T: PartialEq + Debug>(&mut self, arguments: impl Debug, expected: T, answered: T) {
        self.calls += 1;
        if expected != answered {
            self.differ += 1;
            if self.differ <= SHOWN {
                println!("{} {arguments:x?}: expected {expected:x?}, answered {answered:x?}", self.name);
            }
        }
    }

    /// Some call so far was not answered the same.
    pub fn differs(&self) -> bool {
        self.differ > 0
    }
}
