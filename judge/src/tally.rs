//! Counts tests and says at the end what all tests here say: `N passed, M failed`.

use std::process::ExitCode;

#[derive(Default)]
pub struct Tally {
    passed: u64,
    failed: u64,
}

impl Tally {
    /// One test, with the line that tells of it.
    pub fn test(&mut self, line: &str, passed: bool) {
        println!("{line}{}", if passed { "" } else { "  FAILED" });
        if passed {
            self.passed += 1;
        } else {
            self.failed += 1;
        }
    }

    pub fn finish(self) -> ExitCode {
        println!("{} passed, {} failed", self.passed, self.failed);
        if self.failed == 0 && self.passed > 0 {
            ExitCode::SUCCESS
        } else {
            ExitCode::FAILURE
        }
    }
}
