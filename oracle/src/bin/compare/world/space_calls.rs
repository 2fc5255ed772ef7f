//! The calls of a space on the port, and what each may change.

use oracle::calls::{Reply, SpaceCall, Words};

use super::call::Call;
use super::port;

use SpaceCall::*;

impl Call for (SpaceCall, Words) {
    /// A lookup stays counted, an id taken is lost.
    fn changes_on(&self, answer: u8) -> bool {
        match self.0 {
            Used | Quota | TableCapacity | Generation | Stats | GetEntry | NthEntry => false,
            Lookup | LookupEntry | CheckRights => answer < 20,
            CreateCapability => answer < 12,
            _ => answer == 0,
        }
    }

    fn spaces(&self) -> Vec<usize> {
        match self {
            (AllocCapId, _) => Vec::new(),
            (_, [s, ..]) => vec![*s as usize],
        }
    }

    fn port(&self, mem: &mut [u64]) -> Reply {
        port::space_call(mem, self.0, self.1)
    }
}
