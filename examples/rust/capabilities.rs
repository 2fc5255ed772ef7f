//! Capabilities from Rust: lend memory, open a world, create, delegate, check, revoke, drain the notices. No crate but `std`.
//!
//!     tools/native host target/lib
//!     rustc --edition 2021 -L native=target/lib -l static=host examples/rust/capabilities.rs && ./capabilities

const DONE: u8 = 0;
const READ: u32 = 0x01;
const WRITE: u32 = 0x02;
const GRANT: u32 = 0x08;
const REVOKE: u32 = 0x10;

#[repr(C)]
#[derive(Default)]
struct CallAnswer {
    answer: u8,
    value: u64,
    count: u64,
}

// As include/stonespry.h: a slice is a pointer and a length, a result of more than 16 bytes is written to `out`.
extern "C" {
    fn stonespry_open(
        mem: *mut u64, mem_len: usize, spaces: usize, most: usize, places: usize, pairs: usize, queues: usize,
        quotas: *const u64, quotas_len: usize,
    ) -> u8;
    fn stonespry_create_capability(
        out: *mut CallAnswer, mem: *mut u64, mem_len: usize, s: usize, object: u64, valid: bool, cap_type: u8, rights: u32,
    );
    fn stonespry_delegate(
        out: *mut CallAnswer, mem: *mut u64, mem_len: usize, token: u64, source: usize, target: usize, rights: u32,
    );
    fn stonespry_check_capability(
        out: *mut CallAnswer, mem: *mut u64, mem_len: usize, token: u64, required: u32, s: usize,
    );
    fn stonespry_revoke_held(
        out: *mut CallAnswer, mem: *mut u64, mem_len: usize, s: usize, token: u64, time: u64,
        pids: *const u64, pids_len: usize,
    );
    fn stonespry_drain_notifications(
        out: *mut CallAnswer, mem: *mut u64, mem_len: usize, pid: u64, area: *mut u64, area_len: usize,
    );
}

/// A world in lent words. Slices and `&mut` rule out all that the header calls misuse but a stack too small, so every method is safe.
struct World<'a>(&'a mut [u64]);

impl<'a> World<'a> {
    const SPACES: usize = 2;
    const MOST: usize = 8;
    const PLACES: usize = 64;
    const PAIRS: usize = 64;
    const QUEUES: usize = 4;
    /// The header's STONESPRY_LENGTH; 16 slots serve the quota 8.
    const WORDS: usize = 16 + Self::SPACES * (8 + 4 * 16) + (5 * Self::PLACES + 1) + Self::PAIRS + 771 * Self::QUEUES;

    fn open(mem: &'a mut [u64], quotas: &[u64]) -> Option<Self> {
        let (words, spaces) = (mem.as_mut_ptr(), quotas.len());
        let answer = unsafe {
            stonespry_open(words, mem.len(), spaces, Self::MOST, Self::PLACES, Self::PAIRS, Self::QUEUES, quotas.as_ptr(), spaces)
        };
        (answer == DONE).then_some(Self(mem))
    }

    fn create(&mut self, space: usize, object: u64, cap_type: u8, rights: u32) -> CallAnswer {
        self.call(|out, mem, len| unsafe { stonespry_create_capability(out, mem, len, space, object, true, cap_type, rights) })
    }

    fn delegate(&mut self, token: u64, source: usize, target: usize, rights: u32) -> CallAnswer {
        self.call(|out, mem, len| unsafe { stonespry_delegate(out, mem, len, token, source, target, rights) })
    }

    fn check(&mut self, token: u64, required: u32, space: usize) -> CallAnswer {
        self.call(|out, mem, len| unsafe { stonespry_check_capability(out, mem, len, token, required, space) })
    }

    fn revoke_held(&mut self, space: usize, token: u64, time: u64, told: &[u64]) -> CallAnswer {
        self.call(|out, mem, len| unsafe { stonespry_revoke_held(out, mem, len, space, token, time, told.as_ptr(), told.len()) })
    }

    fn drain(&mut self, pid: u64, area: &mut [u64]) -> CallAnswer {
        self.call(|out, mem, len| unsafe { stonespry_drain_notifications(out, mem, len, pid, area.as_mut_ptr(), area.len()) })
    }

    fn call(&mut self, function: impl FnOnce(*mut CallAnswer, *mut u64, usize)) -> CallAnswer {
        let mut out = CallAnswer::default();
        function(&mut out, self.0.as_mut_ptr(), self.0.len());
        out
    }
}

fn step(what: &str, a: CallAnswer) -> u64 {
    println!("{what:<32} answer {}, value {:016x}", a.answer, a.value);
    a.value
}

fn main() {
    let mut mem = vec![0; World::WORDS];
    let mut world = World::open(&mut mem, &[8, 8]).expect("the numbers are in range and the memory is long enough");

    let owned = step("create for object 77 in space 0", world.create(0, 77, 2, READ | WRITE | GRANT | REVOKE));
    let lent = step("delegate READ to space 1", world.delegate(owned, 0, 1, READ));
    step("space 1 may read", world.check(lent, READ, 1));
    step("space 1 may write", world.check(lent, WRITE, 1));

    step("space 0 revokes, pid 7 is told", world.revoke_held(0, owned, 5, &[7]));
    step("space 1 may read", world.check(lent, READ, 1));

    let mut notices = [0; 3 * 256];
    step("drain the notices of pid 7", world.drain(7, &mut notices));
    println!("notice: id {}, time {}, reason {}", notices[0], notices[1], notices[2]);
}
