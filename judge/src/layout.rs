//! Where each word of a world stands: head, S spaces, registry columns, recycled ids, log, P queues.

use std::ops::Range;

/// Words of the head, of which the first five are the opening numbers S, M, R, V, P.
pub const HEAD: usize = 16;
pub const NEXT: usize = 5;
pub const EPOCH: usize = 6;
pub const REGISTERED: usize = 11;
pub const RECYCLED: usize = 12;
pub const LOGGED: usize = 13;

/// Words of a space before its slots.
pub const SPACE_HEAD: usize = 8;
pub const QUOTA: usize = 0;
pub const GENERATION: usize = 1;
pub const HITS: usize = 2;
pub const SLOTS: usize = 5;
pub const LIVE: usize = 6;
pub const REMOVED: usize = 7;

/// A slot: token, object, uses, tag; the tag is the kind times 2^32 plus the rights.
pub const SLOT: usize = 4;
pub const TAG: usize = 3;
pub const KIND_EMPTY: u64 = 0;
pub const KIND_REMOVED: u64 = 1;
pub const KIND_FULL: u64 = 2;

/// A place's state: revoked, listed, then the holders.
pub const REVOKED: u64 = 1;
pub const LISTED: u64 = 2;
pub const HOLDER: u64 = 4;
pub const MOST_CHILDREN: usize = 1024;

/// A queue: pid, first, length, then a ring of notices of three words: id, time, reason.
pub const QUEUE: usize = QUEUE_HEAD + NOTICES * NOTICE;
pub const QUEUE_HEAD: usize = 3;
pub const PID: usize = 0;
pub const FIRST: usize = 1;
pub const LENGTH: usize = 2;
pub const NOTICES: usize = 256;
pub const NOTICE: usize = 3;
pub const REASON: usize = 2;
pub const REASONS: u64 = 4;

/// An id is below 2^48; a token's or a log pair's id is its low 48 bits.
pub const ID_END: u64 = 1 << 48;
/// A log pair is below 2^56.
pub const PAIR_END: u64 = 1 << 56;

pub fn id_of(token: u64) -> u64 {
    token % ID_END
}

/// The slot at which an id's walk begins.
pub fn home(id: u64, slots: usize) -> usize {
    (id.wrapping_mul(0x9E37_79B9_7F4A_7C15) >> 32) as usize % slots
}

/// The opening numbers.
#[derive(Clone, Copy, PartialEq, Eq, Debug)]
pub struct Numbers {
    pub s: usize,
    pub m: usize,
    pub r: usize,
    pub v: usize,
    pub p: usize,
}

impl Numbers {
    pub const LARGEST: Numbers = Numbers { s: 64, m: 256, r: 4095, v: 8192, p: 32 };
    pub const PROGRAM: Numbers = Numbers { s: 4, m: 32, r: 512, v: 512, p: 2 };

    pub fn from_words(words: [u64; 5]) -> Numbers {
        let [s, m, r, v, p] = words.map(|word| word as usize);
        Numbers { s, m, r, v, p }
    }

    pub fn words(self) -> [u64; 5] {
        [self.s, self.m, self.r, self.v, self.p].map(|number| number as u64)
    }

    /// The numbers at the start of `mem`, if each is in range.
    pub fn read(mem: &[u64]) -> Option<Numbers> {
        let words: [u64; 5] = mem[..5].try_into().unwrap();
        let in_range = |(word, most): (&u64, u64)| (1..=most).contains(word);
        words.iter().zip(Numbers::LARGEST.words()).all(in_range).then(|| Numbers::from_words(words))
    }

    /// C, the most slots of a table.
    pub fn capacity(self) -> usize {
        (2 * self.m).next_power_of_two().max(8)
    }

    pub fn space(self, i: usize) -> Range<usize> {
        let width = SPACE_HEAD + SLOT * self.capacity();
        behind(HEAD + i * width, width)
    }

    pub fn ids(self) -> Range<usize> {
        behind(self.space(self.s).start, self.r)
    }

    pub fn objects(self) -> Range<usize> {
        behind(self.ids().end, self.r)
    }

    pub fn states(self) -> Range<usize> {
        behind(self.objects().end, self.r)
    }

    pub fn links(self) -> Range<usize> {
        behind(self.states().end, self.r)
    }

    pub fn recycled(self) -> Range<usize> {
        behind(self.links().end, self.r + 1)
    }

    pub fn log(self) -> Range<usize> {
        behind(self.recycled().end, self.v)
    }

    pub fn queue(self, j: usize) -> Range<usize> {
        behind(self.log().end + j * QUEUE, QUEUE)
    }

    /// The length that a world needs, in words.
    pub fn length(self) -> usize {
        self.queue(self.p).start
    }
}

fn behind(start: usize, words: usize) -> Range<usize> {
    start..start + words
}

/// Where in a queue its notice number `n` from the oldest has its reason.
pub fn reason_at(first: usize, n: usize) -> usize {
    QUEUE_HEAD + (first + n) % NOTICES * NOTICE + REASON
}
