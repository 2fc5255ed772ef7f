//! Document 01's request stream program over the original, from its own words: the records, what is refused before a
//! call is made, the calls and the lines. The world's limits are the calls' (`calls`), so a run goes on past 22 and 24
//! as past any other answer.

pub mod kinds;
pub mod requests;
pub mod script;
mod wander;

use judge::layout::{Numbers, NOTICE, NOTICES};

use crate::calls::{refused, Kernel, ManagerCall, OnOriginal, Reply, RevocationCall, SpaceCall, Words};
use crate::History;

/// Bytes of a record, records of a run, the quota of each space, and the pids that are told of a revocation.
pub const RECORD: usize = 24;
pub const MOST_RECORDS: usize = 2048;
pub const QUOTA: usize = 32;
pub const PIDS: [u64; 2] = [1, 2];

/// The fields of a record, the most significant first.
#[derive(Debug, Clone, Copy, PartialEq, Eq)]
pub enum Field {
    Op,
    Space,
    Second,
    Valid,
    Type,
    Rights,
    Zero,
    A,
    B,
}

use Field::*;

impl Field {
    /// Each with its bits.
    pub const ALL: [(Field, usize); 9] =
        [(Op, 5), (Space, 6), (Second, 6), (Valid, 1), (Type, 4), (Rights, 32), (Zero, 10), (A, 64), (B, 64)];
}

/// What each operation reads, from 0 to 15.
pub const READS: [&[Field]; 16] = [
    &[],
    &[Space, Valid, Type, Rights, A],
    &[Space, Second, Rights, A],
    &[Space, A],
    &[Space, Rights, A],
    &[Space, A],
    &[A],
    &[Space, A, B],
    &[Space],
    &[Space, Second],
    &[Space],
    &[Space, Rights, A, B],
    &[Space, Rights, A],
    &[Space, A],
    &[A],
    &[A, B],
];

/// The operations whose value is printed: tokens, rights, an object, an id, a count of notices.
const VALUED: [u64; 6] = [1, 2, 3, 5, 12, 14];

/// A record, field by field.
#[derive(Debug, Clone, Copy, PartialEq, Eq)]
pub struct Request([u64; 9]);

impl Request {
    pub fn of(op: u64) -> Self {
        Self([0; 9]).with(Op, op)
    }

    pub fn with(mut self, field: Field, value: u64) -> Self {
        self.0[field as usize] = value;
        self
    }

    pub fn get(&self, field: Field) -> u64 {
        self.0[field as usize]
    }

    pub fn read(record: &[u8; RECORD]) -> Self {
        let mut bits = record.iter().flat_map(|byte| (0..8).rev().map(move |bit| u64::from(byte >> bit & 1)));
        Self(Field::ALL.map(|(_, width)| bits.by_ref().take(width).fold(0, |value, bit| 2 * value + bit)))
    }

    pub fn bytes(&self) -> [u8; RECORD] {
        let bits =
            Field::ALL.iter().flat_map(|&(field, width)| (0..width).rev().map(move |bit| self.get(field) >> bit));
        let mut record = [0; RECORD];
        for (n, bit) in bits.enumerate() {
            record[n / 8] = record[n / 8] << 1 | (bit & 1) as u8;
        }
        record
    }

    /// Whether its operation reads a field; one outside 1..15 reads none.
    pub fn reads(&self, field: Field) -> bool {
        READS.get(self.get(Op) as usize).is_some_and(|read| read.contains(&field))
    }

    /// 20 for a space that is read and not there, then 21 for a field that is not read and not zero.
    fn refusal(&self) -> Option<u8> {
        if !(1..=15).contains(&self.get(Op)) {
            return Some(21);
        }
        let bad_space = |field| self.reads(field) && self.get(field) >= Numbers::PROGRAM.s as u64;
        if bad_space(Space) || bad_space(Second) {
            return Some(20);
        }
        let stray = |&(field, _): &(Field, usize)| field != Op && !self.reads(field) && self.get(field) != 0;
        Field::ALL.iter().any(stray).then_some(21)
    }

    /// The call that it asks for.
    fn call(&self) -> Asked {
        let [op, space, second, valid, cap_type, rights, _, a, b] = self.0;
        let (s, word, rights) = (space as usize, rights, rights as u32);
        let kernel = Kernel { time: b, listed: PIDS.to_vec() };
        match op {
            1 => Asked::Manager(ManagerCall::Create {
                s,
                object: a,
                valid: valid == 1,
                cap_type: cap_type as u8,
                rights,
            }),
            2 => Asked::Manager(ManagerCall::Delegate { token: a, source: s, target: second as usize, rights }),
            3 => Asked::Space((SpaceCall::Lookup, [space, a, 0, 0])),
            4 => Asked::Manager(ManagerCall::Check { token: a, required: rights, s }),
            5 => Asked::Space((SpaceCall::Remove, [space, a, 0, 0])),
            6 => Asked::Manager(ManagerCall::Delete { token: a }),
            7 => Asked::Revocation(RevocationCall::RevokeHeld { s, token: a, kernel }),
            8 => Asked::Space((SpaceCall::Clear, [space, 0, 0, 0])),
            9 => Asked::Space((SpaceCall::Copy, [space, second, 0, 0])),
            10 => Asked::Space((SpaceCall::RevokeAll, [space, 0, 0, 0])),
            11 => Asked::Space((SpaceCall::Insert, [space, a, b, word])),
            12 => Asked::Space((SpaceCall::CreateCapability, [space, word, a, 0])),
            13 => Asked::Space((SpaceCall::Revoke, [space, a, 0, 0])),
            14 => Asked::Revocation(RevocationCall::Drain { pid: a, area: NOTICES * NOTICE }),
            15 => Asked::Revocation(RevocationCall::RevokeCapability { token: a, kernel }),
            _ => unreachable!("refused before"),
        }
    }
}

/// A call of any of the three kinds.
#[derive(Debug)]
pub enum Asked {
    Space((SpaceCall, Words)),
    Manager(ManagerCall),
    Revocation(RevocationCall),
}

/// A run of the program on a world of its own.
pub struct Stream {
    pub history: History,
    /// Lines so far.
    lines: usize,
    over: bool,
}

/// What a run did with a record: the request that it read, the call that it made of it, the reply, and the line.
pub struct Served {
    pub request: Option<Request>,
    pub call: Option<Asked>,
    pub reply: Reply,
    pub line: String,
}

impl Stream {
    pub fn open() -> Self {
        let Numbers { s, .. } = Numbers::PROGRAM;
        Self { history: History::open(&vec![QUOTA; s]), lines: 0, over: false }
    }

    /// The next record, or what there is of one; nothing once the run is over.
    pub fn serve(&mut self, record: &[u8]) -> Option<Served> {
        if self.over {
            return None;
        }
        let whole = record.try_into().ok().filter(|_| self.lines < MOST_RECORDS);
        self.over = whole.is_none();
        self.lines += 1;
        let request = whole.map(Request::read);
        let (call, reply) = match request {
            None => (None, refused(21)),
            Some(request) => self.answer(request),
        };
        let op = request.map_or(0, |request| request.get(Op));
        let value = if VALUED.contains(&op) { reply.values[0] } else { 0 };
        let line = format!("{} {op} {} {value:016x}\n", self.lines, reply.answer);
        Some(Served { request, call, reply, line })
    }

    /// A record is refused before its call, or its call is made.
    fn answer(&mut self, request: Request) -> (Option<Asked>, Reply) {
        if let Some(answer) = request.refusal() {
            return (None, refused(answer));
        }
        let call = request.call();
        let on_original: &dyn OnOriginal = match &call {
            Asked::Space(call) => call,
            Asked::Manager(call) => call,
            Asked::Revocation(call) => call,
        };
        let reply = on_original.original(&mut self.history, Numbers::PROGRAM);
        (Some(call), reply)
    }
}
