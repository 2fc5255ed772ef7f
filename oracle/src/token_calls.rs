//! Every function of token.rs as a numbered call on words, with the original's answer: what the live
//! comparison and the fixed list share. (`alloc_cap_id` is a call on the world.)

use std::fmt;
use std::panic::{catch_unwind, UnwindSafe};

use crate::arguments::Argument::{self, *};
use crate::cap::token::{CapabilityFlags, CapabilityToken, Rights as Set};
use crate::cap::types::CapabilityId;

/// What a call answers: 0 and a value, or 21 (BadField) and 0.
#[derive(Clone, Copy, PartialEq, Eq)]
pub struct Outcome {
    pub answer: u8,
    pub value: u64,
}

/// As the request stream prints it: the answer, and the value in hex.
impl fmt::Display for Outcome {
    fn fmt(&self, f: &mut fmt::Formatter<'_>) -> fmt::Result {
        write!(f, "{} {:016x}", self.answer, self.value)
    }
}

impl fmt::Debug for Outcome {
    fn fmt(&self, f: &mut fmt::Formatter<'_>) -> fmt::Result {
        write!(f, "{self}")
    }
}

pub const BAD_FIELD: Outcome = Outcome { answer: 21, value: 0 };

pub struct Function {
    pub name: &'static str,
    pub arguments: &'static [Argument],
    pub original: fn([u64; 4]) -> Outcome,
}

const fn function(name: &'static str, arguments: &'static [Argument], original: fn([u64; 4]) -> Outcome) -> Function {
    Function { name, arguments, original }
}

/// The name of the one function of a list, which the live comparison also calls on lists that no word holds.
pub const COMBINE: &str = "CapabilityFlags::combine";

/// In the source's order. A call's number is its place, from 1.
pub const FUNCTIONS: [Function; 28] = [
    function("CapabilityToken::new", &[Id, Byte, Nibble, Nibble], |[id, generation, kind, flags]| {
        made(move || CapabilityToken::new(id, generation as u8, kind as u8, flags as u8))
    }),
    function("CapabilityToken::id", &[Word], |[t, ..]| done(token(t).id())),
    function("CapabilityToken::generation", &[Word], |[t, ..]| done(token(t).generation())),
    function("CapabilityToken::cap_type", &[Word], |[t, ..]| done(token(t).cap_type())),
    function("CapabilityToken::flags", &[Word], |[t, ..]| done(token(t).flags())),
    function("CapabilityToken::from_id_and_generation", &[Id, Byte], |[id, generation, ..]| {
        let id = CapabilityId(id);
        made(move || CapabilityToken::from_id_and_generation(id, generation as u8))
    }),
    function("CapabilityToken::to_u64", &[Word], |[t, ..]| done(token(t).to_u64())),
    function("CapabilityToken::from_u64", &[Word], |[t, ..]| done(token(t).to_u64())),
    function("CapabilityToken::is_null", &[Word], |[t, ..]| done(token(t).is_null())),
    function("CapabilityToken::null", &[], |_| done(CapabilityToken::null().to_u64())),
    function("CapabilityToken::from_parts", &[Id, Unread, Byte, Byte], |[id, object, generation, metadata]| {
        made(move || CapabilityToken::from_parts(id, object, generation as u8, metadata as u8))
    }),
    function("CapabilityFlags::has", &[Byte, Flag], |[flags, perm, ..]| {
        flag(perm).map_or(BAD_FIELD, |perm| done(CapabilityFlags::has(flags as u8, perm)))
    }),
    function(COMBINE, &[Flags], |[list, ..]| combine(&listed(list))),
    function("Rights constants", &[Constant], |[number, ..]| {
        done(CONSTANTS.get(number as usize).copied().unwrap_or(Set::empty()).word())
    }),
    function("Rights::new", &[Rights], |[a, ..]| done(set(a).word())),
    function("Rights::contains", &[Rights, Rights], |[a, b, ..]| done(set(a).contains(set(b)))),
    function("Rights::intersection", &[Rights, Rights], |[a, b, ..]| done(set(a).intersection(set(b)).word())),
    function("Rights::union", &[Rights, Rights], |[a, b, ..]| done(set(a).union(set(b)).word())),
    function("Rights::remove", &[Rights, Rights], |[a, b, ..]| done(set(a).remove(set(b)).word())),
    function("Rights::bits", &[Rights], |[a, ..]| done(set(a).bits())),
    function("Rights::is_empty", &[Rights], |[a, ..]| done(set(a).is_empty())),
    function("Rights::empty", &[], |_| done(Set::empty().word())),
    function("Rights::to_flags", &[Rights], |[a, ..]| done(set(a).to_flags())),
    function("Rights | Rights", &[Rights, Rights], |[a, b, ..]| done((set(a) | set(b)).word())),
    function("Rights |= Rights", &[Rights, Rights], |[a, b, ..]| {
        let mut a = set(a);
        a |= set(b);
        done(a.word())
    }),
    function("Rights & Rights", &[Rights, Rights], |[a, b, ..]| done((set(a) & set(b)).word())),
    function("!Rights", &[Rights], |[a, ..]| done((!set(a)).word())),
    function("Rights::difference", &[Rights, Rights], |[a, b, ..]| done(set(a).difference(set(b)).word())),
];

/// The constants of `Rights`, in the source's order.
const CONSTANTS: [Set; 9] =
    [Set::READ, Set::WRITE, Set::EXECUTE, Set::GRANT, Set::REVOKE, Set::DELETE, Set::MODIFY, Set::CREATE, Set::ALL];

fn done(value: impl Into<u64>) -> Outcome {
    Outcome { answer: 0, value: value.into() }
}

/// The original has a `debug_assert` on each field's width: where one fails, the answer is 21.
fn made(make: impl FnOnce() -> CapabilityToken + UnwindSafe) -> Outcome {
    catch_unwind(make).map_or(BAD_FIELD, |token| done(token.to_u64()))
}

fn token(word: u64) -> CapabilityToken {
    CapabilityToken::from_u64(word)
}

fn set(word: u64) -> Set {
    Set::new(word as u32)
}

/// The flag of a number; no other number is a flag, and the answer is 21.
fn flag(number: u64) -> Option<CapabilityFlags> {
    use CapabilityFlags::*;
    [Read, Write, Execute, Grant].into_iter().find(|&flag| flag as u64 == number)
}

/// The flags of these numbers combined; 21 if one of them is no flag's.
pub fn combine(numbers: &[u8]) -> Outcome {
    let flags: Option<Vec<CapabilityFlags>> = numbers.iter().map(|&number| flag(number.into())).collect();
    flags.map_or(BAD_FIELD, |flags| done(CapabilityFlags::combine(&flags)))
}

/// The numbers of a list of flags: the word's hex digits from the low end, up to the first 0.
pub fn listed(list: u64) -> Vec<u8> {
    (0..16).map(|place| (list >> (4 * place) & 15) as u8).take_while(|&digit| digit != 0).collect()
}
