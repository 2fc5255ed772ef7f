//! The port: the exported functions of the crate `host_tokens`, and each function of token.rs by them.
//!
//! The declarations keep to what tools/native says holds on both processors.

use oracle::token_calls::{listed, Outcome};

#[repr(C)]
struct TokenAnswer {
    answer: u8,
    token: u64,
}

#[repr(C)]
struct HasAnswer {
    answer: u8,
    has: bool,
}

#[repr(C)]
struct FlagsAnswer {
    answer: u8,
    flags: u8,
}

#[link(name = "host", kind = "static")]
unsafe extern "C" {
    safe fn stonespry_token_new(id: u64, generation: u8, cap_type: u8, flags: u8) -> TokenAnswer;
    safe fn stonespry_token_id(token: u64) -> u64;
    safe fn stonespry_token_generation(token: u64) -> u8;
    safe fn stonespry_token_cap_type(token: u64) -> u8;
    safe fn stonespry_token_flags(token: u64) -> u8;
    safe fn stonespry_token_from_id_and_generation(id: u64, generation: u8) -> TokenAnswer;
    safe fn stonespry_token_to_u64(token: u64) -> u64;
    safe fn stonespry_token_from_u64(value: u64) -> u64;
    safe fn stonespry_token_is_null(token: u64) -> bool;
    safe fn stonespry_token_null() -> u64;
    safe fn stonespry_token_from_parts(id: u64, object: u64, generation: u8, metadata: u8) -> TokenAnswer;

    safe fn stonespry_flags_has(flags: u8, number: u8) -> HasAnswer;
    fn stonespry_flags_combine(numbers: *const u8, length: usize) -> FlagsAnswer;

    safe fn stonespry_rights_constant(number: u8) -> u32;
    safe fn stonespry_rights_new(rights: u32) -> u32;
    safe fn stonespry_rights_contains(rights: u32, other: u32) -> bool;
    safe fn stonespry_rights_intersection(rights: u32, other: u32) -> u32;
    safe fn stonespry_rights_union(rights: u32, other: u32) -> u32;
    safe fn stonespry_rights_remove(rights: u32, other: u32) -> u32;
    safe fn stonespry_rights_bits(rights: u32) -> u16;
    safe fn stonespry_rights_is_empty(rights: u32) -> bool;
    safe fn stonespry_rights_empty() -> u32;
    safe fn stonespry_rights_to_flags(rights: u32) -> u8;
    safe fn stonespry_rights_complement(rights: u32) -> u32;
    safe fn stonespry_rights_difference(rights: u32, other: u32) -> u32;
}

/// In the order of `oracle::token_calls::FUNCTIONS`; the source's `|`, `|=` and `&` are `union` and
/// `intersection` in the port.
pub const TOKEN: [fn([u64; 4]) -> Outcome; 28] = [
    |[id, generation, cap_type, flags]| made(stonespry_token_new(id, generation as u8, cap_type as u8, flags as u8)),
    |[t, ..]| done(stonespry_token_id(t)),
    |[t, ..]| done(stonespry_token_generation(t)),
    |[t, ..]| done(stonespry_token_cap_type(t)),
    |[t, ..]| done(stonespry_token_flags(t)),
    |[id, generation, ..]| made(stonespry_token_from_id_and_generation(id, generation as u8)),
    |[t, ..]| done(stonespry_token_to_u64(t)),
    |[t, ..]| done(stonespry_token_from_u64(t)),
    |[t, ..]| done(stonespry_token_is_null(t)),
    |_| done(stonespry_token_null()),
    |[id, object, generation, metadata]| made(stonespry_token_from_parts(id, object, generation as u8, metadata as u8)),
    |[flags, number, ..]| {
        let HasAnswer { answer, has } = stonespry_flags_has(flags as u8, number as u8);
        Outcome { answer, value: has.into() }
    },
    |[list, ..]| combine(&listed(list)),
    |[number, ..]| done(stonespry_rights_constant(number as u8)),
    |[a, ..]| done(stonespry_rights_new(a as u32)),
    |[a, b, ..]| done(stonespry_rights_contains(a as u32, b as u32)),
    |[a, b, ..]| done(stonespry_rights_intersection(a as u32, b as u32)),
    |[a, b, ..]| done(stonespry_rights_union(a as u32, b as u32)),
    |[a, b, ..]| done(stonespry_rights_remove(a as u32, b as u32)),
    |[a, ..]| done(stonespry_rights_bits(a as u32)),
    |[a, ..]| done(stonespry_rights_is_empty(a as u32)),
    |_| done(stonespry_rights_empty()),
    |[a, ..]| done(stonespry_rights_to_flags(a as u32)),
    |[a, b, ..]| done(stonespry_rights_union(a as u32, b as u32)),
    |[a, b, ..]| done(stonespry_rights_union(a as u32, b as u32)),
    |[a, b, ..]| done(stonespry_rights_intersection(a as u32, b as u32)),
    |[a, ..]| done(stonespry_rights_complement(a as u32)),
    |[a, b, ..]| done(stonespry_rights_difference(a as u32, b as u32)),
];

fn done(value: impl Into<u64>) -> Outcome {
    Outcome { answer: 0, value: value.into() }
}

fn made(TokenAnswer { answer, token }: TokenAnswer) -> Outcome {
    Outcome { answer, value: token }
}

pub fn combine(numbers: &[u8]) -> Outcome {
    // The slice is alive and not written while the call runs.
    let FlagsAnswer { answer, flags } = unsafe { stonespry_flags_combine(numbers.as_ptr(), numbers.len()) };
    Outcome { answer, value: flags.into() }
}
