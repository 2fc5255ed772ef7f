//! The port: the look over the memory, as the crate `host_spaces` exports it.

#[link(name = "host", kind = "static")]
unsafe extern "C" {
    fn stonespry_is_sound(mem: *const u64, len: usize) -> bool;
}

pub fn is_sound(mem: &[u64]) -> bool {
    // SAFETY: the port reads so many words from there, and no others.
    unsafe { stonespry_is_sound(mem.as_ptr(), mem.len()) }
}
