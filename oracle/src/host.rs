//! The port as the crates `host_spaces` and `host` export it: opening, look, a run of the request stream, and the
//! calls of a space, of the manager and of revocation.
//!
//! The declarations keep to what tools/native says holds on both processors: a reply of more than 16 bytes is written
//! where the first parameter says.

#[repr(C)]
#[derive(Default)]
pub struct CallAnswer {
    pub answer: u8,
    pub value: u64,
    pub count: u64,
}

#[repr(C)]
#[derive(Default)]
pub struct EntryAnswer {
    pub answer: u8,
    pub token: u64,
    pub object: u64,
    pub rights: u32,
    pub uses: u64,
    pub visits: u64,
}

#[repr(C)]
#[derive(Default)]
pub struct StatsAnswer {
    pub answer: u8,
    pub hits: u64,
    pub misses: u64,
    pub total_caps: u64,
}

#[repr(C)]
#[derive(Default)]
pub struct ManagerAnswer {
    pub answer: u8,
    pub created: u64,
    pub delegated: u64,
    pub revoked: u64,
    pub deleted: u64,
}

#[repr(C)]
#[derive(Default)]
pub struct TreeAnswer {
    pub answer: u8,
    pub parents: u64,
    pub children: u64,
}

#[repr(C)]
#[derive(Default)]
pub struct QueuesAnswer {
    pub answer: u8,
    pub processes: u64,
    pub notifications: u64,
}

pub type Out<'a> = &'a mut CallAnswer;
pub type EntryOut<'a> = &'a mut EntryAnswer;

#[link(name = "host", kind = "static")]
unsafe extern "C" {
    pub fn stonespry_is_sound(mem: *const u64, length: usize) -> bool;
    pub fn stonespry_open(
        mem: *mut u64,
        length: usize,
        spaces: usize,
        most: usize,
        places: usize,
        pairs: usize,
        queues: usize,
        quotas: *const u64,
        count: usize,
    ) -> u8;

    pub fn stonespry_run(
        out: Out,
        records: *const u8,
        count: usize,
        mem: *mut u64,
        length: usize,
        lines: *mut u8,
        places: usize,
    );

    pub fn stonespry_space_used(out: Out, mem: *const u64, length: usize, s: usize);
    pub fn stonespry_space_quota(out: Out, mem: *const u64, length: usize, s: usize);
    pub fn stonespry_space_table_capacity(out: Out, mem: *const u64, length: usize, s: usize);
    pub fn stonespry_space_generation(out: Out, mem: *const u64, length: usize, s: usize);
    pub fn stonespry_space_stats(out: &mut StatsAnswer, mem: *const u64, length: usize, s: usize);

    pub fn stonespry_space_lookup(out: Out, mem: *mut u64, length: usize, s: usize, token: u64);
    pub fn stonespry_space_lookup_entry(out: EntryOut, mem: *mut u64, length: usize, s: usize, token: u64);
    pub fn stonespry_space_check_rights(out: Out, mem: *mut u64, length: usize, s: usize, token: u64, required: u32);
    pub fn stonespry_space_get_entry(out: EntryOut, mem: *const u64, length: usize, s: usize, id: u64);
    pub fn stonespry_space_nth_entry(out: EntryOut, mem: *const u64, length: usize, s: usize, n: usize);

    pub fn stonespry_space_insert(
        out: Out,
        mem: *mut u64,
        length: usize,
        s: usize,
        token: u64,
        object: u64,
        rights: u32,
    );
    pub fn stonespry_space_remove(out: Out, mem: *mut u64, length: usize, s: usize, token: u64);
    pub fn stonespry_space_increment_generation(out: Out, mem: *mut u64, length: usize, s: usize);
    pub fn stonespry_space_clear(out: Out, mem: *mut u64, length: usize, s: usize);
    pub fn stonespry_space_revoke_all(out: Out, mem: *mut u64, length: usize, s: usize);
    pub fn stonespry_space_copy(out: Out, mem: *mut u64, length: usize, target: usize, source: usize);

    pub fn stonespry_alloc_cap_id(out: Out, mem: *mut u64, length: usize);
    pub fn stonespry_space_create_capability(
        out: Out,
        mem: *mut u64,
        length: usize,
        s: usize,
        rights: u32,
        object: u64,
    );
    pub fn stonespry_space_revoke(out: Out, mem: *mut u64, length: usize, s: usize, id: u64);

    pub fn stonespry_create_capability(
        out: Out,
        mem: *mut u64,
        length: usize,
        s: usize,
        object: u64,
        valid: bool,
        cap_type: u8,
        rights: u32,
    );
    pub fn stonespry_delegate(
        out: Out,
        mem: *mut u64,
        length: usize,
        token: u64,
        source: usize,
        target: usize,
        rights: u32,
    );
    pub fn stonespry_delete(out: Out, mem: *mut u64, length: usize, token: u64);
    pub fn stonespry_check_capability(out: Out, mem: *mut u64, length: usize, token: u64, required: u32, s: usize);
    pub fn stonespry_is_valid(out: Out, mem: *const u64, length: usize, token: u64);
    pub fn stonespry_manager_stats(out: &mut ManagerAnswer, mem: *const u64, length: usize);
    pub fn stonespry_get_children(out: Out, mem: *const u64, length: usize, id: u64, area: *mut u64, places: usize);
    pub fn stonespry_derivation_tree_stats(out: &mut TreeAnswer, mem: *const u64, length: usize);
    pub fn stonespry_space_census(out: Out, mem: *const u64, length: usize, s: usize);

    pub fn stonespry_revoke(
        out: Out,
        mem: *mut u64,
        length: usize,
        token: u64,
        time: u64,
        pids: *const u64,
        count: usize,
    );
    pub fn stonespry_revoke_capability(
        out: Out,
        mem: *mut u64,
        length: usize,
        token: u64,
        time: u64,
        pids: *const u64,
        count: usize,
    );
    pub fn stonespry_revoke_held(
        out: Out,
        mem: *mut u64,
        length: usize,
        s: usize,
        token: u64,
        time: u64,
        pids: *const u64,
        count: usize,
    );
    pub fn stonespry_revoke_batch(
        out: Out,
        mem: *mut u64,
        length: usize,
        tokens: *const u64,
        batch: usize,
        time: u64,
        pids: *const u64,
        count: usize,
    );

    pub fn stonespry_is_revoked(out: Out, mem: *const u64, length: usize, token: u64);
    pub fn stonespry_epoch(out: Out, mem: *const u64, length: usize);
    pub fn stonespry_get_derivation_tree(
        out: Out,
        mem: *const u64,
        length: usize,
        id: u64,
        area: *mut u64,
        places: usize,
    );

    pub fn stonespry_notify_process(out: Out, mem: *mut u64, length: usize, pid: u64, id: u64, reason: u8, time: u64);
    pub fn stonespry_drain_notifications(
        out: Out,
        mem: *mut u64,
        length: usize,
        pid: u64,
        area: *mut u64,
        places: usize,
    );
    pub fn stonespry_peek_notifications(
        out: Out,
        mem: *const u64,
        length: usize,
        pid: u64,
        area: *mut u64,
        places: usize,
    );
    pub fn stonespry_notification_count(out: Out, mem: *const u64, length: usize, pid: u64);
    pub fn stonespry_cleanup_process_notifications(out: Out, mem: *mut u64, length: usize, pid: u64);
    pub fn stonespry_notification_stats(out: &mut QueuesAnswer, mem: *const u64, length: usize);
    pub fn stonespry_write_reason(out: Out, reason: u8, area: *mut u8, places: usize);
}

pub fn is_sound(mem: &[u64]) -> bool {
    // SAFETY: the port reads so many words from there, and no others.
    unsafe { stonespry_is_sound(mem.as_ptr(), mem.len()) }
}
