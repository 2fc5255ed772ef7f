// ---- Appended to the copy of manager.rs: private state for the comparison.

/// What is registered under one id; the object by its identity.
#[derive(Debug, Clone, PartialEq, Eq)]
pub struct RegisteredView {
    pub id: u64,
    pub object: u64,
    pub generation: u8,
    pub revoked: bool,
    pub holders: u32,
}

/// Registered ids ascend, and so do the recycled ones.
#[derive(Debug, Default, Clone, PartialEq, Eq)]
pub struct ManagerView {
    pub registry: Vec<RegisteredView>,
    pub next_id: u64,
    pub recycled: Vec<u64>,
    pub created: u64,
    pub delegated: u64,
    pub revoked: u64,
    pub deleted: u64,
}

impl CapabilityManager {
    pub fn view(&self) -> ManagerView {
        let registered = |(&id, e): (&u64, &RegistryEntry)| RegisteredView {
            id,
            object: e.object.identity,
            generation: e.generation.load(Ordering::Relaxed),
            revoked: e.revoked,
            holders: e.holders.load(Ordering::Relaxed),
        };
        ManagerView {
            registry: self.registry.read().iter().map(registered).collect(),
            next_id: self.id_allocator.next_id.load(Ordering::Relaxed),
            recycled: self.id_allocator.recycled.read().iter().copied().collect(),
            created: self.stats.capabilities_created.load(Ordering::Relaxed),
            delegated: self.stats.capabilities_delegated.load(Ordering::Relaxed),
            revoked: self.stats.capabilities_revoked.load(Ordering::Relaxed),
            deleted: self.stats.capabilities_deleted.load(Ordering::Relaxed),
        }
    }

    /// Takes over what a view shows, so that a history can begin anywhere.
    pub fn put(&self, view: &ManagerView) {
        let registered = |e: &RegisteredView| {
            let entry = RegistryEntry {
                object: ObjectRef { identity: e.object, valid: true, type_code: 0 },
                generation: AtomicU8::new(e.generation),
                revoked: e.revoked,
                holders: AtomicU32::new(e.holders),
            };
            (e.id, entry)
        };
        *self.registry.write() = view.registry.iter().map(registered).collect();
        *self.id_allocator.recycled.write() = view.recycled.iter().copied().collect();
        self.id_allocator.recycled_len.store(view.recycled.len(), Ordering::Release);
        self.id_allocator.next_id.store(view.next_id, Ordering::Relaxed);
        self.stats.capabilities_created.store(view.created, Ordering::Relaxed);
        self.stats.capabilities_delegated.store(view.delegated, Ordering::Relaxed);
        self.stats.capabilities_revoked.store(view.revoked, Ordering::Relaxed);
        self.stats.capabilities_deleted.store(view.deleted, Ordering::Relaxed);
    }

    /// How many ids are registered.
    pub fn registered(&self) -> usize {
        self.registry.read().len()
    }

    pub fn is_registered(&self, id: u64) -> bool {
        self.registry.read().contains_key(&id)
    }

    /// How many ids are recycled.
    pub fn recycled(&self) -> usize {
        self.id_allocator.recycled.read().len()
    }

    /// `recycle`, for an id that was allocated and not registered.
    pub fn give_back(&self, id: u64) {
        self.id_allocator.recycle(id);
    }

    /// Back to the state of a new process.
    pub fn reset(&self) {
        self.put(&ManagerView { next_id: 1, ..ManagerView::default() });
        self.global_generation.store(0, Ordering::Relaxed);
    }
}
