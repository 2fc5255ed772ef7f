// ---- Appended to the copy of space.rs: private state for the comparison.

/// One live entry; the object by its identity.
#[derive(Debug, Clone, Copy, PartialEq, Eq)]
pub struct EntryView {
    pub token: u64,
    pub object: u64,
    pub rights: u32,
    pub uses: u64,
}

#[derive(Debug, Clone, Copy, PartialEq, Eq)]
pub enum SlotView {
    Empty,
    Tombstone,
    Full(EntryView),
}

#[derive(Debug, Clone, PartialEq, Eq)]
pub struct TableView {
    pub slots: Vec<SlotView>,
    pub full: usize,
    pub tombstones: usize,
}

#[derive(Debug, Clone, PartialEq, Eq)]
pub struct SpaceView {
    pub quota: usize,
    pub generation: u8,
    pub used: usize,
    pub hits: u64,
    pub misses: u64,
    pub total_caps: u64,
    pub table: TableView,
}

impl CapabilityEntry {
    pub fn view(&self) -> EntryView {
        EntryView {
            token: self.capability.to_u64(),
            object: self.object.identity,
            rights: self.rights.word(),
            uses: self.usage_count.load(Ordering::Relaxed),
        }
    }

    fn of(view: &EntryView) -> Self {
        let object = ObjectRef { identity: view.object, valid: true, type_code: 0 };
        Self {
            usage_count: AtomicU64::new(view.uses),
            ..Self::new(CapabilityToken::from_u64(view.token), object, Rights::new(view.rights))
        }
    }
}

impl Slot {
    fn view(&self) -> SlotView {
        match self {
            Slot::Empty => SlotView::Empty,
            Slot::Tombstone => SlotView::Tombstone,
            Slot::Full(e) => SlotView::Full(e.view()),
        }
    }

    fn of(view: &SlotView) -> Self {
        match view {
            SlotView::Empty => Slot::Empty,
            SlotView::Tombstone => Slot::Tombstone,
            SlotView::Full(e) => Slot::Full(CapabilityEntry::of(e)),
        }
    }
}

impl CapTable {
    fn view(&self) -> TableView {
        TableView { slots: self.slots.iter().map(Slot::view).collect(), full: self.full, tombstones: self.tombstones }
    }

    fn of(view: &TableView) -> Self {
        Self { slots: view.slots.iter().map(Slot::of).collect(), full: view.full, tombstones: view.tombstones }
    }

    /// How many slots `find` looks at.
    fn visits(&self, id: u64) -> usize {
        if self.slots.is_empty() {
            return 0;
        }
        let mask = self.slots.len() - 1;
        let home = self.home(id);
        let end = self.find(id).unwrap_or_else(|| {
            (0..=mask).map(|step| (home + step) & mask).find(|&i| matches!(self.slots[i], Slot::Empty)).unwrap()
        });
        (end.wrapping_sub(home) & mask) + 1
    }

    /// How many entries are moved while a copy of this table is made.
    fn moved_by_copy(&self) -> usize {
        let mut copy = BareTable::new();
        self.entries().map(|e| copy.insert_new(e.clone())).sum()
    }
}

/// A table with no space around it. What is measured is not inlined: the port's side is a call too.
#[derive(Default)]
pub struct BareTable(CapTable);

impl BareTable {
    pub fn new() -> Self {
        Self::default()
    }

    pub fn home(&self, id: u64) -> usize {
        self.0.home(id)
    }

    #[inline(never)]
    pub fn find(&self, id: u64) -> Option<usize> {
        self.0.find(id)
    }

    pub fn visits(&self, id: u64) -> usize {
        self.0.visits(id)
    }

    pub fn get(&self, id: u64) -> Option<&CapabilityEntry> {
        self.0.get(id)
    }

    /// Places an entry whose id is absent; the answer is how many entries were moved. A rebuild
    /// makes the new slots while the old ones are there, so they stand at another address.
    pub fn insert_new(&mut self, entry: CapabilityEntry) -> usize {
        let (place, full) = (self.0.slots.as_ptr(), self.0.full);
        self.0.insert_new(entry);
        if self.0.slots.as_ptr() == place {
            0
        } else {
            full
        }
    }

    /// The same with nothing counted.
    #[inline(never)]
    pub fn insert_uncounted(&mut self, entry: CapabilityEntry) {
        self.0.insert_new(entry);
    }

    #[inline(never)]
    pub fn remove_at(&mut self, i: usize) -> Option<CapabilityEntry> {
        self.0.remove_at(i)
    }

    pub fn entries(&self) -> Vec<EntryView> {
        self.0.entries().map(CapabilityEntry::view).collect()
    }

    /// Becomes a copy of `source`, by `clone_from`.
    pub fn copy_from(&mut self, source: &mut Self) {
        self.in_space(|target| source.in_space(|source| target.clone_from(source).unwrap()));
    }

    /// The same with itself as the source.
    pub fn copy_from_itself(&mut self) {
        self.in_space(|space| space.clone_from(space).unwrap());
    }

    pub fn moved_by_copy(&self) -> usize {
        self.0.moved_by_copy()
    }

    fn in_space<R>(&mut self, call: impl FnOnce(&CapabilitySpace) -> R) -> R {
        let space = CapabilitySpace::new();
        *space.table.write() = core::mem::take(&mut self.0);
        let answer = call(&space);
        self.0 = core::mem::take(&mut *space.table.write());
        answer
    }

    /// Slots, full ones, removed marks.
    pub fn counts(&self) -> [usize; 3] {
        [self.0.slots.len(), self.0.full, self.0.tombstones]
    }

    pub fn slot(&self, i: usize) -> SlotView {
        self.0.slots[i].view()
    }

    pub fn view(&self) -> TableView {
        self.0.view()
    }
}

impl CapabilitySpace {
    pub fn view(&self) -> SpaceView {
        SpaceView {
            quota: self.quota,
            generation: self.generation(),
            used: self.used(),
            hits: self.stats.hits.load(Ordering::Relaxed),
            misses: self.stats.misses.load(Ordering::Relaxed),
            total_caps: self.stats.total_caps.load(Ordering::Relaxed),
            table: self.table.read().view(),
        }
    }

    /// Takes over what a view shows, so that a history can begin anywhere.
    pub fn put(&mut self, view: &SpaceView) {
        *self.table.get_mut() = CapTable::of(&view.table);
        self.generation.store(view.generation, Ordering::SeqCst);
        self.quota = view.quota;
        self.used.store(view.used, Ordering::Relaxed);
        self.stats.total_caps.store(view.total_caps, Ordering::Relaxed);
        self.stats.hits.store(view.hits, Ordering::Relaxed);
        self.stats.misses.store(view.misses, Ordering::Relaxed);
    }

    pub fn set_quota(&mut self, quota: usize) {
        self.quota = quota;
    }

    /// `table_capacity`, which the source's own crate alone can call.
    pub fn capacity(&self) -> usize {
        self.table_capacity()
    }

    /// How many slots a search for `id` looks at.
    pub fn visits(&self, id: u64) -> usize {
        self.table.read().visits(id)
    }

    pub fn moved_by_copy(&self) -> usize {
        self.table.read().moved_by_copy()
    }

    /// Where the slots stand: it changes exactly at a rebuild (see `BareTable::insert_new`).
    pub fn slots_address(&self) -> usize {
        self.table.read().slots.as_ptr() as usize
    }
}
