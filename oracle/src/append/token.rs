// ---- Appended to the copy of token.rs: private state for the comparison.

impl Rights {
    /// All 32 bits; `bits` gives 16.
    pub fn word(self) -> u32 {
        self.0
    }
}
