// Brought into `models/ports.rs` by the serde stand-in.
impl Ports {
    pub(crate) fn set_row(
        &mut self,
        number: u8,
        generation: u64,
        reading: Option<u32>,
    ) -> Result<(), OperationError> {
        let index = self.index(number)?;
        self.generations[index] = generation;
        self.entries[index] = None;
        if let Some(raw) = reading {
            self.observe(number, raw)?;
        }
        Ok(())
    }

    pub(crate) fn session_number(&self) -> u64 {
        self.session
    }

    /// Each port's generation and reading.
    pub(crate) fn rows(&self) -> Vec<(u64, Option<u32>)> {
        let readings = self
            .entries
            .iter()
            .map(|row| row.as_ref().map(|row| row.raw));
        self.generations.iter().copied().zip(readings).collect()
    }
}
