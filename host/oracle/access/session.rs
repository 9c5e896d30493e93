// Brought into `services/session.rs` by the serde stand-in.
impl<B: ControllerBackend> Session<B> {
    pub(crate) fn set_state(&mut self, state: ControllerState) {
        self.state = state;
    }

    pub(crate) fn set_recovery_revision(&mut self, revision: Option<u64>) {
        self.recovery_revision = revision;
    }
}
