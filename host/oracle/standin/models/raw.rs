//! Stand-in for raw operations, which document 01 leaves out but for the marks
//! of `Coherence::slots`.
use super::OperationError;
use std::collections::BTreeMap;

pub enum RawOperation {
    Reconcile { slot: Option<u8> },
    SlotContext { slot: u8 },
}

#[derive(Clone, Copy)]
pub enum Effect {
    Global,
    Slot { slot: u8 },
}

#[derive(Default)]
pub struct Coherence {
    pub global_unknown: bool,
    pub slots: BTreeMap<u8, ()>,
    pub generation: u64,
}

impl Coherence {
    pub fn mutate(
        &mut self,
        _effect: Effect,
        _baseline: Option<serde_json::Value>,
        _pending: bool,
    ) -> Result<(), OperationError> {
        Ok(())
    }

    pub fn reconcile(&mut self, _slot: u8, _snapshot: &serde_json::Value, _pending: bool) -> bool {
        false
    }
}

pub fn effect(_request: &RawOperation) -> Effect {
    Effect::Global
}
