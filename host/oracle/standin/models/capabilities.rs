//! Stand-in for capabilities, which nothing here uses. As a child of `models`
//! it sees the ledger's private fields, so the access to them stands here.
use super::{RequestId, RequestLedger, RequestState};
use std::collections::BTreeMap;

impl RequestLedger {
    pub(crate) fn next_sequence(&self) -> u64 {
        self.next
    }

    pub(crate) fn set_next_sequence(&mut self, next: u64) {
        self.next = next;
    }

    pub(crate) fn entries(&self) -> &BTreeMap<RequestId, RequestState> {
        &self.entries
    }
}
