//! Aborts and resets, call by call.
use std::collections::BTreeMap;

use script::{AbortReply, AbortReport, Asked, Call, DeviceId, Outcome, Recovery, RequestId};
use tapewoad::calls::{self, Answer};

use super::{Port, Told, row_state};
use crate::{answered, convert};

/// Device, endpoint and token of each request that has a row, as its line gave
/// them: the backend is not told the tokens of a recovery, so no answer line
/// shows those that the library names.
#[derive(Default)]
pub struct Submitted(BTreeMap<RequestId, (DeviceId, u8, u64)>);

impl Submitted {
    /// Keeps what a call that passed has changed.
    pub fn note(&mut self, call: &Call, outcome: &Outcome) {
        let token = match call {
            Call::Submit(submit) => submit.reply.ok(),
            Call::Plan(plan) => plan.reply.ok(),
            _ => None,
        };
        match (call, outcome, token) {
            (_, Outcome::Row(row), Some(token)) => {
                self.0.insert(row.id, (row.device, row.endpoint, token));
            }
            (Call::Reclaim(id), Outcome::Row(_), _) => {
                self.0.remove(id);
            }
            (Call::Open(_) | Call::Close { .. }, Outcome::Done, _) => self.0.clear(),
            _ => {}
        }
    }
}

impl Port {
    /// A recovery and, where it begins, its reply.
    pub fn recover(&mut self, target: RequestId, kind: Recovery, reply: &AbortReply) -> Told {
        let call = convert::to_recovery(target, kind);
        let begun = match answered(&mut self.store, &call)? {
            Answer::Recover(begun) => begun,
            answer => return Ok((self.outcome(&call, answer)?, Asked::Nothing, Vec::new())),
        };
        let (device, endpoint, tokens) = self.affected(target)?;
        let mut expected = begun.clone();
        expected.target = convert::to_request_id(target);
        expected.device = convert::to_device_id(device);
        expected.endpoint = endpoint;
        expected.tokens = tokens;
        if begun != expected {
            return Err(format!("the port begins {begun:?}, not {expected:?}"));
        }
        let slot = begun.device.slot;
        let asked = match begun.kind {
            calls::Recovery::Abort => Asked::Abort { slot, endpoint },
            calls::Recovery::Reset { preserve } => Asked::Reset {
                slot,
                endpoint,
                preserve,
            },
        };
        let outcome = convert::recovery_reply(reply, |call| self.made(call))?;
        Ok((outcome, asked, Vec::new()))
    }

    /// Device and endpoint of a request, and the tokens of the held requests
    /// that share them, by ascending id.
    fn affected(&mut self, target: RequestId) -> Result<(DeviceId, u8, Vec<u64>), String> {
        let found = self.submitted.0.get(&target).copied();
        let (device, endpoint, _) = found.ok_or("a recovery of a request without a row")?;
        let mut tokens = Vec::new();
        for (id, (other, other_endpoint, token)) in &self.submitted.0 {
            if (*other, *other_endpoint) != (device, endpoint) {
                continue;
            }
            let call = calls::Call::RequestStatus(convert::to_request_id(*id));
            if let Answer::Report(report) = answered(&mut self.store, &call)?
                && row_state(report.state).is_held()
            {
                tokens.push(*token);
            }
        }
        Ok((device, endpoint, tokens))
    }
}

pub fn abort_report(report: calls::AbortReport) -> AbortReport {
    AbortReport {
        target: convert::request_id(report.target),
        device: convert::device_id(report.device),
        endpoint: report.endpoint,
        completed: convert::request_ids(report.completed),
        aborted: convert::request_ids(report.aborted),
        ready: report.restart_ready,
        error: report.error.map(convert::error),
    }
}
