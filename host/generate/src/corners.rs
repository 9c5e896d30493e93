//! The corners of a recovery, by name.
use std::collections::BTreeSet;

use oracle::{RowView, Stall, View};
use script::{
    AbortReply, AbortReport, AbortResult, Answer, Call, ControllerState, DeviceId, Outcome,
    Recovery,
};

/// A recovery, what came of it, and what was there before.
pub struct Recovered<'a> {
    pub target: Option<&'a RowView>,
    pub kind: Recovery,
    pub reply: &'a AbortReply,
    pub answer: &'a Answer,
    pub state: ControllerState,
    pub before: &'a View,
}

/// The device that a submission names.
pub fn device(call: &Call) -> Option<DeviceId> {
    match call {
        Call::Submit(submit) => Some(submit.device),
        Call::Plan(plan) => Some(plan.device),
        _ => None,
    }
}

impl Recovered<'_> {
    pub fn corners(&self) -> Vec<&'static str> {
        match (&self.answer.outcome, self.reply, self.target) {
            (Outcome::Refused { number: 46, .. }, Ok(result), Some(target)) => {
                self.out_of_scope(result, target)
            }
            (Outcome::Abort(report), Ok(result), Some(target)) => {
                let mut names = self.reported(report, result, target);
                if matches!(self.kind, Recovery::Reset { .. }) {
                    names.extend(self.reset(report, target));
                }
                names
            }
            _ => Vec::new(),
        }
    }

    fn affected(&self, target: &RowView) -> impl Iterator<Item = &RowView> {
        let rows = self.before.rows.iter();
        rows.filter(move |row| row.held && row.shares_endpoint(target))
    }

    /// The first of 46's causes.
    fn out_of_scope(&self, result: &AbortResult, target: &RowView) -> Vec<&'static str> {
        let expected: BTreeSet<_> = self.affected(target).map(|row| row.token).collect();
        let completed = result.completed.iter().map(|(token, _)| *token);
        let returned: Vec<_> = completed.chain(result.aborted.iter().copied()).collect();
        let unique: BTreeSet<_> = returned.iter().copied().collect();
        let cause = if unique.len() < returned.len() {
            "46 by a token twice"
        } else if unique.is_subset(&expected) {
            "46 by a token missing"
        } else {
            "46 by a token that no affected row has"
        };
        let many = (returned.len() > 128).then_some("46 by more than 128 tokens");
        [cause].into_iter().chain(many).collect()
    }

    fn reported(
        &self,
        report: &AbortReport,
        result: &AbortResult,
        target: &RowView,
    ) -> Vec<&'static str> {
        let affected = self.affected(target).count();
        let released = report.completed.len() + report.aborted.len();
        let lengths = result.completed.iter().map(|(_, done)| done.length);
        let lengths: BTreeSet<_> = lengths.collect();
        [
            (affected > 100, "recovery of more than 100 rows"),
            (affected == 128, "recovery of 128 rows"),
            (released == 128, "recovery that releases 128 rows"),
            (
                lengths.len() >= 3,
                "recovery that completes rows by data of three lengths",
            ),
            (
                is_whole(report) && released < affected,
                "recovery, ready, that leaves a row of an equal token held",
            ),
        ]
        .into_iter()
        .filter_map(|(met, name)| met.then_some(name))
        .collect()
    }

    /// Why a reset restores the session, or does not.
    fn reset(&self, report: &AbortReport, target: &RowView) -> Option<&'static str> {
        let required = self.state == ControllerState::RecoveryRequired;
        let restored = required && self.answer.state == ControllerState::Initialized;
        let left = |row: &RowView| row.held && !row.pending && !report.aborted.contains(&row.id);
        match self.before.stall {
            _ if !is_whole(report) => Some("reset not ready or with an error"),
            _ if restored => Some("reset that restores Initialized"),
            Some(_) if !required => Some("reset, ready, while Initialized with a stall noted"),
            None => Some("reset, ready, without a stall noted"),
            Some(stall) => unmatched(stall, target).or_else(|| {
                let uncertain = self.before.rows.iter().any(left);
                uncertain.then_some("reset, ready, that leaves a row Failed and not quiescent")
            }),
        }
    }
}

fn is_whole(report: &AbortReport) -> bool {
    report.ready && report.error.is_none()
}

fn unmatched(stall: Stall, target: &RowView) -> Option<&'static str> {
    if stall.device != target.device && stall.device.slot == target.device.slot {
        Some("reset, ready, after a stall of another device id in its slot")
    } else if stall.device != target.device {
        Some("reset, ready, after a stall of another device")
    } else if stall.endpoint != target.endpoint {
        Some("reset, ready, after a stall of another endpoint")
    } else if !stall.is_current {
        Some("reset, ready, after a mark since the stall")
    } else {
        None
    }
}
