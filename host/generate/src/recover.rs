//! Aborts and resets, with replies that fit the affected rows or do not.
use oracle::RowView;
use script::{AbortReply, AbortResult, Call, Recovery, RequestId};

use crate::values;
use crate::world::World;

impl World {
    pub fn recover(&mut self, rows: &[RowView], reset: bool) -> Call {
        // The row that failed comes first: its reset may restore the session.
        let failed = rows.iter().any(|row| row.held && !row.pending) && self.rng.chance(60);
        let id = self.pick_id(rows, |row| row.held && !(failed && row.pending));
        self.recover_row(rows, id, reset)
    }

    pub fn recover_row(&mut self, rows: &[RowView], id: RequestId, reset: bool) -> Call {
        let target = rows.iter().find(|row| row.id == id);
        let affected: Vec<_> = rows
            .iter()
            .filter(|row| row.held && target.is_some_and(|it| it.shares_endpoint(row)))
            .copied()
            .collect();
        let kind = match reset {
            true => Recovery::Reset {
                preserve: self.rng.chance(50),
            },
            false => Recovery::Abort,
        };
        // What it left behind: every row, or the stall's note and the revision.
        match self.rng.below(4) {
            0 if rows.len() <= 200 => self.queue.push_back(Call::Reports),
            1 => self.queue.push_back(Call::Dump),
            _ => {}
        }
        Call::Recover {
            id,
            kind,
            reply: self.abort_reply(&affected),
        }
    }

    fn abort_reply(&mut self, affected: &[RowView]) -> AbortReply {
        if self.rng.chance(6) {
            return Err(values::error(&mut self.rng));
        }
        let mut result = self.fitting_reply(affected);
        match self.rng.below(20) {
            0 => result.ready = false,
            1 => {
                result.error = Some(values::error(&mut self.rng));
                result.ready = self.rng.chance(60);
            }
            2 | 3 => self.leave_out(&mut result),
            4 => self.stray_token(&mut result),
            5..8 => self.spoil_entry(affected, &mut result),
            8 if self.rng.chance(40) => self.add_many(&mut result),
            _ => {}
        }
        Ok(result)
    }

    /// More tokens than can be held.
    fn add_many(&mut self, result: &mut AbortResult) {
        let first = self.rng.pick(&[1_000_000, u64::MAX - 400]);
        let tokens = first..first + 126 + self.rng.below(200) as u64;
        if self.rng.chance(50) {
            return result.aborted.extend(tokens);
        }
        for token in tokens {
            let done = values::valid_completion(&mut self.rng, 8);
            result.completed.push((token, done));
        }
    }

    /// Every affected token once, completed or aborted; a token means the
    /// lowest affected id that has it.
    fn fitting_reply(&mut self, affected: &[RowView]) -> AbortResult {
        let mut result = AbortResult {
            completed: Vec::new(),
            aborted: Vec::new(),
            ready: true,
            error: None,
        };
        let completions = self.rng.pick(&[0, 30, 60, 90]);
        let mut seen: Vec<u64> = Vec::new();
        for row in affected {
            if seen.contains(&row.token) {
                continue;
            }
            seen.push(row.token);
            let risky = self.rng.chance(3);
            if (row.pending || risky) && self.rng.chance(completions) {
                let done = values::valid_completion(&mut self.rng, row.length);
                result.completed.push((row.token, done));
            } else {
                result.aborted.push(row.token);
            }
        }
        if self.rng.chance(40) {
            result.aborted.reverse();
            result.completed.reverse();
        }
        result
    }

    /// Fewer tokens than affected: fine if not ready or with an error.
    fn leave_out(&mut self, result: &mut AbortResult) {
        if self.rng.chance(50) {
            result.aborted.pop();
        } else {
            result.completed.pop();
        }
        let kind = self.rng.below(4);
        result.ready = kind > 1;
        if kind == 1 || kind == 2 {
            result.error = Some(values::error(&mut self.rng));
        }
    }

    /// A token that is not expected, or one that comes twice.
    fn stray_token(&mut self, result: &mut AbortResult) {
        let known = result.aborted.first().copied();
        let known = known.or(result.completed.first().map(|(token, _)| *token));
        let again = result.completed.first().cloned();
        match (known, again) {
            (_, Some(entry)) if self.rng.chance(30) => result.completed.push(entry),
            (Some(token), _) if self.rng.chance(50) => result.aborted.push(token),
            _ => result.aborted.push(self.rng.pick(&[424_242, u64::MAX])),
        }
        if self.rng.chance(30) {
            result.ready = false;
        }
    }

    /// Makes one entry a completion that lacks its length, is invalid, or is of
    /// a Failed row; mostly the last one, so that those before it are applied.
    fn spoil_entry(&mut self, affected: &[RowView], result: &mut AbortResult) {
        if affected.is_empty() {
            return;
        }
        let failed = affected.iter().find(|row| !row.pending);
        let row = match failed {
            Some(row) if self.rng.chance(60) => *row,
            _ => affected[self.rng.below(affected.len())],
        };
        result.aborted.retain(|token| *token != row.token);
        result.completed.retain(|(token, _)| *token != row.token);
        let valid = if row.pending { 10 } else { 60 };
        let done = match self.rng.chance(valid) {
            true => values::valid_completion(&mut self.rng, row.length),
            false if self.rng.chance(20) => values::failed_completion(&mut self.rng, true),
            false => values::invalid_completion(&mut self.rng, row.length),
        };
        let place = match self.rng.chance(70) {
            true => result.completed.len(),
            false => self.rng.below(result.completed.len() + 1),
        };
        result.completed.insert(place, (row.token, done));
        result.ready = self.rng.chance(80);
        if self.rng.chance(20) {
            result.error = Some(values::error(&mut self.rng));
        }
    }
}
