//! From the Rust's reports to the script's answers.
use script::{AbortReport, Bytes, Outcome, Row, RowState};

use crate::convert;
use crate::domain::models::requests::{self, RequestReport};
use crate::domain::models::{OperationError, RequestState};
use crate::refusals::{recorded_error, refusal};

/// What a call gave, or why the run must stop.
pub type Told = Result<Outcome, String>;

pub fn done(result: Result<(), OperationError>) -> Told {
    match result {
        Ok(()) => Ok(Outcome::Done),
        Err(error) => refused(&error),
    }
}

pub fn report(result: Result<RequestReport, OperationError>) -> Told {
    match result {
        Ok(report) => Ok(Outcome::Row(Box::new(row(report)?))),
        Err(error) => refused(&error),
    }
}

pub fn reports(result: Result<Vec<RequestReport>, OperationError>) -> Told {
    match result {
        Ok(reports) => {
            let rows: Result<Vec<_>, _> = reports.into_iter().map(row).collect();
            Ok(Outcome::Rows(rows?))
        }
        Err(error) => refused(&error),
    }
}

pub fn abort(result: Result<requests::AbortReport, OperationError>) -> Told {
    let report = match result {
        Ok(report) => report,
        Err(error) => return refused(&error),
    };
    Ok(Outcome::Abort(AbortReport {
        target: convert::request_id(report.target),
        device: convert::device_id(report.device),
        endpoint: report.endpoint,
        completed: report
            .completed
            .into_iter()
            .map(convert::request_id)
            .collect(),
        aborted: report
            .aborted
            .into_iter()
            .map(convert::request_id)
            .collect(),
        ready: report.restart_ready,
        error: report.error.as_ref().map(recorded_error).transpose()?,
    }))
}

fn refused(error: &OperationError) -> Told {
    let (number, error) = refusal(error)?;
    Ok(Outcome::Refused { number, error })
}

fn row(report: RequestReport) -> Result<Row, String> {
    let metadata = report.metadata;
    Ok(Row {
        id: convert::request_id(report.id),
        device: convert::device_id(metadata.device),
        endpoint: metadata.endpoint,
        transfer_type: convert::transfer_type(metadata.transfer_type),
        direction: convert::direction(metadata.direction),
        length: metadata.requested_length as u64,
        setup: metadata.setup.map(convert::setup),
        state: row_state(&report.state)?,
        cancel: report.logical_cancel,
        timeout: report.timed_out,
        data: report.data.map(Bytes),
    })
}

pub fn row_state(state: &RequestState) -> Result<RowState, String> {
    Ok(match state {
        RequestState::Pending {
            logical_cancel,
            timed_out,
        } => RowState::Pending {
            cancelled: *logical_cancel,
            timed_out: *timed_out,
        },
        RequestState::Completed {
            actual_length,
            completion_code,
            logical_cancel,
        } => RowState::Completed {
            length: *actual_length as u64,
            code: *completion_code,
            cancelled: *logical_cancel,
        },
        RequestState::Failed {
            error,
            completion_code,
            quiescent,
        } => RowState::Failed {
            error: recorded_error(error)?,
            code: *completion_code,
            quiescent: *quiescent,
        },
        RequestState::Aborted => RowState::Aborted,
    })
}
