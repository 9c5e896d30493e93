//! The oracle's answers as the lines that `replay` prints.
use script::{AbortReport, Answer, Asked, Bytes, DeviceId, Error, RequestId, Row, RowState, Setup};

pub fn passed() -> String {
    "ok".into()
}

pub fn refused(number: u16, error: &Error) -> String {
    let [category, message, os_code, code] = error_words(error);
    line(
        "refused",
        &[number.into(), category, message, os_code, code],
    )
}

/// What the backend was asked: a submission or a plan, with the buffer on a line
/// of its own, or a poll.
pub fn asked(asked: &Asked) -> Result<String, String> {
    match asked {
        Asked::Submit { buffer, packets } => {
            let begun = line("begun", &[packets.is_some().into()]);
            Ok(format!("{begun}\n{}", bytes(buffer)))
        }
        Asked::Plan {
            buffer,
            wire,
            has_data,
            direction,
            status,
            compliant,
        } => {
            let profile = u64::from(!compliant);
            let stages = [
                (*has_data).into(),
                *direction as u64,
                *status as u64,
                profile,
            ];
            let words = [&stages[..], &wire.map(u64::from)[..]].concat();
            let begun = line("plan begun", &words);
            Ok(format!("{begun}\n{}", bytes(buffer)))
        }
        Asked::Poll { token } => Ok(line("ask", &[*token])),
        other => Err(format!("not of these calls: {other:?}")),
    }
}

/// What the backend was asked by a recovery, with the affected tokens on a line
/// of their own. The Rust tells its backend neither target nor tokens.
pub fn recover(
    asked: &Asked,
    target: RequestId,
    device: DeviceId,
    tokens: &[u64],
) -> Result<String, String> {
    let (slot, endpoint, kind) = match asked {
        Asked::Abort { slot, endpoint } => (*slot, *endpoint, 0),
        Asked::Reset {
            slot,
            endpoint,
            preserve,
        } => (*slot, *endpoint, 1 + u64::from(*preserve)),
        other => return Err(format!("no recovery: {other:?}")),
    };
    if slot != device.slot {
        return Err(format!("slot {slot} was asked for, not {device:?}"));
    }
    let ids = [id_words(target), device_words(device)].concat();
    let words = [&ids[..], &[endpoint.into(), kind]].concat();
    Ok(format!(
        "{}\n{}",
        line("recover", &words),
        line("tokens", tokens)
    ))
}

/// What a recovery did: its words, and the ids of both lists on lines of their own.
pub fn recovered(report: &AbortReport) -> String {
    let mut words = [id_words(report.target), device_words(report.device)].concat();
    words.extend([
        report.endpoint.into(),
        report.completed.len() as u64,
        report.aborted.len() as u64,
        report.ready.into(),
        report.error.is_some().into(),
    ]);
    words.extend(report.error.as_ref().map_or([0; 4], error_words));
    let ids = |name, ids: &[RequestId]| {
        let words: Vec<_> = ids.iter().flat_map(|id| id_words(*id)).collect();
        line(name, &words)
    };
    let lists = [
        line("recovered", &words),
        ids("completed", &report.completed),
        ids("aborted", &report.aborted),
    ];
    lists.join("\n")
}

pub fn report(row: &Row) -> String {
    let mut words = Vec::from(id_words(row.id));
    words.extend(device_words(row.device));
    words.extend([
        u64::from(row.endpoint),
        row.transfer_type as u64,
        row.direction as u64,
        row.length,
    ]);
    words.extend(setup_words(row.setup));
    words.extend(state_words(&row.state));
    words.extend([u64::from(row.cancel), u64::from(row.timeout)]);
    line("report", &words)
}

pub fn no_report() -> String {
    "none".into()
}

pub fn number(number: u64) -> String {
    line("number", &[number])
}

pub fn bytes(bytes: &Bytes) -> String {
    let words: Vec<_> = bytes.0.iter().copied().map(u64::from).collect();
    line("bytes", &words)
}

/// The answer's tail.
pub fn state(answer: &Answer) -> String {
    line(
        "state",
        &[answer.state as u64, answer.held, answer.held_bytes],
    )
}

fn line(name: &str, words: &[u64]) -> String {
    let mut text = String::from(name);
    for word in words {
        text += &format!(" {word}");
    }
    text
}

fn id_words(id: RequestId) -> [u64; 3] {
    [id.session, id.generation, id.sequence]
}

fn device_words(id: DeviceId) -> [u64; 3] {
    [id.session, id.generation, id.slot.into()]
}

fn setup_words(setup: Option<Setup>) -> [u64; 6] {
    match setup {
        None => [0; 6],
        Some(it) => [
            1,
            it.request_type.into(),
            it.request.into(),
            it.value.into(),
            it.index.into(),
            it.length.into(),
        ],
    }
}

fn option_u32(value: Option<u32>) -> u64 {
    value.map_or(0, |number| u64::from(number) + 1)
}

/// Category, message, system number, code.
fn error_words(error: &Error) -> [u64; 4] {
    [
        error.category as u64,
        error.message.into(),
        option_u32(error.os_code.map(i32::cast_unsigned)),
        option_u32(error.completion_code),
    ]
}

fn state_words(state: &RowState) -> [u64; 7] {
    match state {
        RowState::Pending {
            cancelled,
            timed_out,
        } => [0, (*cancelled).into(), (*timed_out).into(), 0, 0, 0, 0],
        RowState::Completed {
            length,
            code,
            cancelled,
        } => [1, *length, (*code).into(), (*cancelled).into(), 0, 0, 0],
        RowState::Failed {
            error,
            code,
            quiescent,
        } => {
            let [category, message, os_code, error_code] = error_words(error);
            let quiescent = u64::from(*quiescent);
            let code = option_u32(*code);
            [2, category, message, quiescent, os_code, error_code, code]
        }
        RowState::Aborted => [3, 0, 0, 0, 0, 0, 0],
    }
}

#[cfg(test)]
mod tests {
    use super::*;
    use script::{Category, Direction, TransferType};

    const ERROR: Error = Error {
        category: Category::Timeout,
        message: 7,
        os_code: Some(-1),
        completion_code: Some(6),
    };

    #[test]
    fn a_refusal_has_its_number_and_its_error() {
        assert_eq!(refused(45, &ERROR), "refused 45 4 7 4294967296 7");
    }

    #[test]
    fn a_report_has_25_words() {
        let row = Row {
            id: RequestId {
                session: 1,
                generation: 0,
                sequence: 9,
            },
            device: DeviceId {
                session: 1,
                generation: 2,
                slot: 3,
            },
            endpoint: 0x81,
            transfer_type: TransferType::Bulk,
            direction: Direction::Out,
            length: 8,
            setup: None,
            state: RowState::Failed {
                error: ERROR,
                code: Some(13),
                quiescent: true,
            },
            cancel: true,
            timeout: false,
            data: None,
        };
        let expected = "report 1 0 9 1 2 3 129 1 1 8 0 0 0 0 0 0 2 4 7 1 4294967296 7 14 1 0";
        assert_eq!(report(&row), expected);
        assert_eq!(expected.split(' ').count(), 26);
    }

    #[test]
    fn a_plan_says_what_the_backend_is_given() {
        let plan = Asked::Plan {
            buffer: Bytes(vec![0, 7]),
            wire: [0x80, 6, 0, 1, 0, 0, 18, 0],
            has_data: true,
            direction: Direction::In,
            status: Direction::Out,
            compliant: false,
        };
        let line = asked(&plan).unwrap();
        assert_eq!(line, "plan begun 1 0 1 1 128 6 0 1 0 0 18 0\nbytes 0 7");
    }
}
