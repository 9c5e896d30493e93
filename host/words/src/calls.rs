//! A script's call as the calls of the word format, each with its answer.
use oracle::RowView;
use port::convert;
use script::{AbortReply, Answer, Asked, Call, Outcome, PollReply, RequestId, Row, RowState};
use tapewoad::calls;

use crate::answers;
use crate::store::{ROW_BYTES, ROWS};

/// A line of input, and what it prints.
pub struct Exchange {
    pub call: String,
    pub answer: String,
}

impl Exchange {
    fn new(call: &calls::Call<'_>, answer: String) -> Self {
        Self {
            call: line(call),
            answer,
        }
    }
}

type Exchanges = Result<Vec<Exchange>, String>;

/// The call's words and, after `/`, its bytes.
fn line(call: &calls::Call<'_>) -> String {
    let words: Vec<_> = call.words().iter().map(u64::to_string).collect();
    let mut text = words.join(" ");
    let bytes = call.bytes();
    if !bytes.is_empty() {
        text += " /";
    }
    for byte in bytes.iter() {
        text += &format!(" {byte}");
    }
    text
}

/// `rows` are the Rust's before the call.
pub fn exchanges(call: &Call, answer: &Answer, rows: &[RowView]) -> Exchanges {
    match call {
        Call::Submit(submit) => {
            let data = submit.data.to_bytes();
            let begin = calls::Call::SubmitRequestPackets(convert::to_submit(submit, &data));
            submission(&begin, submit.reply, answer)
        }
        Call::Plan(plan) => {
            let data = plan.data.to_bytes();
            let begin = calls::Call::SubmitControlPlan(convert::to_plan(plan, &data));
            submission(&begin, plan.reply, answer)
        }
        Call::Poll { id, reply } => poll(*id, reply, answer),
        Call::Recover { id, kind, reply } => {
            let begin = convert::to_recovery(*id, *kind);
            match answer.asked {
                Asked::Nothing => told(&begin, &answer.outcome),
                _ => recovery(&begin, *id, reply, answer, rows),
            }
        }
        Call::Reclaim(id) => reclaim(*id, &answer.outcome),
        Call::Reports => reports(&answer.outcome),
        Call::Cancel(id) => of(calls::Call::LogicalCancelRequest, *id, answer),
        Call::Timeout(id) => of(calls::Call::TimeoutRequest, *id, answer),
        Call::Report(id) => of(calls::Call::RequestStatus, *id, answer),
        _ => session(call, &answer.outcome),
    }
}

/// The calls that answer by nothing but `ok` or a refusal.
fn session(call: &Call, outcome: &Outcome) -> Exchanges {
    let endpoints;
    let call = match call {
        Call::Open(open) => calls::Call::Open {
            opening: convert::to_opening(open),
            rows: ROWS as u64,
            row_bytes: ROW_BYTES as u64,
        },
        Call::Device { id, port, state } => {
            calls::Call::SetDevice(convert::to_snapshot(*id, *port, *state))
        }
        Call::Port {
            number,
            generation,
            reading,
        } => calls::Call::SetPort {
            number: *number,
            generation: *generation,
            reading: *reading,
        },
        Call::Endpoints { slot, list } => {
            endpoints = convert::to_endpoints(list);
            calls::Call::SetEndpoints {
                slot: *slot,
                endpoints: &endpoints,
            }
        }
        Call::Raw { slot, set } => calls::Call::SetReconcile {
            slot: *slot,
            set: *set,
        },
        Call::Acquire(reply) => {
            let reply = reply.map_err(|(error, kept)| (convert::to_error(error), kept));
            calls::Call::Acquire(reply)
        }
        Call::Initialise(reply) => calls::Call::Initialize(reply.map_err(convert::to_error)),
        Call::Close { fresh, reply } => calls::Call::Close {
            fresh: *fresh,
            reply: reply.map_err(convert::to_error),
        },
        other => return Err(format!("no call of the word format: {other}")),
    };
    told(&call, outcome)
}

/// A call and its answer; after the report of a Completed request its bytes.
fn told(call: &calls::Call<'_>, outcome: &Outcome) -> Exchanges {
    match outcome {
        Outcome::Done => Ok(vec![Exchange::new(call, answers::passed())]),
        Outcome::Refused { number, error } => {
            Ok(vec![Exchange::new(call, answers::refused(*number, error))])
        }
        Outcome::Row(row) => {
            let mut exchanges = vec![Exchange::new(call, answers::report(row))];
            exchanges.extend(completed(row)?);
            Ok(exchanges)
        }
        Outcome::Abort(report) => Ok(vec![Exchange::new(call, answers::recovered(report))]),
        other => Err(format!("not of these calls: {other:?}")),
    }
}

/// `completed_bytes`, where the report says Completed.
fn completed(row: &Row) -> Result<Option<Exchange>, String> {
    let call = calls::Call::CompletedBytes(convert::to_request_id(row.id));
    match (&row.state, &row.data) {
        (RowState::Completed { length, .. }, Some(data)) if *length == data.0.len() as u64 => {
            Ok(Some(Exchange::new(&call, answers::bytes(data))))
        }
        (RowState::Completed { .. }, _) | (_, Some(_)) => {
            Err(format!("a report whose state and data disagree: {row:?}"))
        }
        _ => Ok(None),
    }
}

fn of<'a>(
    call: impl Fn(tapewoad::RequestId) -> calls::Call<'a>,
    id: RequestId,
    answer: &Answer,
) -> Exchanges {
    told(&call(convert::to_request_id(id)), &answer.outcome)
}

/// A submission or a plan; the reply comes only where the backend was asked.
fn submission(
    begin: &calls::Call<'_>,
    reply: Result<u64, script::Error>,
    answer: &Answer,
) -> Exchanges {
    if answer.asked == Asked::Nothing {
        return told(begin, &answer.outcome);
    }
    let mut exchanges = vec![Exchange::new(begin, answers::asked(&answer.asked)?)];
    let reply = calls::Call::SubmitReply(reply.map_err(convert::to_error));
    exchanges.extend(told(&reply, &answer.outcome)?);
    Ok(exchanges)
}

fn poll(id: RequestId, reply: &PollReply, answer: &Answer) -> Exchanges {
    let begin = calls::Call::PollRequest(convert::to_request_id(id));
    if answer.asked == Asked::Nothing {
        return told(&begin, &answer.outcome);
    }
    let mut exchanges = vec![Exchange::new(&begin, answers::asked(&answer.asked)?)];
    let data = match reply {
        Ok(Some(done)) => done.data.as_ref().map(script::Data::to_bytes),
        _ => None,
    };
    let reply = match reply {
        Ok(Some(done)) => Ok(Some(convert::to_completion(done, data.as_deref()))),
        Ok(None) => Ok(None),
        Err(error) => Err(convert::to_error(*error)),
    };
    exchanges.extend(told(&calls::Call::PollReply(reply), &answer.outcome)?);
    Ok(exchanges)
}

/// A recovery that the backend was asked for, and its reply. The tokens are those
/// of the Rust's held rows with the target's device and endpoint.
fn recovery(
    begin: &calls::Call<'_>,
    target: RequestId,
    reply: &AbortReply,
    answer: &Answer,
    rows: &[RowView],
) -> Exchanges {
    let row = rows.iter().find(|row| row.id == target);
    let row = row.ok_or_else(|| format!("a recovery of no row: {begin:?}"))?;
    let affected = rows.iter().filter(|it| it.held && it.shares_endpoint(row));
    let tokens: Vec<_> = affected.map(|row| row.token).collect();
    let asked = answers::recover(&answer.asked, target, row.device, &tokens)?;
    let mut exchanges = vec![Exchange::new(begin, asked)];
    let replied = convert::recovery_reply(reply, |call| told(call, &answer.outcome))?;
    exchanges.extend(replied);
    Ok(exchanges)
}

/// The bytes are asked for while the request is there.
fn reclaim(id: RequestId, outcome: &Outcome) -> Exchanges {
    let call = calls::Call::ReclaimRequest(convert::to_request_id(id));
    let mut exchanges = told(&call, outcome)?;
    exchanges.reverse();
    Ok(exchanges)
}

/// How many there are, each, and that no further one is there.
fn reports(outcome: &Outcome) -> Exchanges {
    let Outcome::Rows(rows) = outcome else {
        return Err(format!("not of reports: {outcome:?}"));
    };
    let count = answers::number(rows.len() as u64);
    let mut exchanges = vec![Exchange::new(&calls::Call::CountReports, count)];
    let mut after = None;
    for row in rows {
        let call = calls::Call::RequestReports { after };
        exchanges.push(Exchange::new(&call, answers::report(row)));
        exchanges.extend(completed(row)?);
        after = Some(convert::to_request_id(row.id));
    }
    let last = calls::Call::RequestReports { after };
    exchanges.push(Exchange::new(&last, answers::no_report()));
    Ok(exchanges)
}

#[cfg(test)]
mod tests {
    use super::*;
    use oracle::Oracle;
    use script::{Side, parse_line};

    /// The lines of a script's last call, of input and of output.
    fn last(script: &str) -> (Vec<String>, Vec<String>) {
        let mut oracle = Oracle::new();
        let mut last = Vec::new();
        for (index, line) in script.lines().enumerate() {
            if let Some(call) = parse_line(index + 1, line).unwrap() {
                let rows = oracle.rows();
                let answer = oracle.apply(&call).unwrap();
                last = exchanges(&call, &answer, &rows).unwrap();
            }
        }
        last.into_iter().map(|it| (it.call, it.answer)).unzip()
    }

    const READY: &str = "open session=1 seq=0 rev=0 ports=1\nport number=1 gen=0 reading=1\n\
        device id=1.0.1 port=1.0.1 state=configured\nendpoints slot=1 list=81:bulk\n\
        acquire reply=ok\ninitialise reply=ok\n";
    const SUBMIT: &str = "submit dev=1.0.1 ep=81 type=bulk dir=in len=4 setup=- data=z:0 \
        packets=none r1=1 r2=1 reply=7\n";
    const POLL: &str = "poll id=1.0.0 reply=2/1/h:0a0b/-/1\n";

    #[test]
    fn an_opening_has_the_store_of_the_program() {
        let (calls, answers) = last("open session=1 seq=2 rev=- ports=3");
        assert_eq!(calls, ["0 1 2 0 0 1 3 160 4096"]);
        assert_eq!(answers, ["ok"]);
    }

    #[test]
    fn a_submission_is_two_calls_where_the_backend_is_asked() {
        let (calls, answers) = last(&format!("{READY}{SUBMIT}"));
        assert_eq!(calls[1], "10 0 7 0 0 0 0");
        assert_eq!(answers.len(), 2);
        assert_eq!(answers[0], "begun 0\nbytes 0 0 0 0");
        assert!(answers[1].starts_with("report 1 0 0 1 0 1 129 1 0 4 "));
        let refused = SUBMIT.replace("len=4", "len=65537");
        let (calls, answers) = last(&format!("{READY}{refused}"));
        assert_eq!(
            (calls.len(), &answers[..]),
            (1, &["refused 6 1 6 0 0".into()][..])
        );
    }

    #[test]
    fn a_poll_asks_and_brings_the_bytes() {
        let (calls, answers) = last(&format!("{READY}{SUBMIT}{POLL}"));
        assert_eq!(calls[0], "11 1 0 0");
        assert_eq!(calls[1], "12 2 0 0 0 0 0 1 2 2 1 1 / 10 11");
        assert_eq!(calls[2], "19 1 0 0");
        assert_eq!((&answers[0][..], &answers[2][..]), ("ask 7", "bytes 10 11"));
    }

    #[test]
    fn a_reclaim_asks_for_the_bytes_before() {
        let (calls, answers) = last(&format!("{READY}{SUBMIT}{POLL}reclaim id=1.0.0"));
        assert_eq!(calls, ["19 1 0 0", "15 1 0 0"]);
        assert_eq!(answers[0], "bytes 10 11");
        let (calls, answers) = last(&format!("{READY}{SUBMIT}reclaim id=1.0.0"));
        assert_eq!(calls, ["15 1 0 0"]);
        assert_eq!(answers, ["refused 42 0 42 0 0"]);
    }

    #[test]
    fn a_recovery_names_its_tokens_and_its_ids() {
        let submits = format!("{SUBMIT}{}{SUBMIT}", SUBMIT.replace("reply=7", "reply=9"));
        let reset =
            "reset id=1.0.1 preserve=1 reply=ok done=9@1/13/h:0c/-/1 aborted=7 ready=1 error=-";
        let (calls, answers) = last(&format!("{READY}{submits}{reset}"));
        assert_eq!(calls[0], "23 1 0 1 1");
        assert_eq!(
            calls[1],
            "24 0 1 0 0 0 0 0 1 1 9 0 0 0 0 0 1 1 14 1 1 1 7 / 12"
        );
        assert_eq!(answers[0], "recover 1 0 1 1 0 1 129 2\ntokens 7 9 7");
        let report = "recovered 1 0 1 1 0 1 129 1 1 1 0 0 0 0 0";
        let ids = "completed 1 0 1\naborted 1 0 0";
        assert_eq!(answers[1], format!("{report}\n{ids}"));
        let failed = last(&format!("{READY}{submits}abort id=1.0.0 reply=err:T.5.-.6"));
        assert_eq!(failed.0, ["22 1 0 0", "24 1 0 0 4 5 0 7 0 0"]);
        assert_eq!(failed.1[0], "recover 1 0 0 1 0 1 129 0\ntokens 7 9 7");
        assert_eq!(failed.1[1], "refused 45 4 5 0 7");
        let unknown = last(&format!("{READY}abort id=1.0.0 reply=err:T.5.-.6"));
        assert_eq!(unknown.1, ["refused 40 0 40 0 0"]);
    }

    #[test]
    fn reports_are_counted_and_end() {
        let (calls, answers) = last(&format!("{READY}{SUBMIT}{POLL}{SUBMIT}reports"));
        let expected = ["18", "17 0 0 0 0", "19 1 0 0", "17 1 1 0 0", "17 1 1 0 1"];
        assert_eq!(calls, expected);
        assert_eq!(answers[0], "number 2");
        assert_eq!(answers[4], "none");
    }
}
