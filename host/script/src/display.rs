//! The text of values, calls and answers. Hex numbers are written in lower
//! case without leading zeros; bytes with two digits each.
use crate::answer::*;
use crate::call::*;
use crate::values::*;
use std::fmt::{self, Display, Formatter};

impl Display for RequestId {
    fn fmt(&self, f: &mut Formatter<'_>) -> fmt::Result {
        write!(f, "{}.{}.{}", self.session, self.generation, self.sequence)
    }
}

impl Display for DeviceId {
    fn fmt(&self, f: &mut Formatter<'_>) -> fmt::Result {
        write!(f, "{}.{}.{}", self.session, self.generation, self.slot)
    }
}

impl Display for PortId {
    fn fmt(&self, f: &mut Formatter<'_>) -> fmt::Result {
        write!(f, "{}.{}.{}", self.session, self.generation, self.number)
    }
}

impl Display for Error {
    fn fmt(&self, f: &mut Formatter<'_>) -> fmt::Result {
        let os = or_dash(&self.os_code);
        let code = or_dash(&self.completion_code);
        write!(f, "{}.{}.{os}.{code}", self.category.name(), self.message)
    }
}

impl Display for Setup {
    fn fmt(&self, f: &mut Formatter<'_>) -> fmt::Result {
        let (kind, request) = (self.request_type, self.request);
        let (value, index) = (self.value, self.index);
        write!(
            f,
            "{kind:x}.{request:x}.{value:x}.{index:x}.{}",
            self.length
        )
    }
}

impl Display for Data {
    fn fmt(&self, f: &mut Formatter<'_>) -> fmt::Result {
        match self {
            Self::Zeros(length) => write!(f, "z:{length}"),
            Self::Pattern(length, start) => write!(f, "p:{length}:{start}"),
            Self::Bytes(bytes) => write!(f, "h:{}", hex(bytes)),
        }
    }
}

impl Display for Bytes {
    fn fmt(&self, f: &mut Formatter<'_>) -> fmt::Result {
        let length = self.0.len();
        if length <= 16 {
            write!(f, "{length}:{}", hex(&self.0))
        } else {
            write!(f, "{length}:fnv{:016x}", fnv1a(&self.0))
        }
    }
}

impl Display for Completion {
    fn fmt(&self, f: &mut Formatter<'_>) -> fmt::Result {
        let (length, code) = (or_dash(&self.length), or_dash(&self.code));
        let (data, error) = (or_dash(&self.data), or_dash(&self.error));
        write!(f, "{length}/{code}/{data}/{error}/{}", flag(self.quiescent))
    }
}

impl Display for Call {
    fn fmt(&self, f: &mut Formatter<'_>) -> fmt::Result {
        match self {
            Self::Open(open) => open.fmt(f),
            Self::Device { id, port, state } => {
                write!(f, "device id={id} port={port} state={}", state.name())
            }
            Self::Port {
                number,
                generation,
                reading,
            } => {
                let reading = reading.map_or("-".into(), |word| format!("{word:x}"));
                write!(f, "port number={number} gen={generation} reading={reading}")
            }
            Self::Endpoints { slot, list } => {
                let entry = |(ep, kind): &(u8, TransferType)| format!("{ep:x}:{}", kind.name());
                write!(
                    f,
                    "endpoints slot={slot} list={}",
                    list_or_dash(list, entry)
                )
            }
            Self::Raw { slot, set } => write!(f, "raw slot={slot} set={}", flag(*set)),
            Self::Submit(submit) => submit.fmt(f),
            Self::Plan(plan) => plan.fmt(f),
            Self::Poll { id, reply } => write!(f, "poll id={id} reply={}", poll_reply(reply)),
            Self::Cancel(id) => write!(f, "cancel id={id}"),
            Self::Timeout(id) => write!(f, "timeout id={id}"),
            Self::Reclaim(id) => write!(f, "reclaim id={id}"),
            Self::Report(id) => write!(f, "report id={id}"),
            Self::Reports => f.write_str("reports"),
            Self::Recover { id, kind, reply } => recover(f, *id, *kind, reply),
            Self::Dump => f.write_str("dump"),
            Self::Force(state) => write!(f, "force state={}", state.name()),
            Self::Withdraw(id) => write!(f, "withdraw id={id}"),
            Self::Store { rows, bytes } => write!(f, "store rows={rows} bytes={bytes}"),
            Self::Acquire(_) | Self::Initialise(_) | Self::Close { .. } => session_call(f, self),
        }
    }
}

fn session_call(f: &mut Formatter<'_>, call: &Call) -> fmt::Result {
    match call {
        Call::Acquire(Ok(())) => f.write_str("acquire reply=ok"),
        Call::Acquire(Err((error, retained))) => {
            write!(f, "acquire reply=err:{error} retained={}", flag(*retained))
        }
        Call::Initialise(reply) => write!(f, "initialise reply={}", done_reply(reply)),
        Call::Close { fresh, reply } => {
            write!(
                f,
                "close fresh={} reply={}",
                or_dash(fresh),
                done_reply(reply)
            )
        }
        _ => unreachable!("handled by the caller"),
    }
}

impl Display for Open {
    fn fmt(&self, f: &mut Formatter<'_>) -> fmt::Result {
        let (revision, ports) = (or_dash(&self.revision), or_dash(&self.ports));
        write!(
            f,
            "open session={} seq={} rev={revision} ports={ports}",
            self.session, self.sequence
        )
    }
}

impl Display for Submit {
    fn fmt(&self, f: &mut Formatter<'_>) -> fmt::Result {
        write!(
            f,
            "submit dev={} ep={:x} type={} dir={} len={} setup={} data={} packets={} r1={} r2={} reply={}",
            self.device,
            self.endpoint,
            self.transfer_type.name(),
            self.direction.name(),
            self.length,
            or_dash(&self.setup),
            self.data,
            packets(&self.packets),
            reading(&self.readings[0]),
            reading(&self.readings[1]),
            token_reply(&self.reply),
        )
    }
}

impl Display for Plan {
    fn fmt(&self, f: &mut Formatter<'_>) -> fmt::Result {
        let stage = self.stage.map_or("-".into(), |(direction, length)| {
            format!("{}:{length}", direction.name())
        });
        write!(
            f,
            "plan dev={} profile={} setup={} stage={stage} status={} data={} r1={} reply={}",
            self.device,
            self.profile.name(),
            self.setup,
            self.status.map_or("-", Direction::name),
            self.data,
            reading(&self.reading),
            token_reply(&self.reply),
        )
    }
}

fn recover(
    f: &mut Formatter<'_>,
    id: RequestId,
    kind: Recovery,
    reply: &AbortReply,
) -> fmt::Result {
    match kind {
        Recovery::Abort => write!(f, "abort id={id}")?,
        Recovery::Reset { preserve } => write!(f, "reset id={id} preserve={}", flag(preserve))?,
    }
    match reply {
        Err(error) => write!(f, " reply=err:{error}"),
        Ok(result) => write!(
            f,
            " reply=ok done={} aborted={} ready={} error={}",
            list_or_dash(&result.completed, |(token, done)| format!("{token}@{done}")),
            list_or_dash(&result.aborted, u64::to_string),
            flag(result.ready),
            or_dash(&result.error),
        ),
    }
}

impl Display for Answer {
    fn fmt(&self, f: &mut Formatter<'_>) -> fmt::Result {
        write!(
            f,
            "{} | backend {} reads={} | {} held={} bytes={}",
            self.outcome,
            self.asked,
            self.reads.len(),
            self.state.name(),
            self.held,
            self.held_bytes
        )
    }
}

impl Display for Outcome {
    fn fmt(&self, f: &mut Formatter<'_>) -> fmt::Result {
        match self {
            Self::Done => f.write_str("ok"),
            Self::Refused { number, error } => write!(f, "refuse {number} {error}"),
            Self::Row(row) => write!(f, "row {row}"),
            Self::Rows(rows) => {
                write!(f, "rows {}", rows.len())?;
                rows.iter().try_for_each(|row| write!(f, " ; {row}"))
            }
            Self::Abort(report) => report.fmt(f),
            Self::Dump(dump) => dump.fmt(f),
        }
    }
}

impl Display for Row {
    fn fmt(&self, f: &mut Formatter<'_>) -> fmt::Result {
        write!(
            f,
            "id={} dev={} ep={:x} type={} dir={} len={} setup={} state={} cancel={} timeout={} data={}",
            self.id,
            self.device,
            self.endpoint,
            self.transfer_type.name(),
            self.direction.name(),
            self.length,
            or_dash(&self.setup),
            self.state,
            flag(self.cancel),
            flag(self.timeout),
            or_dash(&self.data),
        )
    }
}

impl Display for RowState {
    fn fmt(&self, f: &mut Formatter<'_>) -> fmt::Result {
        match self {
            Self::Pending {
                cancelled,
                timed_out,
            } => write!(f, "P({},{})", flag(*cancelled), flag(*timed_out)),
            Self::Completed {
                length,
                code,
                cancelled,
            } => write!(f, "C({length},{code},{})", flag(*cancelled)),
            Self::Failed {
                error,
                code,
                quiescent,
            } => write!(f, "F({error},{},{})", or_dash(code), flag(*quiescent)),
            Self::Aborted => f.write_str("A"),
        }
    }
}

impl Display for AbortReport {
    fn fmt(&self, f: &mut Formatter<'_>) -> fmt::Result {
        write!(
            f,
            "abort target={} dev={} ep={:x} completed={} aborted={} ready={} error={}",
            self.target,
            self.device,
            self.endpoint,
            list_or_dash(&self.completed, RequestId::to_string),
            list_or_dash(&self.aborted, RequestId::to_string),
            flag(self.ready),
            or_dash(&self.error),
        )
    }
}

impl Display for Dump {
    fn fmt(&self, f: &mut Formatter<'_>) -> fmt::Result {
        let stall = self.stall.map_or("-".into(), |(revision, device, ep)| {
            format!("{revision}@{device}/{ep:x}")
        });
        let ports = self.ports.as_ref().map_or("-".into(), |ports| {
            let first = &ports.rows[..ports.rows.len().min(8)];
            format!("{}:{}", ports.session, port_rows(first))
        });
        write!(
            f,
            "dump session={} next={} rev={} stall={stall} rows={} ports={ports}",
            self.session,
            self.next,
            or_dash(&self.revision),
            self.rows
        )
    }
}

fn port_rows(rows: &[PortRow]) -> String {
    let row = |row: &PortRow| match row.reading {
        Some(word) => format!("{}/{word:x}", row.generation),
        None => format!("{}/-", row.generation),
    };
    rows.iter().map(row).collect::<Vec<_>>().join(",")
}

impl Display for Asked {
    fn fmt(&self, f: &mut Formatter<'_>) -> fmt::Result {
        match self {
            Self::Nothing => f.write_str("none"),
            Self::Submit {
                buffer,
                packets: list,
            } => write!(f, "submit buffer={buffer} packets={}", packets(list)),
            Self::Plan {
                buffer,
                wire,
                has_data,
                direction,
                status,
                compliant,
            } => write!(
                f,
                "plan buffer={buffer} wire=8:{} data={} dir={} status={} compliant={}",
                hex(wire),
                flag(*has_data),
                direction.name(),
                status.name(),
                flag(*compliant)
            ),
            Self::Poll { token } => write!(f, "poll token={token}"),
            Self::Abort { slot, endpoint } => write!(f, "abort slot={slot} ep={endpoint:x}"),
            Self::Reset {
                slot,
                endpoint,
                preserve,
            } => {
                let preserve = flag(*preserve);
                write!(f, "reset slot={slot} ep={endpoint:x} preserve={preserve}")
            }
        }
    }
}

fn flag(set: bool) -> u8 {
    u8::from(set)
}

/// Two hex digits a byte.
pub fn hex(bytes: &[u8]) -> String {
    bytes.iter().map(|byte| format!("{byte:02x}")).collect()
}

fn or_dash<T: Display>(value: &Option<T>) -> String {
    value.as_ref().map_or("-".into(), T::to_string)
}

fn list_or_dash<T>(list: &[T], entry: impl Fn(&T) -> String) -> String {
    if list.is_empty() {
        "-".into()
    } else {
        list.iter().map(entry).collect::<Vec<_>>().join(",")
    }
}

fn packets(packets: &Option<Vec<u64>>) -> String {
    match packets {
        None => "none".into(),
        Some(list) => list_or_dash(list, u64::to_string),
    }
}

fn reading(reading: &Reading) -> String {
    match reading {
        Ok(word) => format!("{word:x}"),
        Err(error) => format!("err:{error}"),
    }
}

fn done_reply(reply: &Result<(), Error>) -> String {
    match reply {
        Ok(()) => "ok".into(),
        Err(error) => format!("err:{error}"),
    }
}

fn token_reply(reply: &Result<u64, Error>) -> String {
    match reply {
        Ok(token) => token.to_string(),
        Err(error) => format!("err:{error}"),
    }
}

fn poll_reply(reply: &PollReply) -> String {
    match reply {
        Ok(None) => "nothing".into(),
        Ok(Some(completion)) => completion.to_string(),
        Err(error) => format!("err:{error}"),
    }
}
