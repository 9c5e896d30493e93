//! The port as one side of the comparison, in two ways.
//!
//! [`Port`] makes the library's calls one by one, a submission's two readings
//! and its reply at once, as a script's line has them. [`Session`] goes through
//! the safe crate's `UsbSession` with a backend that replies as the line says.
mod backend;
mod calls;
pub mod convert;
mod session;

pub use calls::Port;
pub use session::Session;

use script::{Dump, PortRow, Ports};
use tapewoad::calls::{Answer, Call, Store};

const NOT_OPEN: &str = "no session is open: the first call must be `open`";

/// What no report shows, from the session's status and the bus's words.
fn dump(store: &mut Store) -> Result<Dump, String> {
    let status = store.status();
    let stall = status.recoverable_stall;
    Ok(Dump {
        session: status.session,
        next: status.next_sequence,
        revision: status.recovery_revision,
        stall: stall.map(|it| (it.revision, convert::device_id(it.device), it.endpoint)),
        rows: number(store, &Call::CountReports)?,
        ports: ports(store),
    })
}

fn ports(store: &Store) -> Option<Ports> {
    let (session, count) = store.status().ports?;
    let row = |(generation, reading)| PortRow {
        generation,
        reading,
    };
    Some(Ports {
        session,
        rows: (1..=count)
            .filter_map(|it| store.port(it))
            .map(row)
            .collect(),
    })
}

fn number(store: &mut Store, call: &Call<'_>) -> Result<u64, String> {
    match answered(store, call)? {
        Answer::Number(number) => Ok(number),
        answer => Err(unexpected(call, &answer)),
    }
}

fn answered(store: &mut Store, call: &Call<'_>) -> Result<Answer, String> {
    let answer = store.try_apply(call);
    answer.map_err(|status| format!("the port has no answer to {call:?}: {status}"))
}

fn unexpected(call: &Call<'_>, answer: &Answer) -> String {
    format!("the port answers {call:?} by {answer:?}")
}

/// `force`: the controller state's word.
fn force(store: &mut Store, state: script::ControllerState) {
    store.session_words_mut()[6] = convert::to_controller_state(state) as u64;
}

/// Rows and bytes a row of an opening without `store` before it.
const WHOLE: (u64, u64) = (Store::ROWS as u64, Store::ROW_BYTES as u64);

/// The most bytes that a store of a script may have: more than the port takes.
const MOST_BYTES: usize = 1 << 27;

/// Rows and bytes a row of a store that can be had.
fn memory((rows, bytes): (u64, u64)) -> Option<(usize, usize)> {
    let (rows, bytes) = (usize::try_from(rows).ok()?, usize::try_from(bytes).ok()?);
    let whole = rows.checked_mul(bytes.max(1))?;
    (whole <= MOST_BYTES).then_some((rows, bytes))
}
