//! The memory that the library is lent, and calls on it.
use std::fmt::{self, Debug, Display, Formatter};
use std::ops::Range;

use super::decode::option_u32;
use super::encode::{COMPLETED_BYTES, of};
use super::{
    Answer, Answered, BUS_WORDS, Begun, Call, LIST_WORDS, Question, ROW_WORDS, Refusal, Report,
    SESSION_WORDS, SessionStatus, State, VERSION, unexpected,
};
use crate::library::{self, Memory, View};
use crate::models::{Opening, RequestId};

/// Why a call got no answer. Nothing has changed then.
#[derive(Debug, Clone, Copy, PartialEq, Eq)]
#[non_exhaustive]
pub enum Status {
    /// 1: the words are no call, or none that is taken here.
    NoCall,
    /// 2: not a session's words.
    NoSession,
    /// 3: too little room for the answer.
    NoRoom,
    /// 4: too little room for the answer's lists.
    NoLists,
    /// Another status, or an answer that is none of docs/CALLS.md.
    Unknown(u64),
    /// The library's words are of this version, with which [`VERSION`] does not
    /// go.
    Version(u64),
}

impl Display for Status {
    fn fmt(&self, f: &mut Formatter<'_>) -> fmt::Result {
        match self {
            Self::NoCall => f.write_str("the words are no call"),
            Self::NoSession => f.write_str("not a session's words"),
            Self::NoRoom => f.write_str("too little room for the answer"),
            Self::NoLists => f.write_str("too little room for the answer's lists"),
            Self::Unknown(status) => write!(f, "unknown status or answer {status}"),
            Self::Version(version) => {
                let [found, wanted] = [*version, VERSION].map(|it| (it >> 32, it as u32));
                write!(
                    f,
                    "the library has version {}.{} of the words, this crate wants {}.{}",
                    found.0, found.1, wanted.0, wanted.1
                )
            }
        }
    }
}

impl std::error::Error for Status {}

/// A session's memory: its words, the bus, and the rows with their bytes.
pub struct Store {
    session: [u64; SESSION_WORDS],
    bus: Box<[u64]>,
    rows: Box<[u64]>,
    area: Box<[u8]>,
    row_count: u64,
    row_bytes: u64,
    /// The latest answer of a call.
    answered: Answered,
    /// The latest lists of an answer.
    lists: [u64; LIST_WORDS],
}

impl Store {
    /// The original's number of rows.
    pub const ROWS: usize = 1024;
    /// The most bytes that a request may have.
    pub const ROW_BYTES: usize = 65_536;

    /// Memory for so many rows of so many bytes. Nothing is open yet. Sizes
    /// other than 1 to 1,024 rows of 1 to 65,536 bytes are refused (3) by the
    /// opening.
    ///
    /// # Panics
    /// Where so much memory can't be had.
    pub fn new(rows: usize, row_bytes: usize) -> Self {
        let too_large = "the store is too large";
        let row_words = rows.checked_mul(ROW_WORDS).expect(too_large);
        let bytes = rows.checked_mul(row_bytes).expect(too_large);
        Self {
            session: [0; SESSION_WORDS],
            bus: vec![0; BUS_WORDS].into(),
            rows: vec![0; row_words].into(),
            area: vec![0; bytes].into(),
            row_count: rows as u64,
            row_bytes: row_bytes as u64,
            answered: Answered::EMPTY,
            lists: [0; LIST_WORDS],
        }
    }

    /// Opens a session over the whole store and forgets any earlier one.
    ///
    /// # Panics
    /// If the library is of another version.
    pub fn open(&mut self, opening: Opening) -> Answer {
        check(library::version()).unwrap_or_else(|status| panic!("{status}"));
        self.apply(&Call::Open {
            opening,
            rows: self.row_count,
            row_bytes: self.row_bytes,
        })
    }

    /// Runs a call.
    ///
    /// # Panics
    /// If the library does not know the call or gives an answer that is not in
    /// docs/CALLS.md: no library of this crate's version does.
    pub fn apply(&mut self, call: &Call<'_>) -> Answer {
        let answer = self.try_apply(call);
        answer.unwrap_or_else(|status| panic!("{call:?}: {status}"))
    }

    /// Runs a call, and gives the status where it got no answer.
    ///
    /// # Errors
    /// The status, where the library has no answer or one that is not in
    /// docs/CALLS.md. A refusal is an answer.
    #[inline(always)]
    pub fn try_apply(&mut self, call: &Call<'_>) -> Result<Answer, Status> {
        self.apply_words(&call.encode(), &call.bytes())
    }

    /// Runs a call given as words.
    ///
    /// # Errors
    /// As [`try_apply`](Self::try_apply).
    #[inline(always)]
    pub fn apply_words(&mut self, call: &[u64], bytes: &[u8]) -> Result<Answer, Status> {
        checked(self.lend(call, bytes))?;
        let answer = self.answered.answer(&self.lists);
        answer.ok_or(Status::Unknown(self.answered.tag()))
    }

    /// Runs a call given as words, for the words of its answer.
    #[inline(always)]
    pub(crate) fn run(&mut self, call: &[u64], bytes: &[u8]) -> &Answered {
        expect_answer(call, self.lend(call, bytes));
        &self.answered
    }

    /// The words of the latest call's answer.
    #[inline(always)]
    pub(crate) fn answered(&self) -> &Answered {
        &self.answered
    }

    #[inline(always)]
    fn lend(&mut self, call: &[u64], bytes: &[u8]) -> u64 {
        let memory = Memory {
            session: &mut self.session,
            bus: &mut self.bus,
            rows: &mut self.rows,
            area: &mut self.area,
        };
        let out = &mut self.answered.words;
        library::apply(memory, call, bytes, out, &mut self.lists)
    }

    /// Makes a call that leaves all as it is: request_status, request_reports,
    /// count_reports, completed_bytes, held_count or held_bytes.
    ///
    /// # Panics
    /// As [`apply`](Self::apply), and where it is any other.
    pub fn read(&self, call: &Call<'_>) -> Answer {
        let answer = self.try_read(call);
        answer.unwrap_or_else(|status| panic!("{call:?}: {status}"))
    }

    /// Makes such a call, and gives the status where it got no answer.
    ///
    /// # Errors
    /// As [`try_apply`](Self::try_apply).
    #[inline(always)]
    pub fn try_read(&self, call: &Call<'_>) -> Result<Answer, Status> {
        self.read_words(&call.encode(), &call.bytes())
    }

    /// Asks a question.
    ///
    /// # Panics
    /// As [`apply`](Self::apply).
    pub fn ask(&self, question: &Question<'_>) -> Answer {
        let answer = self.try_ask(question);
        answer.unwrap_or_else(|status| panic!("{question:?}: {status}"))
    }

    /// Asks a question, and gives the status where it got no answer.
    ///
    /// # Errors
    /// As [`try_apply`](Self::try_apply).
    #[inline(always)]
    pub fn try_ask(&self, question: &Question<'_>) -> Result<Answer, Status> {
        self.read_words(&question.encode(), question.bytes())
    }

    /// Asks a question, or makes a call that leaves all as it is, given as words.
    ///
    /// # Errors
    /// As [`try_apply`](Self::try_apply).
    #[inline(always)]
    pub fn read_words(&self, call: &[u64], bytes: &[u8]) -> Result<Answer, Status> {
        let mut out = Answered::EMPTY;
        checked(self.show(call, bytes, &mut out))?;
        out.answer(&[]).ok_or(Status::Unknown(out.tag()))
    }

    /// Asks a question, or makes a call that leaves all as it is, given as words,
    /// for the words of its answer.
    #[inline(always)]
    pub(crate) fn look(&self, call: &[u64], bytes: &[u8], out: &mut Answered) {
        expect_answer(call, self.show(call, bytes, out));
    }

    #[inline(always)]
    fn show(&self, call: &[u64], bytes: &[u8], out: &mut Answered) -> u64 {
        let view = View {
            session: &self.session,
            bus: &self.bus,
            rows: &self.rows,
            area: &self.area,
        };
        library::read(view, call, bytes, &mut out.words)
    }

    /// What the session says of itself.
    ///
    /// # Panics
    /// If [`Self::session_words_mut`] was used to write what is no session's.
    pub fn status(&self) -> SessionStatus {
        let status = self.try_status();
        status.unwrap_or_else(|status| panic!("{status}"))
    }

    /// What the session says of itself, where its words are a session's.
    ///
    /// # Errors
    /// As [`try_apply`](Self::try_apply).
    pub fn try_status(&self) -> Result<SessionStatus, Status> {
        match self.try_ask(&Question::SessionStatus)? {
            Answer::Status(status) => Ok(status),
            answer => unexpected(answer),
        }
    }

    /// The buffer of a submission that began.
    pub fn buffer(&self, begun: &Begun) -> &[u8] {
        &self.area[part(begun.row * self.row_bytes, begun.metadata.requested_length)]
    }

    /// A part of the area, as [`Answer::Bytes`] gives it.
    pub fn bytes(&self, start: u64, length: u64) -> &[u8] {
        &self.area[part(start, length)]
    }

    /// The bytes of the request that has this report at this place, as
    /// [`completed_bytes`](Self::completed_bytes) gives them: the first of its row.
    pub fn completed_at(&self, place: u64, report: &Report) -> &[u8] {
        let length = match report.state {
            State::Completed { actual_length, .. } => actual_length,
            _ => 0,
        };
        self.row_part(place, length)
    }

    /// The first bytes of a row, so many at most.
    pub(crate) fn row_part(&self, row: u64, length: u64) -> &[u8] {
        self.bytes(row * self.row_bytes, length.min(self.row_bytes))
    }

    /// The bytes of a Completed request, and none of another that has a report.
    ///
    /// # Errors
    /// 40 where there is no report of it.
    pub fn completed_bytes(&self, id: RequestId) -> Result<&[u8], Refusal> {
        let mut answer = Answered::EMPTY;
        self.look(&of(COMPLETED_BYTES, id), &[], &mut answer);
        match answer.bytes() {
            Some((start, length)) => Ok(self.bytes(start, length)),
            None => Err(answer.refusal()),
        }
    }

    /// What the bus has of the port with this number, from 1: its generation and
    /// last reading. The session may have fewer ports.
    pub fn port(&self, number: u8) -> Option<(u64, Option<u32>)> {
        let at = 2 * usize::from(number.checked_sub(1)?);
        Some((self.bus[at], option_u32(self.bus[at + 1])?))
    }

    /// The session's words, for a dump.
    pub fn session_words(&self) -> &[u64; SESSION_WORDS] {
        &self.session
    }

    /// The session's words, to set up what no call leads to: what the library
    /// then answers is only as good as what they say. Words that are no session's
    /// are told by [`Status::NoSession`].
    pub fn session_words_mut(&mut self) -> &mut [u64; SESSION_WORDS] {
        &mut self.session
    }
}

/// Without ports, rows and bytes.
impl Debug for Store {
    fn fmt(&self, f: &mut Formatter<'_>) -> fmt::Result {
        f.debug_struct("Store")
            .field("status", &self.try_status())
            .finish_non_exhaustive()
    }
}

/// Whether the library answered.
fn checked(status: u64) -> Result<(), Status> {
    match status {
        0 => Ok(()),
        1 => Err(Status::NoCall),
        2 => Err(Status::NoSession),
        3 => Err(Status::NoRoom),
        4 => Err(Status::NoLists),
        status => Err(Status::Unknown(status)),
    }
}

#[inline(always)]
fn expect_answer(call: &[u64], status: u64) {
    if status != 0 {
        no_answer(call, status);
    }
}

#[cold]
fn no_answer(call: &[u64], status: u64) {
    checked(status).unwrap_or_else(|status| panic!("call {call:?}: {status}"));
}

/// Whether this crate's words go with a library of that version: the same major
/// number, and no fewer calls.
fn check(version: u64) -> Result<(), Status> {
    match version >> 32 == VERSION >> 32 && version >= VERSION {
        true => Ok(()),
        false => Err(Status::Version(version)),
    }
}

/// The library's parts lie in the area, whose length is a `usize`.
fn part(start: u64, length: u64) -> Range<usize> {
    let (start, length) = (start as usize, length as usize);
    start..start + length
}

#[cfg(test)]
mod tests {
    use super::*;

    #[test]
    fn the_library_is_of_this_version() {
        assert_eq!(library::version(), VERSION);
    }

    #[test]
    fn another_version_is_told() {
        for version in [VERSION, VERSION + 1] {
            assert_eq!(check(version), Ok(()));
        }
        for version in [VERSION - 1, VERSION + (1 << 32), 0] {
            assert_eq!(check(version), Err(Status::Version(version)));
        }
        let text = check((2 << 32) + 3).unwrap_err().to_string();
        let expected = "the library has version 2.3 of the words, this crate wants 1.2";
        assert_eq!(text, expected);
    }
}
