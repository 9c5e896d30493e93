//! The store that `replay` has, and which calls stay inside it.
use oracle::RowView;
use port::convert;
use script::{Call, PollReply};
use tapewoad::calls;

pub const ROWS: usize = 160;
pub const ROW_BYTES: usize = 4_096;
/// The most words of a call, and the most bytes lent with it.
const WORDS: usize = 2_048;
const LENT_BYTES: usize = 4_096;
/// The most bytes of input.
pub const INPUT: usize = 2_097_152;
/// So many held are the most (5) whatever the store.
const MOST_HELD: usize = 128;
/// A longer request is refused (6) whatever the store.
const LONGEST: u64 = 65_536;

/// Whether a call's answer is the Rust's, which has 1,024 rows of any length:
/// `rows` are the Rust's before the call.
pub fn fits(call: &Call, rows: &[RowView]) -> bool {
    match call {
        Call::Submit(submit) => {
            let words = calls::Call::SubmitRequestPackets(convert::to_submit(submit, &[])).words();
            has_room(rows)
                && row_takes(submit.length)
                && submit.data.len() <= LENT_BYTES
                && words.len() <= WORDS
        }
        Call::Plan(plan) => {
            has_room(rows)
                && row_takes(plan.stage.map_or(0, |(_, length)| length))
                && plan.data.len() <= LENT_BYTES
        }
        Call::Poll { reply, .. } => lent(reply) <= LENT_BYTES,
        Call::Recover { reply, .. } => convert::recovery_reply(reply, |call| {
            call.bytes().len() <= LENT_BYTES && call.words().len() <= WORDS
        }),
        _ => true,
    }
}

/// A free row, or the most held.
fn has_room(rows: &[RowView]) -> bool {
    rows.len() < ROWS || rows.iter().filter(|row| row.held).count() >= MOST_HELD
}

fn row_takes(length: u64) -> bool {
    length <= ROW_BYTES as u64 || length > LONGEST
}

fn lent(reply: &PollReply) -> usize {
    match reply {
        Ok(Some(done)) => done.data.as_ref().map_or(0, script::Data::len),
        _ => 0,
    }
}

#[cfg(test)]
mod tests {
    use super::*;
    use script::{DeviceId, RequestId, parse_line};

    const DEVICE: DeviceId = DeviceId {
        session: 1,
        generation: 0,
        slot: 1,
    };

    fn call(line: &str) -> Call {
        parse_line(1, line).unwrap().unwrap()
    }

    fn submit(length: u64, data: usize, packets: &str) -> Call {
        call(&format!(
            "submit dev=1.0.1 ep=81 type=isochronous dir=in len={length} setup=- data=z:{data} \
             packets={packets} r1=1 r2=1 reply=1"
        ))
    }

    fn row(sequence: u64, held: bool) -> RowView {
        RowView {
            id: RequestId {
                session: 1,
                generation: 0,
                sequence,
            },
            token: 1,
            device: DEVICE,
            endpoint: 0x81,
            length: 8,
            pending: held,
            held,
        }
    }

    #[test]
    fn lengths_that_the_row_cuts_are_left_out() {
        for (length, inside) in [
            (0, true),
            (4_096, true),
            (4_097, false),
            (65_536, false),
            (65_537, true),
            (u64::MAX, true),
        ] {
            assert_eq!(fits(&submit(length, 0, "none"), &[]), inside, "{length}");
            let plan = call(&format!(
                "plan dev=1.0.1 profile=compat setup=80.6.0.0.8 stage=in:{length} status=out \
                 data=z:0 r1=1 reply=1"
            ));
            assert_eq!(fits(&plan, &[]), inside, "{length}");
        }
    }

    #[test]
    fn lent_bytes_and_words_are_limited() {
        assert!(fits(&submit(8, 4_096, "none"), &[]));
        assert!(!fits(&submit(8, 4_097, "none"), &[]));
        let poll = |bytes| call(&format!("poll id=1.0.0 reply=8/1/z:{bytes}/-/1"));
        assert!(fits(&poll(4_096), &[]));
        assert!(!fits(&poll(4_097), &[]));
        let packets = |count: usize| vec!["1"; count].join(",");
        assert!(fits(&submit(8, 0, &packets(129)), &[]));
        assert!(!fits(&submit(8, 0, &packets(2_100)), &[]));
        let abort = |bytes, count| {
            let aborted = packets(count);
            call(&format!(
                "abort id=1.0.0 reply=ok done=1@8/1/z:{bytes}/-/1,2@0/1/z:1/-/1 \
                 aborted={aborted} ready=1 error=-"
            ))
        };
        assert!(fits(&abort(4_095, 1), &[]));
        assert!(!fits(&abort(4_096, 1), &[]));
        assert!(fits(&abort(1, 2_014), &[]));
        assert!(!fits(&abort(1, 2_015), &[]));
    }

    #[test]
    fn full_rows_fit_where_the_most_are_held() {
        let rows = |held: u64| -> Vec<_> { (0..160).map(|it| row(it, it < held)).collect() };
        assert!(fits(&submit(8, 0, "none"), &rows(0)[..159]));
        assert!(!fits(&submit(8, 0, "none"), &rows(127)));
        assert!(fits(&submit(8, 0, "none"), &rows(128)));
        assert!(fits(&Call::Reports, &rows(0)));
    }
}
