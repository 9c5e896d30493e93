//! From a script's line to its call.
use crate::call::*;
use crate::fields::{Fields, ScriptError};
use crate::values::*;
use std::str::FromStr;

pub type Parsed<T> = Result<T, String>;

/// A script's data is a lent list; this bounds what a typing error can allocate.
const MOST_DATA: usize = 1 << 24;

/// The call of a line, numbered from 1; `None` for an empty line or a comment.
pub fn parse_line(number: usize, line: &str) -> Result<Option<Call>, ScriptError> {
    let at_line = |message| ScriptError::new(number, message);
    let Some(mut fields) = Fields::read(line).map_err(at_line)? else {
        return Ok(None);
    };
    let call = call(&mut fields).map_err(at_line)?;
    fields.finish().map_err(at_line)?;
    Ok(Some(call))
}

fn call(f: &mut Fields) -> Parsed<Call> {
    match f.verb() {
        "open" | "device" | "port" | "endpoints" | "raw" => setting(f),
        "acquire" | "initialise" | "close" | "force" | "store" => session(f),
        "submit" => Ok(Call::Submit(submit(f)?)),
        "plan" => Ok(Call::Plan(plan(f)?)),
        "poll" => Ok(Call::Poll {
            id: f.take("id", request_id)?,
            reply: f.take("reply", poll_reply)?,
        }),
        "cancel" => Ok(Call::Cancel(f.take("id", request_id)?)),
        "withdraw" => Ok(Call::Withdraw(f.take("id", request_id)?)),
        "timeout" => Ok(Call::Timeout(f.take("id", request_id)?)),
        "reclaim" => Ok(Call::Reclaim(f.take("id", request_id)?)),
        "report" => Ok(Call::Report(f.take("id", request_id)?)),
        "reports" => Ok(Call::Reports),
        "abort" => recover(f, Recovery::Abort),
        "reset" => {
            let preserve = f.take("preserve", flag)?;
            recover(f, Recovery::Reset { preserve })
        }
        "dump" => Ok(Call::Dump),
        verb => Err(format!("unknown verb `{verb}`")),
    }
}

fn setting(f: &mut Fields) -> Parsed<Call> {
    match f.verb() {
        "open" => Ok(Call::Open(Open {
            session: f.take("session", decimal)?,
            sequence: f.take("seq", decimal)?,
            revision: f.take("rev", |text| optional(text, decimal))?,
            ports: f.take("ports", |text| optional(text, decimal))?,
        })),
        "device" => Ok(Call::Device {
            id: f.take("id", device_id)?,
            port: f.take("port", port_id)?,
            state: f.take("state", |text| named(text, DeviceState::from_name))?,
        }),
        "port" => Ok(Call::Port {
            number: f.take("number", decimal)?,
            generation: f.take("gen", decimal)?,
            reading: f.take("reading", |text| optional(text, hex32))?,
        }),
        "endpoints" => Ok(Call::Endpoints {
            slot: f.take("slot", decimal)?,
            list: f.take("list", |text| list(text, endpoint))?,
        }),
        _ => Ok(Call::Raw {
            slot: f.take("slot", decimal)?,
            set: f.take("set", flag)?,
        }),
    }
}

fn session(f: &mut Fields) -> Parsed<Call> {
    match f.verb() {
        "acquire" => {
            let reply = f.take("reply", done_reply)?;
            Ok(Call::Acquire(match reply {
                Ok(()) => Ok(()),
                Err(error) => Err((error, f.take("retained", flag)?)),
            }))
        }
        "initialise" => Ok(Call::Initialise(f.take("reply", done_reply)?)),
        "close" => Ok(Call::Close {
            fresh: f.take("fresh", |text| optional(text, decimal))?,
            reply: f.take("reply", done_reply)?,
        }),
        "store" => Ok(Call::Store {
            rows: f.take("rows", decimal)?,
            bytes: f.take("bytes", decimal)?,
        }),
        _ => {
            let state = |text| named(text, ControllerState::from_name);
            Ok(Call::Force(f.take("state", state)?))
        }
    }
}

fn submit(f: &mut Fields) -> Parsed<Submit> {
    Ok(Submit {
        device: f.take("dev", device_id)?,
        endpoint: f.take("ep", hex8)?,
        transfer_type: f.take("type", |text| named(text, TransferType::from_name))?,
        direction: f.take("dir", direction)?,
        length: f.take("len", decimal)?,
        setup: f.take("setup", |text| optional(text, setup))?,
        data: f.take("data", data)?,
        packets: f.take("packets", packets)?,
        readings: [f.take("r1", reading)?, f.take("r2", reading)?],
        reply: f.take("reply", token_reply)?,
    })
}

fn plan(f: &mut Fields) -> Parsed<Plan> {
    Ok(Plan {
        device: f.take("dev", device_id)?,
        profile: f.take("profile", |text| named(text, Profile::from_name))?,
        setup: f.take("setup", setup)?,
        stage: f.take("stage", |text| optional(text, stage))?,
        status: f.take("status", |text| optional(text, direction))?,
        data: f.take("data", data)?,
        reading: f.take("r1", reading)?,
        reply: f.take("reply", token_reply)?,
    })
}

fn recover(f: &mut Fields, kind: Recovery) -> Parsed<Call> {
    let id = f.take("id", request_id)?;
    let reply = match f.take("reply", done_reply)? {
        Err(error) => Err(error),
        Ok(()) => Ok(AbortResult {
            completed: f.take("done", |text| list(text, completed))?,
            aborted: f.take("aborted", |text| list(text, decimal))?,
            ready: f.take("ready", flag)?,
            error: f.take("error", |text| optional(text, error))?,
        }),
    };
    Ok(Call::Recover { id, kind, reply })
}

/// A number of decimal digits that its type holds.
pub fn decimal<T: FromStr>(text: &str) -> Parsed<T> {
    if text.is_empty() || !text.bytes().all(|byte| byte.is_ascii_digit()) {
        return Err(format!("`{text}` is not a decimal number"));
    }
    text.parse().map_err(|_| out_of_range(text))
}

/// What is wrong with a number that its field does not hold.
pub fn out_of_range(text: &str) -> String {
    format!("`{text}` is out of range")
}

fn hexadecimal(text: &str, most: u32) -> Parsed<u32> {
    if text.is_empty() || !text.bytes().all(|byte| byte.is_ascii_hexdigit()) {
        return Err(format!("`{text}` is not a hex number"));
    }
    match u32::from_str_radix(text, 16) {
        Ok(number) if number <= most => Ok(number),
        _ => Err(out_of_range(text)),
    }
}

fn hex8(text: &str) -> Parsed<u8> {
    hexadecimal(text, 0xff).map(|number| number as u8)
}

fn hex16(text: &str) -> Parsed<u16> {
    hexadecimal(text, 0xffff).map(|number| number as u16)
}

fn hex32(text: &str) -> Parsed<u32> {
    hexadecimal(text, u32::MAX)
}

fn flag(text: &str) -> Parsed<bool> {
    match text {
        "0" => Ok(false),
        "1" => Ok(true),
        _ => Err(format!("`{text}` is not 0 or 1")),
    }
}

fn optional<T>(text: &str, read: impl FnOnce(&str) -> Parsed<T>) -> Parsed<Option<T>> {
    if text == "-" {
        Ok(None)
    } else {
        read(text).map(Some)
    }
}

fn list<T>(text: &str, read: impl FnMut(&str) -> Parsed<T>) -> Parsed<Vec<T>> {
    if text == "-" {
        Ok(Vec::new())
    } else {
        text.split(',').map(read).collect()
    }
}

fn named<T>(text: &str, find: impl FnOnce(&str) -> Option<T>) -> Parsed<T> {
    find(text).ok_or_else(|| format!("unknown word `{text}`"))
}

fn direction(text: &str) -> Parsed<Direction> {
    named(text, Direction::from_name)
}

/// Just `N` parts between `separator`s.
fn parts<'a, const N: usize>(text: &'a str, separator: char, form: &str) -> Parsed<[&'a str; N]> {
    let parts: Vec<_> = text.split(separator).collect();
    parts
        .try_into()
        .map_err(|_| format!("`{text}` is not of the form {form}"))
}

fn request_id(text: &str) -> Parsed<RequestId> {
    let [session, generation, sequence] = parts(text, '.', "session.generation.sequence")?;
    Ok(RequestId {
        session: decimal(session)?,
        generation: decimal(generation)?,
        sequence: decimal(sequence)?,
    })
}

fn device_id(text: &str) -> Parsed<DeviceId> {
    let [session, generation, slot] = parts(text, '.', "session.generation.slot")?;
    Ok(DeviceId {
        session: decimal(session)?,
        generation: decimal(generation)?,
        slot: decimal(slot)?,
    })
}

fn port_id(text: &str) -> Parsed<PortId> {
    let [session, generation, number] = parts(text, '.', "session.generation.number")?;
    Ok(PortId {
        session: decimal(session)?,
        generation: decimal(generation)?,
        number: decimal(number)?,
    })
}

fn error(text: &str) -> Parsed<Error> {
    let [category, message, os, code] = parts(text, '.', "cat.message.os.code")?;
    Ok(Error {
        category: named(category, Category::from_name)?,
        message: decimal(message)?,
        os_code: optional(os, signed)?,
        completion_code: optional(code, decimal)?,
    })
}

fn signed(text: &str) -> Parsed<i32> {
    match text.strip_prefix('-') {
        None => decimal(text),
        Some(digits) => {
            let number: u32 = decimal(digits)?;
            i32::try_from(-i64::from(number)).map_err(|_| out_of_range(text))
        }
    }
}

fn setup(text: &str) -> Parsed<Setup> {
    let [kind, request, value, index, length] =
        parts(text, '.', "type.request.value.index.length")?;
    Ok(Setup {
        request_type: hex8(kind)?,
        request: hex8(request)?,
        value: hex16(value)?,
        index: hex16(index)?,
        length: decimal(length)?,
    })
}

fn data(text: &str) -> Parsed<Data> {
    if let Some(length) = text.strip_prefix("z:") {
        Ok(Data::Zeros(data_length(length)?))
    } else if let Some(rest) = text.strip_prefix("p:") {
        let [length, start] = parts(rest, ':', "p:N:S")?;
        Ok(Data::Pattern(data_length(length)?, decimal(start)?))
    } else if let Some(digits) = text.strip_prefix("h:") {
        Ok(Data::Bytes(hex_bytes(digits)?))
    } else {
        Err(format!("`{text}` is none of z:N, p:N:S and h:HEX"))
    }
}

fn data_length(text: &str) -> Parsed<usize> {
    match decimal(text)? {
        length if length <= MOST_DATA => Ok(length),
        _ => Err(out_of_range(text)),
    }
}

/// Bytes of two hex digits each.
pub fn hex_bytes(digits: &str) -> Parsed<Vec<u8>> {
    if !digits.is_ascii() || !digits.len().is_multiple_of(2) {
        return Err(format!("`{digits}` is not hex bytes of two digits each"));
    }
    (0..digits.len())
        .step_by(2)
        .map(|at| hex8(&digits[at..at + 2]))
        .collect()
}

fn packets(text: &str) -> Parsed<Option<Vec<u64>>> {
    match text {
        "none" => Ok(None),
        _ => list(text, decimal).map(Some),
    }
}

fn endpoint(text: &str) -> Parsed<(u8, TransferType)> {
    let [address, kind] = parts(text, ':', "HEX:TYPE")?;
    Ok((hex8(address)?, named(kind, TransferType::from_name)?))
}

fn stage(text: &str) -> Parsed<(Direction, u64)> {
    let [towards, length] = parts(text, ':', "in:N or out:N")?;
    Ok((direction(towards)?, decimal(length)?))
}

fn completed(text: &str) -> Parsed<(u64, Completion)> {
    let [token, result] = parts(text, '@', "TOKEN@COMPLETION")?;
    Ok((decimal(token)?, completion(result)?))
}

fn completion(text: &str) -> Parsed<Completion> {
    let [length, code, bytes, failure, quiescent] =
        parts(text, '/', "len/code/data/error/quiescent")?;
    Ok(Completion {
        length: optional(length, decimal)?,
        code: optional(code, decimal)?,
        data: optional(bytes, data)?,
        error: optional(failure, error)?,
        quiescent: flag(quiescent)?,
    })
}

/// `err:ERROR`, or what `read` makes of the text.
fn reply<T>(text: &str, read: impl FnOnce(&str) -> Parsed<T>) -> Parsed<Result<T, Error>> {
    match text.strip_prefix("err:") {
        Some(failure) => Ok(Err(error(failure)?)),
        None => read(text).map(Ok),
    }
}

fn reading(text: &str) -> Parsed<Reading> {
    reply(text, hex32)
}

fn token_reply(text: &str) -> Parsed<Result<u64, Error>> {
    reply(text, decimal)
}

fn done_reply(text: &str) -> Parsed<Result<(), Error>> {
    reply(text, |word| match word {
        "ok" => Ok(()),
        _ => Err(format!("`{word}` is not ok or err:ERROR")),
    })
}

fn poll_reply(text: &str) -> Parsed<PollReply> {
    reply(text, |word| match word {
        "nothing" => Ok(None),
        _ => completion(word).map(Some),
    })
}

#[cfg(test)]
#[path = "parse_tests.rs"]
mod tests;
