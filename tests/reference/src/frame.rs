//! Frames: lines of hexadecimal to calls, calls and answers to lines.

use crate::call::{Accepted, Answer, Call, Figures, Handles, Kind, Lifetime, Refusal};
use crate::share::Share;

const JOIN: u8 = 0x01;
const LEAVE: u8 = 0x02;
const BLOCK: u8 = 0x03;
const RESUME: u8 = 0x04;
const TICK: u8 = 0x05;
const MAKE: u8 = 0x06;
const REFRESH: u8 = 0x07;
const READ: u8 = 0x08;
const WRITE: u8 = 0x09;
const REPORT: u8 = 0x0A;
const REMAINING: u8 = 0x0B;
const BATCH: u8 = 0x0C;
const RELEASE: u8 = 0x0D;
const VIEW: u8 = 0x0E;

/// The most bytes that one write brings.
const MOST_WRITTEN: usize = 256;

const DIGITS: &[u8; 16] = b"0123456789ABCDEF";

/// The value of each character that is a digit; above 15 where it is none.
const VALUES: [u8; 256] = values();

/// The call in a line without its LF, or refusal 16, 17, 18 or 19. A write's bytes and a batch's handles stay in
/// `room`, which has at least half the line's length.
pub fn decode<'a>(line: &[u8], room: &'a mut [u8]) -> Result<Call<'a>, Refusal> {
    let frame = unhex(line, room)?;
    let (&operation, fields) = frame.split_first().ok_or(Refusal::UnknownOperation)?;
    match operation {
        JOIN => join(fields),
        LEAVE => Ok(Call::Leave { task: task(fields)? }),
        BLOCK => Ok(Call::Block { task: task(fields)? }),
        RESUME => Ok(Call::Resume { task: task(fields)? }),
        TICK => Ok(Call::Tick { task: task(fields)? }),
        MAKE => make(fields),
        REFRESH => refresh(fields),
        READ => read(fields),
        WRITE => write(fields),
        REPORT => report(fields),
        REMAINING => remaining(fields),
        BATCH => batch(fields),
        RELEASE => release(fields),
        VIEW => Ok(Call::View { task: task(fields)? }),
        _ => Err(Refusal::UnknownOperation),
    }
}

fn task(fields: &[u8]) -> Result<u8, Refusal> {
    let &[task] = fields else { return Err(Refusal::WrongFrameLength) };
    Ok(task)
}

/// The task, then small reserve, small limit, large reserve, large limit.
fn join(fields: &[u8]) -> Result<Call<'_>, Refusal> {
    let &[task, ref share @ ..] = fields else { return Err(Refusal::WrongFrameLength) };
    let share = share.try_into().map_err(|_| Refusal::WrongFrameLength)?;
    Ok(Call::Join { task, share: Share::from_bytes(share) })
}

fn make(fields: &[u8]) -> Result<Call<'_>, Refusal> {
    let &[task, kind, extension, l1, l0, p1, p0] = fields else { return Err(Refusal::WrongFrameLength) };
    let (length, prefix) = (u16::from_be_bytes([l1, l0]), u16::from_be_bytes([p1, p0]));
    Ok(Call::Make { task, kind: kind_of(kind)?, extension, length, prefix })
}

fn refresh(fields: &[u8]) -> Result<Call<'_>, Refusal> {
    let &[task, kind, extension, h3, h2, h1, h0] = fields else { return Err(Refusal::WrongFrameLength) };
    Ok(Call::Refresh { task, kind: kind_of(kind)?, extension, handle: u32::from_be_bytes([h3, h2, h1, h0]) })
}

fn read(fields: &[u8]) -> Result<Call<'_>, Refusal> {
    let &[task, h3, h2, h1, h0] = fields else { return Err(Refusal::WrongFrameLength) };
    Ok(Call::Read { task, handle: u32::from_be_bytes([h3, h2, h1, h0]) })
}

fn write(fields: &[u8]) -> Result<Call<'_>, Refusal> {
    let &[task, h3, h2, h1, h0, offset, ref bytes @ ..] = fields else { return Err(Refusal::WrongFrameLength) };
    if bytes.len() > MOST_WRITTEN {
        return Err(Refusal::WrongFrameLength);
    }
    Ok(Call::Write { task, handle: u32::from_be_bytes([h3, h2, h1, h0]), offset, bytes })
}

fn report(fields: &[u8]) -> Result<Call<'_>, Refusal> {
    let [] = fields else { return Err(Refusal::WrongFrameLength) };
    Ok(Call::Report)
}

fn remaining(fields: &[u8]) -> Result<Call<'_>, Refusal> {
    let &[task, h3, h2, h1, h0] = fields else { return Err(Refusal::WrongFrameLength) };
    Ok(Call::Remaining { task, handle: u32::from_be_bytes([h3, h2, h1, h0]) })
}

/// However many objects: whether they are too many is for the call to tell.
fn batch(fields: &[u8]) -> Result<Call<'_>, Refusal> {
    let &[task, kind, extension, ref objects @ ..] = fields else { return Err(Refusal::WrongFrameLength) };
    let (handles, []) = objects.as_chunks() else { return Err(Refusal::WrongFrameLength) };
    Ok(Call::Batch { task, kind: kind_of(kind)?, extension, handles: Handles(handles) })
}

fn release(fields: &[u8]) -> Result<Call<'_>, Refusal> {
    let &[task, h3, h2, h1, h0] = fields else { return Err(Refusal::WrongFrameLength) };
    Ok(Call::Release { task, handle: u32::from_be_bytes([h3, h2, h1, h0]) })
}

fn kind_of(kind: u8) -> Result<Kind, Refusal> {
    match kind {
        0 => Ok(Kind::Local),
        1 => Ok(Kind::Global),
        2 => Ok(Kind::Pinned),
        _ => Err(Refusal::KindAbove2),
    }
}

/// The bytes that the digits spell, or refusal 16.
fn unhex<'a>(line: &[u8], room: &'a mut [u8]) -> Result<&'a [u8], Refusal> {
    let pairs = line.chunks_exact(2);
    if !pairs.remainder().is_empty() {
        return Err(Refusal::NotHexadecimal);
    }
    let frame = &mut room[..line.len() / 2];
    let mut seen = 0;
    for (byte, pair) in frame.iter_mut().zip(pairs) {
        let (high, low) = (VALUES[usize::from(pair[0])], VALUES[usize::from(pair[1])]);
        seen |= high | low;
        *byte = high << 4 | low;
    }
    if seen > 15 {
        return Err(Refusal::NotHexadecimal);
    }
    Ok(frame)
}

/// Writes the call's line, LF included.
pub fn encode(call: &Call, line: &mut Vec<u8>) {
    match *call {
        Call::Join { task, share } => {
            hex(&[JOIN, task], line);
            hex(&share.to_bytes(), line);
        }
        Call::Leave { task } => hex(&[LEAVE, task], line),
        Call::Block { task } => hex(&[BLOCK, task], line),
        Call::Resume { task } => hex(&[RESUME, task], line),
        Call::Tick { task } => hex(&[TICK, task], line),
        Call::Make { task, kind, extension, length, prefix } => {
            hex(&[MAKE, task, kind as u8, extension], line);
            hex(&length.to_be_bytes(), line);
            hex(&prefix.to_be_bytes(), line);
        }
        Call::Refresh { task, kind, extension, handle } => {
            hex(&[REFRESH, task, kind as u8, extension], line);
            hex(&handle.to_be_bytes(), line);
        }
        Call::Read { task, handle } => {
            hex(&[READ, task], line);
            hex(&handle.to_be_bytes(), line);
        }
        Call::Write { task, handle, offset, bytes } => {
            hex(&[WRITE, task], line);
            hex(&handle.to_be_bytes(), line);
            hex(&[offset], line);
            hex(bytes, line);
        }
        Call::Report => hex(&[REPORT], line),
        Call::Remaining { task, handle } => {
            hex(&[REMAINING, task], line);
            hex(&handle.to_be_bytes(), line);
        }
        Call::Batch { task, kind, extension, handles } => {
            hex(&[BATCH, task, kind as u8, extension], line);
            hex(handles.0.as_flattened(), line);
        }
        Call::Release { task, handle } => {
            hex(&[RELEASE, task], line);
            hex(&handle.to_be_bytes(), line);
        }
        Call::View { task } => hex(&[VIEW, task], line),
    }
    line.push(b'\n');
}

/// Writes the answer's line, LF included.
pub fn encode_answer(answer: &Answer, line: &mut Vec<u8>) {
    match *answer {
        Err(refusal) => hex(&[refusal as u8], line),
        Ok(accepted) => encode_accepted(accepted, line),
    }
    line.push(b'\n');
}

fn encode_accepted(accepted: Accepted, line: &mut Vec<u8>) {
    hex(&[0], line);
    match accepted {
        Accepted::Done => {}
        Accepted::Advanced(advanced) => hex(&[u8::from(advanced)], line),
        Accepted::Handle(handle) => hex(&handle.to_be_bytes(), line),
        Accepted::Bytes(bytes) => hex(bytes, line),
        Accepted::Report(Figures { small, large, expirations, given }) => {
            hex(&[small, large], line);
            hex(&expirations.to_be_bytes(), line);
            hex(&given.to_be_bytes(), line);
        }
        Accepted::Remaining(Lifetime { local, global }) => hex(&[local, global], line),
    }
}

/// Writes two digits for each byte.
pub fn hex(bytes: &[u8], line: &mut Vec<u8>) {
    let digit = |value: u8| DIGITS[usize::from(value)];
    line.extend(bytes.iter().flat_map(|byte| [digit(byte >> 4), digit(byte & 15)]));
}

const fn values() -> [u8; 256] {
    let mut values = [0xFF; 256];
    let mut value = 0;
    while value < DIGITS.len() {
        values[DIGITS[value] as usize] = value as u8;
        value += 1;
    }
    values
}
