//! Frames: the lines of a script, a line of hexadecimal to a request, a reply to its line.

use crate::limits::PINNING;
use crate::record::{Quota, Share};
use crate::refusals::{ACCEPTED, NOT_HEXADECIMAL, UNKNOWN_KIND, UNKNOWN_OPERATION, WRONG_FRAME_LENGTH};
use crate::work::{Figures, Lifetime};

/// The bytes of the longest frame but for a batch, a write of 256.
pub const LONGEST_FRAME: usize = 7 + 256;

/// The objects of a batch that are read. They are more than it may have, so that one with too many shows as that.
pub const MOST_NAMED: usize = (LONGEST_FRAME + 1 - 4) / 4;

/// Task first, then kind, extension and length or handle, and of a make the prefix; a write has handle, offset and bytes, and
/// a batch the bytes of its first handles.
#[derive(Clone, Copy, Debug, PartialEq, Eq)]
pub enum Request<'a> {
    Join(u8, Share),
    Leave(u8),
    Block(u8),
    Resume(u8),
    Tick(u8),
    Make(u8, u8, u8, u16, u16),
    Refresh(u8, u8, u8, u32),
    Read(u8, u32),
    Write(u8, u32, u8, &'a [u8]),
    Report,
    Remaining(u8, u32),
    Batch(u8, u8, u8, &'a [[u8; 4]]),
    Release(u8, u32),
    View(u8),
}

/// What an accepted call gives back.
#[derive(Clone, Copy, Debug, PartialEq, Eq)]
pub enum Reply<'a> {
    Done,
    Advanced(bool),
    Handle(u32),
    Bytes(&'a [u8]),
    Report(Figures),
    Remaining(Lifetime),
}

/// The lines of a script, without their LF.
pub fn lines(script: &[u8]) -> impl Iterator<Item = &[u8]> {
    let whole = script.split_inclusive(|&byte| byte == b'\n');
    whole.map(|line| line.strip_suffix(b"\n").unwrap_or(line))
}

/// The request in a line without its LF, or 16, 17, 18, 19. The room is one byte more than the longest frame, so that
/// a longer one shows as too long.
pub fn decode<'a>(line: &[u8], room: &'a mut [u8; LONGEST_FRAME + 1]) -> Result<Request<'a>, u8> {
    let frame = unhex(line, room)?;
    let (&operation, fields) = frame.split_first().ok_or(UNKNOWN_OPERATION)?;
    match (operation, fields) {
        (1, &[task, small_reserve, small_limit, large_reserve, large_limit]) => {
            let small = Quota { reserve: small_reserve, limit: small_limit };
            let large = Quota { reserve: large_reserve, limit: large_limit };
            Ok(Request::Join(task, Share { small, large }))
        }
        (2, &[task]) => Ok(Request::Leave(task)),
        (3, &[task]) => Ok(Request::Block(task)),
        (4, &[task]) => Ok(Request::Resume(task)),
        (5, &[task]) => Ok(Request::Tick(task)),
        (6, &[task, kind, extension, l1, l0, p1, p0]) => {
            let (length, prefix) = (u16::from_be_bytes([l1, l0]), u16::from_be_bytes([p1, p0]));
            Ok(Request::Make(task, known(kind)?, extension, length, prefix))
        }
        (7, &[task, kind, extension, h3, h2, h1, h0]) => {
            Ok(Request::Refresh(task, known(kind)?, extension, u32::from_be_bytes([h3, h2, h1, h0])))
        }
        (8, &[task, h3, h2, h1, h0]) => Ok(Request::Read(task, u32::from_be_bytes([h3, h2, h1, h0]))),
        (9, &[task, h3, h2, h1, h0, offset, ref bytes @ ..]) if bytes.len() <= 256 => {
            Ok(Request::Write(task, u32::from_be_bytes([h3, h2, h1, h0]), offset, bytes))
        }
        (10, &[]) => Ok(Request::Report),
        (11, &[task, h3, h2, h1, h0]) => Ok(Request::Remaining(task, u32::from_be_bytes([h3, h2, h1, h0]))),
        // The whole line counts, also where it is longer than the room.
        (12, &[task, kind, extension, ref objects @ ..]) if line.len().is_multiple_of(8) => {
            Ok(Request::Batch(task, known(kind)?, extension, objects.as_chunks().0))
        }
        (13, &[task, h3, h2, h1, h0]) => Ok(Request::Release(task, u32::from_be_bytes([h3, h2, h1, h0]))),
        (14, &[task]) => Ok(Request::View(task)),
        (1..=14, _) => Err(WRONG_FRAME_LENGTH),
        _ => Err(UNKNOWN_OPERATION),
    }
}

fn known(kind: u8) -> Result<u8, u8> {
    if kind > PINNING {
        return Err(UNKNOWN_KIND);
    }
    Ok(kind)
}

/// The bytes that the digits spell, as many as the room takes, or 16. First come the values of all digits, then two of
/// them for a byte, so that many are read at once.
fn unhex<'a>(line: &[u8], room: &'a mut [u8; LONGEST_FRAME + 1]) -> Result<&'a [u8], u8> {
    let (inside, beyond) = line.split_at(line.len().min(2 * room.len()));
    let mut values = [0; 2 * (LONGEST_FRAME + 1)];
    let mut seen = 0;
    for (place, &character) in values.iter_mut().zip(inside) {
        *place = value(character);
        seen |= *place;
    }
    for &character in beyond {
        seen |= value(character);
    }
    if seen > 15 || line.len() & 1 == 1 {
        return Err(NOT_HEXADECIMAL);
    }
    let bytes = &mut room[..inside.len() / 2];
    for (byte, &pair) in bytes.iter_mut().zip(values.as_chunks::<2>().0) {
        // The high digit is the first.
        let pair = u16::from_le_bytes(pair);
        *byte = (pair << 4 | pair >> 8) as u8;
    }
    Ok(bytes)
}

/// The value of a digit; above 15 of another character.
fn value(character: u8) -> u8 {
    let (digit, letter) = (character.wrapping_sub(b'0'), character.wrapping_sub(b'A'));
    if digit < 10 {
        digit
    } else if letter < 6 {
        letter + 10
    } else {
        0xFF
    }
}

/// The digit of a value below 16.
fn digit(value: u8) -> u8 {
    value + if value < 10 { b'0' } else { b'A' - 10 }
}

/// Writes the line of a reply or of a refusal, LF included, and tells its length.
pub fn answer(reply: Result<Reply, u8>, out: &mut [u8]) -> usize {
    let mut line = Line { out, end: 0 };
    match reply {
        Err(refusal) => line.hex(&[refusal]),
        Ok(reply) => {
            line.hex(&[ACCEPTED]);
            data(reply, &mut line);
        }
    }
    line.out[line.end] = b'\n';
    line.end + 1
}

fn data(reply: Reply, line: &mut Line) {
    match reply {
        Reply::Done => {}
        Reply::Advanced(advanced) => line.hex(&[u8::from(advanced)]),
        Reply::Handle(handle) => line.hex(&handle.to_be_bytes()),
        Reply::Bytes(bytes) => line.hex(bytes),
        Reply::Report(Figures { small, large, expirations, given }) => {
            line.hex(&[small, large]);
            line.hex(&expirations.to_be_bytes());
            line.hex(&given.to_be_bytes());
        }
        Reply::Remaining(Lifetime { local, global }) => line.hex(&[local, global]),
    }
}

/// A line that is being written.
struct Line<'a> {
    out: &'a mut [u8],
    end: usize,
}

impl Line<'_> {
    /// Two digits for each byte.
    fn hex(&mut self, bytes: &[u8]) {
        let room = &mut self.out[self.end..][..2 * bytes.len()];
        for (pair, byte) in room.as_chunks_mut::<2>().0.iter_mut().zip(bytes) {
            *pair = [digit(byte >> 4), digit(byte & 15)];
        }
        self.end += room.len();
    }
}
