//! The size of the library by the sections of its archive: no tool of the machine is asked.

use std::fs;
use std::io;

/// Bytes of each kind. Nothing of the archive is left out where a program calls every entry.
#[derive(Debug, Default)]
pub struct Size {
    /// Machine code.
    pub text: u64,
    /// Constants.
    pub constants: u64,
    /// What a program would have to keep in RAM for it: variables, with a first value and without.
    pub variables: u64,
}

pub fn size() -> io::Result<Size> {
    let path = env!("RAMSUMMER_ARCHIVE");
    let archive = fs::read(path).map_err(|error| io::Error::other(format!("{path}: {error}")))?;
    of_archive(&archive).ok_or_else(|| io::Error::other(format!("{path} is no archive of ELF objects for x86-64")))
}

/// An archive is `!<arch>\n` and its members, each with a head of 60 bytes that has its size in decimal at 48, and each on an
/// even place.
fn of_archive(archive: &[u8]) -> Option<Size> {
    let mut rest = archive.strip_prefix(b"!<arch>\n")?;
    let mut size = Size::default();
    while !rest.is_empty() {
        let (head, behind) = rest.split_at_checked(60)?;
        let length: usize = std::str::from_utf8(&head[48..58]).ok()?.trim().parse().ok()?;
        let member = behind.get(..length)?;
        if member.starts_with(b"\x7fELF") {
            add_object(&mut size, member)?;
        }
        rest = behind.get(length + length % 2..).unwrap_or(&[]);
    }
    Some(size)
}

/// ELF for 64 bits, little-endian: the table of sections is where the number at 40 says; at 58 is the size of an entry and at
/// 60 their count. Of an entry, the flags are at 8 and the section's size at 32.
fn add_object(size: &mut Size, object: &[u8]) -> Option<()> {
    const WRITTEN: u64 = 1;
    const LOADED: u64 = 2;
    const RUN: u64 = 4;
    if object.get(4..6)? != [2, 1] {
        return None;
    }
    let (table, each, count) = (number(object, 40, 8)?, number(object, 58, 2)?, number(object, 60, 2)?);
    for section in 0..count {
        let entry = (table + section * each) as usize;
        let (flags, bytes) = (number(object, entry + 8, 8)?, number(object, entry + 32, 8)?);
        match flags & (WRITTEN | LOADED | RUN) {
            flags if flags & LOADED == 0 => {}
            flags if flags & RUN != 0 => size.text += bytes,
            flags if flags & WRITTEN != 0 => size.variables += bytes,
            _ => size.constants += bytes,
        }
    }
    Some(())
}

fn number(object: &[u8], place: usize, width: usize) -> Option<u64> {
    let bytes = object.get(place..place + width)?;
    Some(bytes.iter().rev().fold(0, |number, &byte| number << 8 | u64::from(byte)))
}
