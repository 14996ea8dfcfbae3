//! A saved image of a pool, to be kept where it outlives a restart: with a CRC-32 that notices what refusal 15
//! cannot.
//!
//! An image is bytes in a fixed order, the same on every machine; all numbers are little-endian:
//!
//! | bytes | what |
//! |---|---|
//! | 4 | [`MAGIC`] |
//! | 4 | the layout's [`VERSION`] |
//! | 4 | the length of the image in bytes, all of it |
//! | 2,904 | the record, field by field in the order of [`Record`] |
//! | 32 and 256 | for each block of the small store and then of the large one, where the image has them |
//! | 4 | CRC-32 of all bytes before it |
//!
//! The record has the [`Limits`] of the pool, which come back with it, and so says how long its stores are. An image comes
//! back to stores of these lengths alone; an image of the record alone asks for none, and a make, a read or a write that is
//! lent others is refused with [`WrongStoreLength`](crate::Refusal::WrongStoreLength), by its entry or as a frame. No other
//! call looks at them.
//!
//! include/ramsummer_image.h is the same in C. Nothing here is proved, and the library does not rely on it: what comes
//! back is a record that the first call tests, as it does any other.
//!
//! ```
//! use ramsummer::{image, Limits, Pool, Record, Share};
//!
//! const LIMITS: Limits = Limits { small_blocks: 16, large_blocks: 4, expirations: 64, extension: 10 };
//!
//! let mut pool = Pool::over(Record::sized(LIMITS)?, [0; LIMITS.small_length()], [0; LIMITS.large_length()]);
//! pool.join(3, Share::OPEN)?;
//! let mut kept = [0; image::with_stores(LIMITS)];
//! image::save_with_stores(pool.record(), pool.small(), pool.large(), &mut kept).unwrap();
//!
//! let (mut small, mut large) = ([0; LIMITS.small_length()], [0; LIMITS.large_length()]);
//! let record = image::restore_with_stores(&kept, &mut small, &mut large).unwrap();
//! assert_eq!(record, *pool.record());
//!
//! assert_eq!(image::restore_with_stores(&kept, &mut [0; 32], &mut large), Err(image::Fault::StoreLength));
//! kept[1000] ^= 4;
//! assert_eq!(image::restore_with_stores(&kept, &mut small, &mut large), Err(image::Fault::Sum));
//! # Ok::<(), ramsummer::Refusal>(())
//! ```
//!
//! docs/RESTART.md of the repository says what to save and when, and what the tasks do afterwards.

use crate::{Limits, Quota, Record, Share, TaskEntry, RECORD};
use core::array::from_fn;
use core::fmt;
use core::mem::offset_of;

/// What an image starts with.
pub const MAGIC: [u8; 4] = *b"RSMR";

/// The version of the layout. It changes with the order or the count of the record's fields, and with what their numbers
/// mean. Up to 1 an image did not tell who had set a global expiration, up to 2 it had no sums of blocks, up to 3 no limits,
/// up to 4 neither the tasks' shares nor the makers of objects, and up to 5 neither viewers nor the prefixes of objects.
pub const VERSION: u32 = 6;

/// The size of an image of the record alone, in bytes.
pub const RECORD_ALONE: usize = HEAD + RECORD + SUM;

/// The size of an image of a pool with [`Limits::STANDARD`] and both stores, in bytes.
pub const WITH_STORES: usize = with_stores(Limits::STANDARD);

/// The size of an image of a pool with these limits and both stores, in bytes.
pub const fn with_stores(limits: Limits) -> usize {
    RECORD_ALONE.saturating_add(limits.small_length()).saturating_add(limits.large_length())
}

/// Before the record: the magic, the version, the length.
const HEAD: usize = 12;

/// After all the rest.
const SUM: usize = 4;

/// What is wrong with an image, or with the room for one. Tested in this order, but where an image comes back the length of
/// the stores is tested last, since only a whole one says it; the first that is found is told.
#[repr(u8)]
#[derive(Clone, Copy, Debug, PartialEq, Eq, Hash)]
#[non_exhaustive]
pub enum Fault {
    /// A store is not as long as the record's [`Limits`] say.
    StoreLength = 1,
    /// There are fewer bytes than the image has.
    TooShort = 2,
    /// It does not start with [`MAGIC`]: there never was an image here.
    Magic = 3,
    /// It is of another [`VERSION`] of the layout.
    Version = 4,
    /// It says another length: it is of the other kind.
    Length = 5,
    /// The sum does not fit the bytes: the image is damaged, or was not written to its end.
    Sum = 6,
}

impl Fault {
    /// All faults, in order of number.
    pub const ALL: [Fault; 6] =
        [Fault::StoreLength, Fault::TooShort, Fault::Magic, Fault::Version, Fault::Length, Fault::Sum];

    /// The number that include/ramsummer_image.h has for it.
    pub const fn number(self) -> u8 {
        self as u8
    }

    const fn sentence(self) -> &'static str {
        match self {
            Fault::StoreLength => "a store is not as long as the record's limits say",
            Fault::TooShort => "there are too few bytes for an image",
            Fault::Magic => "there is no image here",
            Fault::Version => "the image is of another version",
            Fault::Length => "the image says another length",
            Fault::Sum => "the image is damaged",
        }
    }
}

impl fmt::Display for Fault {
    fn fmt(&self, f: &mut fmt::Formatter<'_>) -> fmt::Result {
        f.pad(self.sentence())
    }
}

#[cfg(feature = "std")]
impl std::error::Error for Fault {}

/// Writes an image of the record alone to the start of `out`, [`RECORD_ALONE`] bytes; the rest of `out` stays.
pub fn save(record: &Record, out: &mut [u8]) -> Result<(), Fault> {
    write(record, &[], &[], out.get_mut(..RECORD_ALONE).ok_or(Fault::TooShort)?);
    Ok(())
}

/// Writes an image of the record and both stores to the start of `out`, as many bytes as [`with_stores`] says; the rest of
/// `out` stays.
pub fn save_with_stores(record: &Record, small: &[u8], large: &[u8], out: &mut [u8]) -> Result<(), Fault> {
    test_stores(record.limits, small, large)?;
    write(record, small, large, out.get_mut(..with_stores(record.limits)).ok_or(Fault::TooShort)?);
    Ok(())
}

/// The record of an image that [`save`] wrote. Bytes after the image may be anything.
pub fn restore(image: &[u8]) -> Result<Record, Fault> {
    let mut rest = Reader(content(image, |_| RECORD_ALONE)?);
    Ok(rest.record())
}

/// The record of an image that [`save_with_stores`] wrote, of a pool with stores of these lengths; they are filled. Where
/// there is a fault, they stay as they were. Bytes after the image may be anything.
pub fn restore_with_stores(image: &[u8], small: &mut [u8], large: &mut [u8]) -> Result<Record, Fault> {
    let mut rest = Reader(content(image, with_stores)?);
    let record = rest.record();
    test_stores(record.limits, small, large)?;
    rest.fill(small);
    rest.fill(large);
    Ok(record)
}

/// CRC-32 as Ethernet and zip have it: polynomial 04C11DB7, reflected, from all ones, inverted at the end.
///
/// ```
/// assert_eq!(ramsummer::image::crc32(b"123456789"), 0xCBF4_3926);
/// ```
pub fn crc32(bytes: &[u8]) -> u32 {
    let half = |sum: u32| (sum >> 4) ^ HALVES[(sum & 15) as usize];
    !bytes.iter().fold(u32::MAX, |sum, &byte| half(half(sum ^ u32::from(byte))))
}

/// What each half of a byte does to the sum.
const HALVES: [u32; 16] = {
    let mut halves = [0; 16];
    let mut half = 0;
    while half < 16 {
        halves[half] = four_steps(half as u32);
        half += 1;
    }
    halves
};

const fn four_steps(mut sum: u32) -> u32 {
    let mut bit = 0;
    while bit < 4 {
        let polynomial = if sum & 1 == 1 { 0xEDB8_8320 } else { 0 };
        sum = (sum >> 1) ^ polynomial;
        bit += 1;
    }
    sum
}

fn test_stores(limits: Limits, small: &[u8], large: &[u8]) -> Result<(), Fault> {
    if small.len() == limits.small_length() && large.len() == limits.large_length() {
        Ok(())
    } else {
        Err(Fault::StoreLength)
    }
}

/// `out` is as long as the image.
fn write(record: &Record, small: &[u8], large: &[u8], out: &mut [u8]) {
    let (length, sum_at) = (out.len() as u32, out.len() - SUM);
    let mut rest = Writer(&mut *out);
    rest.bytes(&MAGIC);
    rest.u32(VERSION);
    rest.u32(length);
    rest.record(record);
    rest.bytes(small);
    rest.bytes(large);
    let sum = crc32(&out[..sum_at]);
    out[sum_at..].copy_from_slice(&sum.to_le_bytes());
}

/// What is between the head and the sum of an image, where both are right. `size` is how many bytes one of these limits has.
fn content(image: &[u8], size: fn(Limits) -> usize) -> Result<&[u8], Fault> {
    let size = size(limits_of(image).ok_or(Fault::TooShort)?);
    let mut head = Reader(image);
    if head.array() != MAGIC {
        return Err(Fault::Magic);
    }
    if head.u32() != VERSION {
        return Err(Fault::Version);
    }
    if head.u32() as usize != size {
        return Err(Fault::Length);
    }
    let (summed, sum) = image.get(..size).ok_or(Fault::TooShort)?.split_at(size - SUM);
    if Reader(sum).u32() != crc32(summed) {
        return Err(Fault::Sum);
    }
    Ok(&summed[HEAD..])
}

/// The limits of the pool that an image is of, where there are as many bytes as one of a record alone has.
fn limits_of(image: &[u8]) -> Option<Limits> {
    let record = image.get(HEAD..RECORD_ALONE)?;
    Some(Reader(&record[offset_of!(Record, limits)..]).limits())
}

/// The room that is not written yet.
struct Writer<'a>(&'a mut [u8]);

impl Writer<'_> {
    fn bytes(&mut self, bytes: &[u8]) {
        let (first, rest) = core::mem::take(&mut self.0).split_at_mut(bytes.len());
        first.copy_from_slice(bytes);
        self.0 = rest;
    }

    fn u16(&mut self, number: u16) {
        self.bytes(&number.to_le_bytes());
    }

    fn u32(&mut self, number: u32) {
        self.bytes(&number.to_le_bytes());
    }

    fn u64(&mut self, number: u64) {
        self.bytes(&number.to_le_bytes());
    }

    fn share(&mut self, Share { small, large }: Share) {
        self.bytes(&[small.reserve, small.limit, large.reserve, large.limit]);
    }

    fn limits(&mut self, limits: Limits) {
        self.u32(limits.small_blocks);
        self.u32(limits.large_blocks);
        self.u32(limits.expirations);
        self.u32(limits.extension);
    }

    fn record(&mut self, record: &Record) {
        for task in &record.tasks {
            self.u16(task.state);
            self.u16(task.ticked);
            self.u32(task.clock);
        }
        self.u32(record.global);
        self.u32(record.given);
        self.limits(record.limits);
        record.shares.iter().for_each(|&share| self.share(share));
        record.handles.iter().for_each(|&handle| self.u32(handle));
        record.extents.iter().for_each(|&extent| self.u64(extent));
        self.bytes(&record.clocks);
        self.bytes(&record.named);
        record.dues.iter().for_each(|&due| self.u32(due));
    }
}

/// The bytes that are not read yet. There are always enough: an image has the size that its limits say.
struct Reader<'a>(&'a [u8]);

impl Reader<'_> {
    fn array<const N: usize>(&mut self) -> [u8; N] {
        let (first, rest) = self.0.split_first_chunk().expect("there are as many bytes as the image has");
        self.0 = rest;
        *first
    }

    fn fill(&mut self, out: &mut [u8]) {
        let (first, rest) = self.0.split_at(out.len());
        out.copy_from_slice(first);
        self.0 = rest;
    }

    fn u16(&mut self) -> u16 {
        u16::from_le_bytes(self.array())
    }

    fn u32(&mut self) -> u32 {
        u32::from_le_bytes(self.array())
    }

    fn u64(&mut self) -> u64 {
        u64::from_le_bytes(self.array())
    }

    fn quota(&mut self) -> Quota {
        let [reserve, limit] = self.array();
        Quota { reserve, limit }
    }

    fn limits(&mut self) -> Limits {
        Limits { small_blocks: self.u32(), large_blocks: self.u32(), expirations: self.u32(), extension: self.u32() }
    }

    /// As [`Writer::record`] has written it.
    fn record(&mut self) -> Record {
        Record {
            tasks: from_fn(|_| TaskEntry { state: self.u16(), ticked: self.u16(), clock: self.u32() }),
            global: self.u32(),
            given: self.u32(),
            limits: self.limits(),
            shares: from_fn(|_| Share { small: self.quota(), large: self.quota() }),
            handles: from_fn(|_| self.u32()),
            extents: from_fn(|_| self.u64()),
            clocks: self.array(),
            named: self.array(),
            dues: from_fn(|_| self.u32()),
        }
    }
}
