//! Images as earlier versions of the layout had them, of a fresh record alone. Those before 5 are shorter than those of today.

use ramsummer::image::{crc32, MAGIC};
use ramsummer::Record;

/// All zeros: it has no limits.
pub fn version_3() -> Vec<u8> {
    image(3, &[0; 2440])
}

/// All zeros but for its limits: it has no shares, and words of four bytes for blocks.
pub fn version_4() -> Vec<u8> {
    let mut record = [0; 2456];
    for (place, limit) in [64_u32, 32, 256, 30].into_iter().enumerate() {
        record[136 + 4 * place..][..4].copy_from_slice(&limit.to_le_bytes());
    }
    image(4, &record)
}

/// As a fresh one is today: it has no prefixes, and no viewers.
pub fn version_5() -> Vec<u8> {
    image(5, Record::fresh().as_bytes())
}

fn image(version: u32, record: &[u8]) -> Vec<u8> {
    let length = record.len() as u32 + 16;
    let mut image = [&MAGIC[..], &version.to_le_bytes(), &length.to_le_bytes(), record].concat();
    image.extend(crc32(&image).to_le_bytes());
    image
}
