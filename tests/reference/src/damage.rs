//! Damaged lines: frames with a fault in them, and noise.

use crate::frame::hex;
use crate::random::Random;

type Fault = fn(&mut Vec<u8>, &mut Random);

const FAULTS: [Fault; 15] = [
    drop_digit,
    add_digit,
    lower_case,
    carriage_return,
    strange_character,
    no_operation,
    unknown_operation,
    operation_alone,
    drop_byte,
    add_byte,
    bad_kind,
    bad_kind_and_length,
    long_write,
    broken_batch,
    long_line,
];

/// Neighbours of the digits, blanks, control characters and bytes above 127.
const STRANGE: &[u8] = b"/:@G`afgz -+xX_.\0\x01\t\r\x1B\x7F\x80\xB5\xC3\xFF";

/// Puts one fault into a line without its LF, now and then two.
pub fn damage(line: &mut Vec<u8>, random: &mut Random) {
    random.pick(&FAULTS)(line, random);
    if random.one_in(8) {
        random.pick(&FAULTS)(line, random);
    }
}

/// A line of any bytes, LF among them, or of any digits after a likely operation.
pub fn noise(random: &mut Random) -> Vec<u8> {
    let mut bytes = vec![0; random.below(24)];
    random.fill(&mut bytes);
    if random.one_in(3) {
        return bytes;
    }
    let mut line = Vec::new();
    hex(&[random.below(16) as u8], &mut line);
    hex(&bytes, &mut line);
    line
}

fn drop_digit(line: &mut Vec<u8>, _: &mut Random) {
    line.pop();
}

fn add_digit(line: &mut Vec<u8>, random: &mut Random) {
    line.push(random.pick(b"0123456789ABCDEF"));
}

fn lower_case(line: &mut Vec<u8>, _: &mut Random) {
    line.make_ascii_lowercase();
    line.extend(b"0a");
}

fn carriage_return(line: &mut Vec<u8>, random: &mut Random) {
    if random.one_in(2) {
        line.pop();
    }
    line.push(b'\r');
}

fn strange_character(line: &mut Vec<u8>, random: &mut Random) {
    line.extend(b"00");
    let place = random.below(line.len());
    line[place] = random.pick(STRANGE);
}

fn no_operation(line: &mut Vec<u8>, _: &mut Random) {
    line.clear();
}

fn unknown_operation(line: &mut Vec<u8>, random: &mut Random) {
    let operation = random.pick(&[0x00, 0x0F, 0x10, 0x60, 0x7F, 0x80, 0xA0, 0xFF]);
    put(line, 0, operation);
}

fn operation_alone(line: &mut Vec<u8>, _: &mut Random) {
    line.truncate(2);
}

fn drop_byte(line: &mut Vec<u8>, _: &mut Random) {
    line.truncate(line.len().saturating_sub(2));
}

fn add_byte(line: &mut Vec<u8>, random: &mut Random) {
    hex(&[random.byte()], line);
}

/// The third byte of a make, a refresh or a batch is its kind.
fn bad_kind(line: &mut Vec<u8>, random: &mut Random) {
    if ![b"06", b"07", b"0C"].iter().any(|&operation| line.starts_with(operation)) {
        *line = random.pick(&[b"0600000000040000", b"0700000000000001", b"0C00000000000001"]).to_vec();
    }
    let kind = random.pick(&[0x03, 0x04, 0x10, 0x80, 0xFF]);
    put(line, 4, kind);
}

fn bad_kind_and_length(line: &mut Vec<u8>, random: &mut Random) {
    bad_kind(line, random);
    add_byte(line, random);
}

/// A write of 256 bytes is the longest frame; this one is longer.
fn long_write(line: &mut Vec<u8>, random: &mut Random) {
    *line = b"09000000000100".to_vec();
    let mut bytes = vec![0; 257 + random.below(3)];
    random.fill(&mut bytes);
    hex(&bytes, line);
}

/// A batch that breaks off within a handle, or before the first, some of them longer than any other frame.
fn broken_batch(line: &mut Vec<u8>, random: &mut Random) {
    let most = random.pick(&[1, 33, 300]);
    *line = b"0C000003".to_vec();
    for _ in 0..random.below(most) {
        line.extend(b"00000001");
    }
    let bytes = random.pick(&[1, 2, 3]);
    line.truncate(line.len() - 2 * bytes);
}

fn long_line(line: &mut Vec<u8>, random: &mut Random) {
    line.resize(line.len() + random.below(1_500), b'0');
}

/// Replaces the two digits from this place on.
fn put(line: &mut Vec<u8>, place: usize, byte: u8) {
    let mut digits = Vec::new();
    hex(&[byte], &mut digits);
    line.resize(line.len().max(place + 2), b'0');
    line[place..place + 2].copy_from_slice(&digits);
}
