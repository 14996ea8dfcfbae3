//! Frames: calls go to their lines and back, and bad lines are refused in order.

use reference::call::{packed, Accepted, Answer, Call, Figures, Handles, Kind, Lifetime, Refusal};
use reference::frame::{decode, encode, encode_answer};
use reference::random::Random;
use reference::share::{Quota, Share};

/// The longest frame here, a batch of 100.
const ROOM: usize = 4 + 4 * 100;

fn random_call<'a>(random: &mut Random, bytes: &'a [u8; 256], objects: &'a [[u8; 4]; 100]) -> Call<'a> {
    let (task, extension, offset) = (random.byte(), random.byte(), random.byte());
    let kind = random.pick(&[Kind::Local, Kind::Global, Kind::Pinned]);
    let (handle, length, prefix) = (random.number() as u32, random.number() as u16, random.number() as u16);
    let bytes = &bytes[random.below(257)..];
    let handles = Handles(&objects[random.below(101)..]);
    let share = Share::from_bytes(std::array::from_fn(|_| random.byte()));
    random.pick(&[
        Call::Join { task, share },
        Call::Leave { task },
        Call::Block { task },
        Call::Resume { task },
        Call::Tick { task },
        Call::Make { task, kind, extension, length, prefix },
        Call::Refresh { task, kind, extension, handle },
        Call::Read { task, handle },
        Call::Write { task, handle, offset, bytes },
        Call::Report,
        Call::Remaining { task, handle },
        Call::Batch { task, kind, extension, handles },
        Call::Release { task, handle },
        Call::View { task },
    ])
}

#[test]
fn round_trip() {
    let mut random = Random::new(1);
    for _ in 0..20_000 {
        let (mut bytes, mut objects) = ([0; 256], [[0; 4]; 100]);
        random.fill(&mut bytes);
        random.fill(objects.as_flattened_mut());
        let call = random_call(&mut random, &bytes, &objects);
        let (mut line, mut room) = (Vec::new(), [0; ROOM]);
        encode(&call, &mut line);
        assert_eq!(line.pop(), Some(b'\n'));
        assert_eq!(decode(&line, &mut room), Ok(call));
    }
}

/// One byte less or more is no frame, but for a write's bytes; nor is a batch with part of a handle.
#[test]
fn other_lengths() {
    let mut random = Random::new(2);
    for _ in 0..20_000 {
        let bytes = [random.byte(); 256];
        let call = random_call(&mut random, &bytes, &[[0; 4]; 100]);
        let (mut line, mut room) = (Vec::new(), [0; ROOM + 1]);
        encode(&call, &mut line);
        line.pop();
        let shorter = decode(&line[..line.len() - 2], &mut room).err();
        let longer = decode(&[&line[..], b"00"].concat(), &mut room).err();
        let wrong = Some(Refusal::WrongFrameLength);
        match call {
            Call::Report => assert_eq!((shorter, longer), (Some(Refusal::UnknownOperation), wrong)),
            Call::Write { bytes: [], .. } => assert_eq!((shorter, longer), (wrong, None)),
            Call::Write { bytes, .. } => assert_eq!((shorter, longer), (None, wrong.filter(|_| bytes.len() == 256))),
            _ => assert_eq!((shorter, longer), (wrong, wrong)),
        }
    }
}

#[test]
fn refused_frames() {
    for (line, number) in REFUSED {
        let mut room = [0; 16];
        let refusal = decode(line, &mut room).expect_err("a refusal");
        assert_eq!(refusal as u8, *number, "{}", line.escape_ascii());
    }
}

const REFUSED: &[(&[u8], u8)] = &[
    (b"0", 16),
    (b"010", 16),
    (b"FG", 16),
    (b"0a", 16),
    (b"\r", 16),
    (b"0100\r", 16),
    (b"010\r", 16),
    (b" 0100", 16),
    (b"01 00", 16),
    (b"01\x0000", 16),
    (b"\0\0", 16),
    (b"0\x80", 16),
    (b"\xFF\xFF", 16),
    (b"0/", 16),
    (b"0:", 16),
    (b"0@", 16),
    (b"0`", 16),
    (b"FFFFG", 16),
    (b"060003000004G0", 16),
    (b"", 17),
    (b"00", 17),
    (b"0F", 17),
    (b"FF", 17),
    (b"0F00", 17),
    (b"FF0000", 17),
    (b"01", 18),
    (b"0100", 18),
    (b"010000", 18),
    (b"010000FF", 18),
    (b"010000FF00", 18),
    (b"010000FF00FF00", 18),
    (b"06", 18),
    (b"0E", 18),
    (b"0E0000", 18),
    (b"0E0000FF00FF", 18),
    (b"060000000004", 18),
    (b"06000000000400", 18),
    (b"060000000004000000", 18),
    (b"020000", 18),
    (b"0600000004", 18),
    (b"0600030004", 18),
    (b"06000300000400", 18),
    (b"07000300000001", 18),
    (b"0800000001", 18),
    (b"090000000001", 18),
    (b"0A00", 18),
    (b"0B", 18),
    (b"0B00", 18),
    (b"0B00000001", 18),
    (b"0B000000000100", 18),
    (b"0C", 18),
    (b"0C00", 18),
    (b"0C0000", 18),
    (b"0C0003", 18),
    (b"0C00000000", 18),
    (b"0C0003000000", 18),
    (b"0C000300000001", 18),
    (b"0C0000000000000100", 18),
    (b"0D", 18),
    (b"0D00", 18),
    (b"0D00000001", 18),
    (b"0D000000000100", 18),
    (b"0C000000000000010000000G", 16),
    (b"0600030000040000", 19),
    (b"06FF80FF9C400000", 19),
    (b"0700FF0000000001", 19),
    (b"0C000300", 19),
    (b"0CFF03FF", 19),
    (b"0C00FF0000000001", 19),
];

/// No fault of the frame: the call decides.
#[test]
fn arguments_out_of_range_are_calls() {
    let mut room = [0; 263];
    let share = Share { small: Quota { reserve: 1, limit: 2 }, large: Quota { reserve: 3, limit: 4 } };
    assert_eq!(decode(b"01FF01020304", &mut room), Ok(Call::Join { task: 255, share }));
    let above = Share { small: Quota { reserve: 255, limit: 0 }, large: Quota { reserve: 65, limit: 64 } };
    assert_eq!(decode(b"0100FF004140", &mut room), Ok(Call::Join { task: 0, share: above }));
    let make = Call::Make { task: 255, kind: Kind::Global, extension: 255, length: 40_000, prefix: 0 };
    assert_eq!(decode(b"06FF01FF9C400000", &mut room), Ok(make));
    assert_eq!(decode(b"080000000000", &mut room), Ok(Call::Read { task: 0, handle: 0 }));
    assert_eq!(decode(b"0BFFFFFFFFFE", &mut room), Ok(Call::Remaining { task: 255, handle: u32::MAX - 1 }));
    assert_eq!(decode(b"0DFFFFFFFFFE", &mut room), Ok(Call::Release { task: 255, handle: u32::MAX - 1 }));
    let refresh = Call::Refresh { task: 255, kind: Kind::Pinned, extension: 255, handle: 0 };
    assert_eq!(decode(b"07FF02FF00000000", &mut room), Ok(refresh));
    let handles = packed(&[0, u32::MAX - 1, 0x0102_0304]);
    let batch = Call::Batch { task: 255, kind: Kind::Global, extension: 255, handles: Handles(&handles) };
    assert_eq!(decode(b"0CFF01FF00000000FFFFFFFE01020304", &mut room), Ok(batch));
}

/// Any count of objects is a frame, none too, however long the line.
#[test]
fn batches_of_any_size() {
    for count in [0, 1, 31, 32, 33, 65, 66, 8_191, 100_000] {
        let handles: Vec<_> = (0..count).map(|number: u32| (number << 12 | 7).to_be_bytes()).collect();
        let call = Call::Batch { task: 0, kind: Kind::Local, extension: 0, handles: Handles(&handles) };
        let mut line = Vec::new();
        encode(&call, &mut line);
        line.pop();
        let mut room = vec![0; line.len()];
        assert_eq!(decode(&line, &mut room), Ok(call));
        for more in [&b"00"[..], b"0000", b"000000"] {
            let refusal = decode(&[&line, more].concat(), &mut room);
            assert_eq!(refusal, Err(Refusal::WrongFrameLength), "{count}");
        }
        line[5] = b'3';
        assert_eq!(decode(&line, &mut room), Err(Refusal::KindAbove2), "{count}");
    }
}

#[test]
fn every_character() {
    for character in 0..=255 {
        let mut room = [0; 2];
        let answer = decode(&[b'0', character], &mut room);
        let digit = character.is_ascii_digit() || (b'A'..=b'F').contains(&character);
        assert_eq!(answer == Err(Refusal::NotHexadecimal), !digit, "{character}");
    }
}

#[test]
fn answers() {
    let figures = Figures { small: 64, large: 32, expirations: 256, given: 0x0102_0304 };
    let rows: [(Answer, &[u8]); 14] = [
        (Ok(Accepted::Done), b"00\n"),
        (Ok(Accepted::Advanced(false)), b"0000\n"),
        (Ok(Accepted::Advanced(true)), b"0001\n"),
        (Ok(Accepted::Handle(0xAB)), b"00000000AB\n"),
        (Ok(Accepted::Bytes(&[0xA5, 0x0F])), b"00A50F\n"),
        (Ok(Accepted::Report(figures)), b"004020010001020304\n"),
        (Ok(Accepted::Remaining(Lifetime { local: 31, global: 32 })), b"001F20\n"),
        (Err(Refusal::KindAbove2), b"13\n"),
        (Err(Refusal::BatchOutOfRange), b"14\n"),
        (Err(Refusal::OnlyMakePins), b"15\n"),
        (Err(Refusal::NotPinned), b"16\n"),
        (Err(Refusal::ReserveAboveLimit), b"18\n"),
        (Err(Refusal::ReserveNotFree), b"19\n"),
        (Err(Refusal::AtLimit), b"1A\n"),
    ];
    for (answer, expected) in rows {
        let mut line = Vec::new();
        encode_answer(&answer, &mut line);
        assert_eq!(line, expected);
    }
}
