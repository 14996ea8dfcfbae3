//! include/ramsummer_image.h writes the images that this crate reads, and the other way round, byte for byte.

use in_c::{built, host, scratch};
use lives::{limits, Random};
use old::{version_3, version_4, version_5};
use ramsummer::image::{restore, restore_with_stores, save, save_with_stores, with_stores};
use ramsummer::image::{Fault, RECORD_ALONE, VERSION, WITH_STORES};
use ramsummer::{Limits, Record, LARGE, LARGE_SIZE, RECORD, SMALL, SMALL_SIZE};
use std::fs::{self, File};
use std::process::Command;

mod in_c;
mod lives;
mod old;

/// So many bytes of chance.
fn bytes(length: usize, random: &mut Random) -> Vec<u8> {
    let mut bytes = vec![0; length];
    random.fill(&mut bytes);
    bytes
}

/// A record of any bytes with limits of a pool: every field has every kind of value, and none is where another belongs.
fn record(limits: Limits, random: &mut Random) -> Record {
    let mut record = Record::from_bytes(bytes(RECORD, random).as_slice().try_into().unwrap());
    record.limits = limits;
    record
}

/// What tests/image.c says to this input.
fn told(name: &str, input: &[u8], arguments: &[&str]) -> Option<Vec<u8>> {
    let binary = built(name, &host().join("tests/image.c"), "c99")?;
    let file = scratch(&format!("{name}.in"));
    fs::write(&file, input).unwrap();
    let output = Command::new(binary).args(arguments).stdin(File::open(file).unwrap()).output().unwrap();
    assert!(output.status.success());
    Some(output.stdout)
}

fn alone(record: &Record) -> Vec<u8> {
    let mut image = vec![0; RECORD_ALONE];
    save(record, &mut image).unwrap();
    image
}

fn whole(record: &Record, small: &[u8], large: &[u8]) -> Vec<u8> {
    let mut image = vec![0; with_stores(record.limits)];
    save_with_stores(record, small, large, &mut image).unwrap();
    image
}

#[test]
fn what_rust_saves_c_restores_and_the_other_way_round() {
    let mut random = Random(3);
    let (mut input, mut expected) = (Vec::new(), Vec::new());
    for limits in limits(100) {
        let record = record(limits, &mut random);
        let (small, large) = (bytes(limits.small_length(), &mut random), bytes(limits.large_length(), &mut random));
        let (alone, whole) = (alone(&record), whole(&record, &small, &large));
        input.extend([&alone[..], &whole].concat());
        // C has the record's bytes in the order of this machine, as `from_bytes` takes them.
        expected.extend([record.as_bytes(), &alone[..], record.as_bytes(), &small, &large, &whole].concat());
    }
    let Some(told) = told("image_both_ways", &input, &[]) else { return };
    assert!(told == expected);
}

fn number<T>(answer: Result<T, Fault>) -> u8 {
    answer.map_or_else(Fault::number, |_| 0)
}

/// The faults of these flips of a bit each.
fn flipped(image: &mut [u8], bits: impl Iterator<Item = usize>, fault: impl Fn(&[u8]) -> u8) -> Vec<u8> {
    let faults = bits.map(|bit| {
        image[bit / 8] ^= 1 << (bit % 8);
        let told = fault(image);
        image[bit / 8] ^= 1 << (bit % 8);
        told
    });
    faults.collect()
}

/// Those of each number of bytes, up to all.
fn cut(image: &[u8], fault: impl Fn(&[u8]) -> u8) -> Vec<u8> {
    (0..=image.len()).map(|length| fault(&image[..length])).collect()
}

#[test]
fn both_tell_the_same_faults_of_a_record_alone() {
    let mut image = alone(&record(Limits::STANDARD, &mut Random(4)));
    let Some(told) = told("image_alone", &image, &["alone"]) else { return };
    let fault = |image: &[u8]| number(restore(image));
    let bits = 0..8 * image.len();
    let faults = [flipped(&mut image, bits, fault), cut(&image, fault)].concat();
    assert!(told[..faults.len()] == faults);
    let rest = [Some(Fault::Length), None, Some(Fault::TooShort)];
    assert_eq!(told[faults.len()..], rest.map(|fault| fault.map_or(0, Fault::number)));
}

/// Stores of other limits too, those of the same length together among them: nothing is written.
#[test]
fn both_tell_the_same_faults_of_an_image_with_stores() {
    let (mut random, limits) = (Random(4), Limits { small_blocks: 9, large_blocks: 2, ..Limits::STANDARD });
    let stores = [limits.small_length(), limits.large_length()].map(|length| bytes(length, &mut random));
    let mut image = whole(&record(limits, &mut random), &stores[0], &stores[1]);
    let Some(told) = told("image_whole", &image, &["whole"]) else { return };
    let lent = |image: &[u8], small: usize, large: usize| {
        number(restore_with_stores(image, &mut vec![0; small * SMALL_SIZE], &mut vec![0; large * LARGE_SIZE]))
    };
    let fault = |image: &[u8]| lent(image, 9, 2);
    let bits = (0..8 * image.len()).step_by(5);
    let mut faults = [flipped(&mut image, bits, fault), cut(&image, fault)].concat();
    faults.extend((0..=64).flat_map(|small| (0..=32).map(move |large| (small, large))).map(|(small, large)| {
        let told = lent(&image, small, large);
        assert_eq!(told, if (small, large) == (9, 2) { 0 } else { Fault::StoreLength.number() });
        told
    }));
    assert!(told[..faults.len()] == faults);
    let rest = [Some(Fault::Length), None, Some(Fault::TooShort), Some(Fault::StoreLength), Some(Fault::StoreLength)];
    assert_eq!(told[faults.len()..], rest.map(|fault| fault.map_or(0, Fault::number)));
}

/// At its own length, and with bytes after it: as a record alone, and with stores.
#[test]
fn both_tell_the_same_faults_of_an_image_of_an_earlier_version() {
    for (name, mut image) in [("image_3", version_3()), ("image_4", version_4()), ("image_5", version_5())] {
        let is_short = image.len() < RECORD_ALONE;
        let Some(told) = told(name, &image, &["old"]) else { return };
        let mut faults = Vec::new();
        for length in [image.len(), WITH_STORES] {
            image.resize(length, 0);
            faults.push(number(restore(&image)));
            faults.push(number(restore_with_stores(&image, &mut [0; SMALL], &mut [0; LARGE])));
        }
        assert_eq!(told, faults);
        let old = Fault::Version.number();
        let at_its_length = if is_short { Fault::TooShort.number() } else { old };
        assert_eq!(faults, [at_its_length, at_its_length, old, old]);
    }
}

/// `TooShort` as the header has it: `RAMSUMMER_FAULT_TOO_SHORT`.
fn c_name(fault: Fault) -> String {
    format!("{fault:?}").chars().fold("RAMSUMMER_FAULT".into(), |text, letter| match letter {
        'A'..='Z' => text + "_" + &letter.to_string(),
        _ => text + &letter.to_uppercase().to_string(),
    })
}

#[test]
fn the_header_has_the_numbers_and_sentences_of_this_crate() {
    let names = Fault::ALL.map(c_name);
    let mut values = vec![("RAMSUMMER_IMAGE_RECORD_ALONE", RECORD_ALONE), ("RAMSUMMER_IMAGE_WITH_STORES", WITH_STORES)];
    let cable = Limits { small_blocks: 16, large_blocks: 4, ..Limits::STANDARD };
    values.push(("RAMSUMMER_IMAGE_FOR(15 + 1, 3 + 1)", with_stores(cable)));
    values.extend([("RAMSUMMER_IMAGE_VERSION", VERSION as usize), ("RAMSUMMER_FAULT_NONE", 0)]);
    values.extend(names.iter().map(String::as_str).zip(Fault::ALL.map(|fault| fault.number().into())));
    values.push(("ramsummer_image_crc32((const uint8_t *)\"123456789\", 9)", 0xCBF4_3926));
    let mut text = "#include <stdio.h>\n#include \"ramsummer_image.h\"\nint main(void) {\n".to_string();
    for (expression, _) in &values {
        text += &format!("printf(\"%zu\\n\", (size_t)({expression}));\n");
    }
    for fault in Fault::ALL {
        text += &format!("puts(ramsummer_image_text({}));\n", fault.number());
    }
    let source = scratch("image_header.c");
    fs::write(&source, text + "return 0;\n}\n").unwrap();
    let Some(binary) = built("image_header", &source, "c99") else { return };
    let printed = String::from_utf8(Command::new(binary).output().unwrap().stdout).unwrap();
    let values = values.iter().map(|(_, value)| value.to_string());
    let expected: Vec<String> = values.chain(Fault::ALL.map(|fault| fault.to_string())).collect();
    assert_eq!(printed.lines().collect::<Vec<_>>(), expected);
}
