//! Saved images: what is saved comes back, and no damage of one bit or cut goes unnoticed.

use lives::{limits, pools, pools_of, Random};
use old::{version_3, version_4, version_5};
use ramsummer::image::{crc32, restore, restore_with_stores, save, save_with_stores, with_stores, Fault};
use ramsummer::image::{MAGIC, RECORD_ALONE, VERSION, WITH_STORES};
use ramsummer::{Kind, Limits, Pool, Record, Refusal, Share, LARGE, LARGE_SIZE, LINE, RECORD, SMALL, SMALL_SIZE};

mod lives;
mod old;

/// A pool with something in all of its fields.
fn late_pool() -> Pool {
    pools(100).last().unwrap()
}

/// An image of the record alone.
fn image_of(record: &Record) -> Vec<u8> {
    let mut image = vec![0; RECORD_ALONE];
    save(record, &mut image).unwrap();
    image
}

fn whole_image_of(pool: &Pool) -> Vec<u8> {
    let mut image = vec![0; with_stores(pool.record().limits)];
    save_with_stores(pool.record(), pool.small(), pool.large(), &mut image).unwrap();
    image
}

/// The record and the stores of an image, as a pool.
fn restored(image: &[u8]) -> Result<Pool, Fault> {
    restored_to(image, Limits::STANDARD)
}

/// The same with stores of these limits.
fn restored_to(image: &[u8], limits: Limits) -> Result<Pool, Fault> {
    let (mut small, mut large) = (vec![0; limits.small_length()], vec![0; limits.large_length()]);
    let record = restore_with_stores(image, &mut small, &mut large)?;
    Ok(Pool::over(record.into(), small.into(), large.into()))
}

#[test]
fn the_sum_is_crc_32() {
    assert_eq!(crc32(b""), 0);
    assert_eq!(crc32(b"123456789"), 0xCBF4_3926);
    assert_eq!(crc32(b"The quick brown fox jumps over the lazy dog"), 0x414F_A339);
}

#[test]
fn what_calls_lead_to_comes_back() {
    let mut standing = 0;
    for pool in pools(400) {
        assert_eq!(restore(&image_of(pool.record())).as_ref(), Ok(pool.record()));
        let mut back = restored(&whole_image_of(&pool)).unwrap();
        assert!(back == pool);
        assert_eq!(back.report(), pool.report());
        assert_eq!(back.join(16, Share::OPEN), Err(Refusal::NoSuchTask)); // it answers, so it is well-formed
        standing += u32::from(pool.report().unwrap().small);
    }
    assert!(standing > 400);
}

#[test]
fn so_does_a_pool_of_any_limits() {
    let mut standing = 0;
    for limits in limits(40) {
        for pool in pools_of(limits, 10) {
            assert_eq!(restore(&image_of(pool.record())).as_ref(), Ok(pool.record()));
            let back = restored_to(&whole_image_of(&pool), limits).unwrap();
            assert!(back == pool);
            standing += u32::from(back.report().unwrap().small);
        }
    }
    assert!(standing > 400, "{standing}");
}

/// Also where both stores together are as long as the image's: eight small blocks are one large one. Nothing is written.
#[test]
fn an_image_comes_back_to_stores_of_its_own_limits_alone() {
    let limits = Limits { small_blocks: 17, large_blocks: 3, expirations: 9, extension: 4 };
    let pool = Pool::sized(limits).unwrap();
    let image = whole_image_of(&pool);
    for (small, large) in [(9, 4), (25, 2), (17, 2), (17, 4), (16, 3), (18, 3), (64, 32), (1, 1), (0, 0)] {
        let (mut small, mut large) = (vec![0xA5; small * SMALL_SIZE], vec![0xA5; large * LARGE_SIZE]);
        assert_eq!(restore_with_stores(&image, &mut small, &mut large), Err(Fault::StoreLength));
        assert!(small.iter().chain(&large).all(|&byte| byte == 0xA5));
    }
    // Limits that no store goes by are the image's, and not the caller's.
    let record = restored_to(&image, Limits { expirations: 256, extension: 30, ..limits }).unwrap().record().clone();
    assert_eq!(record.limits, limits);
}

/// It has no stores with it: a make, a read or a write that is lent others tells, and no other call.
#[test]
fn a_record_alone_comes_back_with_its_limits() {
    let limits = Limits { small_blocks: 16, large_blocks: 4, expirations: 64, extension: 10 };
    let record = restore(&image_of(&Record::sized(limits).unwrap())).unwrap();
    assert_eq!(record.limits, limits);
    let mut pool = Pool::over(record, [0; SMALL], [0; LARGE]);
    assert_eq!(pool.frame(b"010000FF00FF", &mut [0; LINE]).outcome, Ok(()));
    assert_eq!(pool.make(0, Kind::Local, 0, 4), Err(Refusal::WrongStoreLength));
    assert_eq!(pool.read(0, 1.into(), &mut [0; 4]), Err(Refusal::WrongStoreLength));
    assert_eq!(pool.write(0, 1.into(), 0, &[]), Err(Refusal::WrongStoreLength));
    assert_eq!(pool.frame(b"0600000000040000", &mut [0; LINE]).outcome, Err(Refusal::WrongStoreLength));
    assert_eq!(pool.tick(0), Ok(true));
}

/// Numbers so large that 32 bits could not say how long a store or the image would be.
#[test]
fn limits_of_no_pool_have_no_stores() {
    for figure in [1 << 24, 1 << 27, (1 << 27) + 1, u32::MAX] {
        for limits in
            [Limits { small_blocks: figure, ..Limits::STANDARD }, Limits { large_blocks: figure, ..Limits::STANDARD }]
        {
            let mut record = Record::fresh();
            record.limits = limits;
            let mut room = vec![0; WITH_STORES];
            assert_eq!(save_with_stores(&record, &[0; SMALL], &[0; LARGE], &mut room), Err(Fault::StoreLength));
            assert_eq!(save_with_stores(&record, &[], &[], &mut room), Err(Fault::StoreLength));
            // Written by other hands.
            save(&record, &mut room).unwrap();
            assert_eq!(restored(&room).err(), Some(Fault::Length));
            assert_eq!(restore(&room).as_ref(), Ok(&record)); // it is for the first call to refuse
        }
    }
}

/// Also a record that no call leads to. It is for the first call to refuse.
#[test]
fn any_record_comes_back() {
    let mut random = Random(9);
    for _ in 0..500 {
        let mut bytes = [0; RECORD];
        random.fill(&mut bytes);
        let record = restore(&image_of(&Record::from_bytes(&bytes))).unwrap();
        assert_eq!(*record.as_bytes(), bytes);
        assert_eq!(Pool::over(record, [0; SMALL], [0; LARGE]).report(), Err(Refusal::NotWellFormed));
    }
}

/// The bytes and their order are settled: another layout needs another version.
#[test]
fn the_layout_is_that_of_its_version() {
    let counted: Vec<u8> = (0..RECORD).map(|place| (place % 251) as u8).collect();
    let mut image = vec![0; RECORD_ALONE];
    image[..4].copy_from_slice(b"RSMR");
    image[4] = 6;
    image[8..12].copy_from_slice(&2920_u32.to_le_bytes());
    image[12..12 + RECORD].copy_from_slice(&counted);
    let sum = crc32(&image[..RECORD_ALONE - 4]);
    image[RECORD_ALONE - 4..].copy_from_slice(&sum.to_le_bytes());
    let record = restore(&image).unwrap();
    assert_eq!((record.tasks[0].state, record.tasks[0].ticked, record.tasks[0].clock), (0x0100, 0x0302, 0x0706_0504));
    let Limits { small_blocks, large_blocks, expirations, extension } = record.limits;
    assert_eq!((record.global, record.given, small_blocks), (0x8382_8180, 0x8786_8584, 0x8B8A_8988));
    assert_eq!((large_blocks, expirations, extension), (0x8F8E_8D8C, 0x9392_9190, 0x9796_9594));
    let Share { small, large } = record.shares[0];
    assert_eq!([small.reserve, small.limit, large.reserve, large.limit], [152, 153, 154, 155]);
    assert_eq!((record.handles[0], record.extents[0]), (0xDBDA_D9D8, 0x6968_6766_6564_6362));
    assert_eq!((record.clocks[0], record.named[0]), ((1368 % 251) as u8, (1624 % 251) as u8));
    assert_eq!(image_of(&record), image);
    // The sums of fresh images, by Python's zlib.
    let cable = Limits { small_blocks: 16, large_blocks: 4, expirations: 64, extension: 10 };
    assert_eq!(image_of(&Record::fresh())[RECORD_ALONE - 4..], 0xB508_D6D2_u32.to_le_bytes());
    assert_eq!(whole_image_of(&Pool::new())[WITH_STORES - 4..], 0x23B7_D7E4_u32.to_le_bytes());
    assert_eq!(whole_image_of(&Pool::sized(cable).unwrap())[4456 - 4..], 0x3476_5C79_u32.to_le_bytes());
    assert_eq!((MAGIC, VERSION, RECORD_ALONE, WITH_STORES), (*b"RSMR", 6, 2920, 13_160));
    assert_eq!(with_stores(cable), 4456);
}

#[test]
fn every_flip_of_a_bit_is_noticed() {
    let pool = late_pool();
    let mut image = image_of(pool.record());
    for bit in 0..8 * RECORD_ALONE {
        let (place, mask) = (bit / 8, 1 << (bit % 8));
        image[place] ^= mask;
        let expected = match place {
            0..=3 => Fault::Magic,
            4..=7 => Fault::Version,
            8..=11 => Fault::Length,
            _ => Fault::Sum,
        };
        assert_eq!(restore(&image), Err(expected), "bit {bit}");
        image[place] ^= mask;
    }
}

/// Bits of the stores too, one in 41; and the stores stay as they were.
#[test]
fn flips_of_bits_of_a_whole_image_are_noticed() {
    let mut image = whole_image_of(&late_pool());
    let (mut small, mut large) = ([0xA5; SMALL], [0xA5; LARGE]);
    for bit in (0..8 * WITH_STORES).step_by(41) {
        image[bit / 8] ^= 1 << (bit % 8);
        assert!(restore_with_stores(&image, &mut small, &mut large).is_err(), "bit {bit}");
        image[bit / 8] ^= 1 << (bit % 8);
    }
    assert_eq!((small, large), ([0xA5; SMALL], [0xA5; LARGE]));
    assert!(restore_with_stores(&image, &mut small, &mut large).is_ok());
}

#[test]
fn every_cut_is_noticed() {
    let pool = late_pool();
    let (image, whole) = (image_of(pool.record()), whole_image_of(&pool));
    assert!((0..RECORD_ALONE).all(|length| restore(&image[..length]) == Err(Fault::TooShort)));
    assert!((0..WITH_STORES).all(|length| restored(&whole[..length]).err() == Some(Fault::TooShort)));
    // A cut in a sector: the rest is as erased flash.
    for length in (0..RECORD_ALONE).step_by(7) {
        let mut sector = [0xFF; 4096];
        sector[..length].copy_from_slice(&image[..length]);
        assert!(restore(&sector).is_err(), "{length} bytes were written");
    }
}

#[test]
fn bytes_after_an_image_may_be_anything() {
    let pool = late_pool();
    let mut sector = [0xFF; 4096];
    save(pool.record(), &mut sector).unwrap();
    assert!(sector[RECORD_ALONE..].iter().all(|&byte| byte == 0xFF));
    assert_eq!(restore(&sector).as_ref(), Ok(pool.record()));
}

#[test]
fn other_versions_and_the_other_kind_are_told() {
    let pool = late_pool();
    let mut image = image_of(pool.record());
    for version in [0, 1, 2, 3, 4, 5, 7, 256, u32::MAX] {
        image[4..8].copy_from_slice(&version.to_le_bytes());
        assert_eq!(restore(&image), Err(Fault::Version));
    }
    let whole = whole_image_of(&pool);
    assert_eq!(restore(&whole), Err(Fault::Length));
    let mut room = vec![0; WITH_STORES];
    save(pool.record(), &mut room).unwrap();
    assert_eq!(restored(&room).err(), Some(Fault::Length));
    for erased in [[0; RECORD_ALONE], [0xFF; RECORD_ALONE]] {
        assert_eq!(restore(&erased), Err(Fault::Magic));
        assert_eq!(restored(&erased).err(), Some(Fault::Magic));
    }
}

/// Its record is shorter than that of this version: where nothing stands after it, that is told first.
#[test]
fn an_image_of_an_earlier_version_is_too_short_at_its_own_length() {
    for (old, length) in [(version_3(), 2456), (version_4(), 2472)] {
        assert_eq!(old.len(), length);
        assert_eq!(restore(&old), Err(Fault::TooShort));
        assert_eq!(restored(&old).err(), Some(Fault::TooShort));
        for after in [0, 0xFF] {
            let mut sector = [after; 4096];
            sector[..old.len()].copy_from_slice(&old);
            assert_eq!(restore(&sector), Err(Fault::Version));
            assert_eq!(restore(&sector[..RECORD_ALONE]), Err(Fault::Version));
            assert_eq!(restore(&sector[..RECORD_ALONE - 1]), Err(Fault::TooShort));
            assert_eq!(restored(&sector).err(), Some(Fault::Version));
        }
    }
}

/// Though its record has today's length, and is whole.
#[test]
fn so_is_one_of_version_5() {
    let old = version_5();
    assert_eq!(old.len(), RECORD_ALONE);
    assert_eq!(restore(&old), Err(Fault::Version));
    assert_eq!(restored(&old).err(), Some(Fault::Version));
    assert_eq!(restore(&old[1..]), Err(Fault::TooShort));
}

#[test]
fn room_and_stores_have_to_be_long_enough() {
    let (record, small, large) = (Record::fresh(), [0; SMALL], [0; LARGE]);
    let mut room = [0; WITH_STORES];
    assert_eq!(save(&record, &mut room[..RECORD_ALONE - 1]), Err(Fault::TooShort));
    assert_eq!(save_with_stores(&record, &small, &large, &mut room[1..]), Err(Fault::TooShort));
    assert_eq!(save_with_stores(&record, &small[1..], &large, &mut room), Err(Fault::StoreLength));
    assert_eq!(save_with_stores(&record, &large, &small, &mut room), Err(Fault::StoreLength));
    assert!(room.iter().all(|&byte| byte == 0));
    save_with_stores(&record, &small, &large, &mut room).unwrap();
    assert_eq!(restore_with_stores(&room, &mut [0; SMALL], &mut [0; SMALL]), Err(Fault::StoreLength));
    assert_eq!(restore_with_stores(&room, &mut [0; SMALL - 1], &mut [0; LARGE]), Err(Fault::StoreLength));
}
