//! Order 6 by its own entries: the ledger's answers on the reference's scripts with bytes changed from outside, and one byte
//! changed in all places.

mod memory;

use memory::{sites, Memory};
use plain::calls;
use plain::fit::is_well_formed;
use plain::limits::{BLOCKS, LARGE_SIZE, SMALL_BLOCKS, SMALL_SIZE};
use plain::record::{extent_of, length_in, prefix_in, sum_in, with_sum, Share, FRESH};
use reference::block::Block;
use reference::call::{Accepted, Call, Model};
use reference::frame::{decode, encode_answer};
use reference::generate::sized_script;
use reference::ledger::Ledger;
use reference::outside::{Changes, Exposed};
use reference::random::Random;
use reference::script::lines;

impl Memory {
    fn read(&self, task: u8, handle: u32) -> (u8, Vec<u8>) {
        let (mut out, mut count) = ([0; LARGE_SIZE], 0);
        let number = calls::read(&self.pool, &self.small, &self.large, task, handle, &mut out, &mut count);
        (number, out[..count].to_vec())
    }

    fn write(&mut self, task: u8, handle: u32, offset: u8, bytes: &[u8]) -> u8 {
        calls::write(&mut self.pool, &mut self.small, &mut self.large, task, handle, offset, bytes)
    }

    fn block_mut(&mut self, block: usize) -> &mut [u8] {
        if block < SMALL_BLOCKS {
            &mut self.small[block * SMALL_SIZE..][..SMALL_SIZE]
        } else {
            &mut self.large[(block - SMALL_BLOCKS) * LARGE_SIZE..][..LARGE_SIZE]
        }
    }

    /// The block of an object that stands.
    fn block_of(&mut self, handle: u32) -> &mut [u8] {
        let block = self.pool.handles.iter().position(|&other| other == handle).expect("it stands");
        self.block_mut(block)
    }

    /// The objects in order of handle, with their blocks.
    fn standing(&self) -> Vec<(u32, Block)> {
        let used = (0..BLOCKS).filter(|&block| self.pool.handles[block] != 0);
        let mut standing: Vec<_> = used.map(|block| (self.pool.handles[block], self.shown(block))).collect();
        standing.sort_by_key(|&(handle, _)| handle);
        standing
    }

    fn shown(&self, block: usize) -> Block {
        let extent = self.pool.extents[block];
        let (length, prefix, sum) = (length_in(extent), prefix_in(extent), sum_in(extent));
        Block { length, prefix, bytes: self.block(block).to_vec(), sum }
    }
}

/// By the entries and by the frame, at 01's figures and at others: the ledger's answer, and the same record and stores, as
/// the ledger's objects say.
#[test]
fn the_answers_of_the_ledger() {
    let (mut read, mut written) = ([0; 29], [0; 29]);
    for (seed, limits) in sites(0..150) {
        let script = sized_script(limits, seed);
        let mut room = vec![0; script.len()];
        let (mut memory, mut ledger, mut changes) = (Memory::beside(limits), Ledger::of(limits), Changes::new(seed));
        for line in lines(&script[..script.len().min(20_000)]) {
            let Ok(call) = decode(line, &mut room) else { continue };
            for change in changes.before(&call, &ledger) {
                ledger.disturb(change);
                memory.block_of(change.handle)[change.place] = change.byte;
            }
            let answer = ledger.call(&call);
            let number = answer.err().map_or(0, |refusal| refusal as u8);
            let mut typed = memory.clone();
            match call {
                Call::Read { task, handle } => {
                    let bytes = if let Ok(Accepted::Bytes(bytes)) = answer { bytes } else { &[] };
                    assert_eq!(typed.read(task, handle), (number, bytes.to_vec()), "{call:?}");
                    read[usize::from(number)] += 1;
                }
                Call::Write { task, handle, offset, bytes } => {
                    assert_eq!(typed.write(task, handle, offset, bytes), number, "{call:?}");
                    written[usize::from(number)] += 1;
                }
                _ => {}
            }
            let mut expected = Vec::new();
            encode_answer(&answer, &mut expected);
            assert_eq!(memory.frame(line).1, expected, "{call:?}");
            if matches!(call, Call::Read { .. } | Call::Write { .. }) {
                assert!(typed == memory, "{call:?}");
                assert!(is_well_formed(&memory.pool));
                let kept: Vec<_> = ledger.standing().into_iter().map(|object| (object.handle, object.block)).collect();
                assert_eq!(memory.standing(), kept, "{call:?}");
            }
        }
    }
    for number in [0, 12, 23] {
        assert!(read[number].min(written[number]) > 100, "{number}: {read:?}, {written:?}");
    }
    assert!(written[13] > 100);
}

/// Task 0 runs, and an object of any length stands in each block, pinned, with bytes of chance.
fn full(random: &mut Random) -> Memory {
    let mut memory = Memory::of(FRESH);
    assert_eq!(calls::join(&mut memory.pool, 0, Share::OPEN), 0);
    for handle in 1..=BLOCKS as u32 {
        let is_small = handle <= SMALL_BLOCKS as u32;
        let length = if is_small { 1 + random.below(32) } else { 33 + random.below(224) };
        assert_eq!(memory.make(2, 0, length as u16), 0);
        let mut bytes = vec![0; length];
        random.fill(&mut bytes);
        assert_eq!(memory.write(0, handle, 0, &bytes), 0);
    }
    memory
}

/// Any byte of any block, in any way: its object is noticed and no other, and nothing that is refused changes anything.
#[test]
fn one_byte_in_all_places() {
    let mut random = Random::new(1);
    let mut memory = full(&mut random);
    for handle in 1..=BLOCKS as u32 {
        for place in 0..memory.block_of(handle).len() {
            let (was, whole) = (memory.block_of(handle)[place], memory.read(0, handle));
            assert_eq!(whole.0, 0);
            memory.block_of(handle)[place] = was.wrapping_add(1 + random.below(255) as u8);
            assert!(is_well_formed(&memory.pool));
            let before = memory.clone();
            assert_eq!(memory.read(0, handle), (23, vec![]));
            for (offset, bytes) in [(0, &[][..]), (place.min(255) as u8, &[was]), (255, &[1, 2])] {
                assert_eq!(memory.write(0, handle, offset, bytes), 23);
            }
            let other = 1 + handle % BLOCKS as u32;
            assert_eq!((memory.read(0, other).0, memory.write(0, other, 0, &[])), (0, 0));
            assert!(memory == before);
            memory.block_of(handle)[place] = was;
            assert_eq!(memory.read(0, handle), whole);
        }
    }
}

/// The sum in the record may be what it likes: the record is well-formed, and only the right one is no refusal.
#[test]
fn any_sum() {
    let mut memory = full(&mut Random::new(2));
    for block in [0, 1, 63, 64, 95] {
        let extent = memory.pool.extents[block];
        for sum in [0, 1, sum_in(extent) - 1, sum_in(extent) + 1, 65_280, 65_281, u16::MAX] {
            memory.pool.extents[block] = with_sum(extent, sum);
            assert!(is_well_formed(&memory.pool));
            let before = memory.clone();
            assert_eq!(memory.read(0, 1 + block as u32), (23, vec![]));
            assert_eq!(memory.write(0, 1 + block as u32, 0, &[1]), 23);
            assert!(memory == before);
        }
        memory.pool.extents[block] = extent;
        assert_eq!(memory.read(0, 1 + block as u32).0, 0);
    }
}

/// From nothing to 65,280 and back, byte by byte and at once.
#[test]
fn the_greatest_sum() {
    let mut memory = Memory::of(FRESH);
    assert_eq!(calls::join(&mut memory.pool, 0, Share::OPEN), 0);
    assert_eq!(memory.make(0, 0, 256), 0);
    for byte in [255, 0] {
        for place in 0..=255 {
            assert_eq!(memory.write(0, 1, place, &[byte]), 0);
            let count = if byte == 255 { u16::from(place) + 1 } else { 255 - u16::from(place) };
            assert_eq!(memory.pool.extents[SMALL_BLOCKS], extent_of(256, 255 * count, 0));
        }
    }
    for byte in [255, 0, 255, 1] {
        assert_eq!(memory.write(0, 1, 0, &[byte; 256]), 0);
        assert_eq!(memory.pool.extents[SMALL_BLOCKS], extent_of(256, 256 * u16::from(byte), 0));
        assert_eq!(memory.read(0, 1), (0, vec![byte; 256]));
    }
}

/// 15 and 14 come before, and a change that hits a free block is nothing to anyone.
#[test]
fn what_comes_before() {
    let mut memory = full(&mut Random::new(3));
    memory.block_of(5)[31] ^= 1;
    assert_eq!(memory.read(0, 5).0, 23);
    assert_eq!(calls::release(&mut memory.pool, 0, 5), 0);
    memory.block_mut(4).fill(9);
    assert_eq!((memory.read(0, 5).0, memory.write(0, 5, 0, &[])), (12, 12));
    assert_eq!(memory.make(2, 0, 32), 0);
    assert_eq!(memory.read(0, 97), (0, vec![0; 32]));
    memory.block_mut(4)[0] = 1;
    let Memory { pool, small, large } = &mut memory;
    for (small, large) in [(&small[..0], &large[..]), (&small[..], &large[..1])] {
        assert_eq!(calls::read(pool, small, large, 0, 97, &mut [0; 256], &mut 0), 14);
    }
    assert_eq!(calls::write(pool, &mut small[1..], large, 0, 97, 0, &[]), 14);
    assert_eq!(calls::write(pool, small, large, 0, 97, 0, &[]), 23);
    pool.tasks[3].state = 4;
    assert_eq!(calls::read(pool, small, large, 0, 97, &mut [0; 256], &mut 0), 15);
    assert_eq!(calls::write(pool, small, large, 0, 97, 0, &[]), 15);
}
