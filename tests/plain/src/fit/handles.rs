//! Whether the blocks in use have handles that differ.

use crate::limits::BLOCKS;

type Handles = [u32; BLOCKS];

/// Mostly the last bytes of the handles differ already.
pub fn distinct(handles: &Handles) -> bool {
    differ_in_last_byte(handles) || differ(handles)
}

fn differ_in_last_byte(handles: &Handles) -> bool {
    let mut met = [false; 256];
    for &handle in handles {
        if handle == 0 {
            continue;
        }
        let met = &mut met[usize::from(handle as u8)];
        if *met {
            return false;
        }
        *met = true;
    }
    true
}

/// How often the handles may find a place taken, all together: handles by chance do so some 30 times.
const STEPS: usize = BLOCKS;

/// Each handle goes to the first free place of a table, from a place of its own on; an equal one is met on the way. Where
/// the ways are long, the handles are sorted instead, so that no bytes make it each against each.
fn differ(handles: &Handles) -> bool {
    let (mut table, mut steps) = ([0; 256], 0);
    for &handle in handles.iter().filter(|&&handle| handle != 0) {
        let mut place = spread(handle);
        while table[usize::from(place)] != 0 {
            if table[usize::from(place)] == handle {
                return false;
            }
            steps += 1;
            if steps > STEPS {
                return differ_sorted(*handles);
            }
            place = place.wrapping_add(1);
        }
        table[usize::from(place)] = handle;
    }
    true
}

/// The first byte of the product with 2^32 / 1.618, which is far apart for numbers that follow each other.
pub fn spread(handle: u32) -> u8 {
    (handle.wrapping_mul(0x9E37_79B1) >> 24) as u8
}

fn differ_sorted(mut handles: Handles) -> bool {
    handles.sort_unstable();
    handles.windows(2).all(|pair| pair[0] != pair[1] || pair[0] == 0)
}
