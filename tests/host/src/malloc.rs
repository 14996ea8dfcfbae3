//! What a host would do without a pool: take memory, use it, give it back.

use std::alloc::{alloc, alloc_zeroed, dealloc, Layout};
use std::hint::black_box;

pub struct Way {
    pub name: &'static str,
    pub size: usize,
    pub action: fn(usize),
}

pub const WAYS: [Way; 6] = [
    Way { name: "malloc, free", size: 32, action: plain },
    Way { name: "malloc, free", size: 256, action: plain },
    Way { name: "malloc cleared, free", size: 32, action: cleared },
    Way { name: "malloc cleared, free", size: 256, action: cleared },
    Way { name: "malloc cleared, write, read, free", size: 32, action: used },
    Way { name: "malloc cleared, write, read, free", size: 256, action: used },
];

/// Callgrind counts in here.
#[inline(never)]
pub fn measured(action: fn(usize), size: usize) {
    action(black_box(size));
}

fn plain(size: usize) {
    let layout = layout(size);
    // SAFETY: the size is not 0, and the block is given back as it was taken.
    unsafe {
        let block = black_box(alloc(layout));
        dealloc(block, layout);
    }
}

fn cleared(size: usize) {
    let layout = layout(size);
    // SAFETY: as above.
    unsafe {
        let block = black_box(alloc_zeroed(layout));
        dealloc(block, layout);
    }
}

fn used(size: usize) {
    let layout = layout(size);
    let (bytes, mut out) = ([7; 256], [0; 256]);
    black_box(&bytes);
    // SAFETY: as above, and so many bytes are there on both sides.
    unsafe {
        let block = black_box(alloc_zeroed(layout));
        assert!(!block.is_null() && size <= 256);
        block.copy_from_nonoverlapping(bytes.as_ptr(), size);
        black_box(block).copy_to_nonoverlapping(out.as_mut_ptr(), size);
        dealloc(block, layout);
    }
    black_box(&mut out);
}

fn layout(size: usize) -> Layout {
    Layout::from_size_align(size, 16).expect("a small size")
}
