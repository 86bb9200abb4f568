//! The kernel's page table: the direct map, the trampoline, and a stack for each slot.

use crate::entry::{index_of, leaf, named, pointer, trampoline, D, PAGE, R, SV48, W, X};
use crate::frames::{Frame, Store};

const KERNBASE: u64 = 0x8000_0000;

/// The frames that boot takes: frame 0, the kernel's page tables, and a stack for each slot.
pub fn kernel_frames(frames: u64, slots: u64, levels: usize) -> u64 {
    let tables = if levels == SV48 { 7 } else { 5 };
    1 + tables + u64::from(frames > 512) + slots
}

/// Maps a page, and makes the tables on its way that are missing.
fn map<const LEVELS: usize, S: Store>(store: &mut S, root: Frame, va: u64, word: u64) {
    let mut table = root;
    for level in (1..LEVELS).rev() {
        let at = index_of(va >> (12 + 9 * level));
        let found = store.load(table, at);
        table = if found != 0 {
            named(found)
        } else {
            let next = store.claim();
            store.zero(next);
            store.store(table, at, pointer(next));
            next
        };
    }
    store.store(table, index_of(va >> 12), word);
}

/// Boots on memory that is all free. Returns the root of the kernel's table.
pub fn boot<const LEVELS: usize, S: Store>(store: &mut S, slots: u64) -> Frame {
    let frames = store.frames();
    assert!(store.reserve(kernel_frames(u64::from(frames), slots, LEVELS)));
    let code = store.claim();
    assert_eq!(code, 0);
    let root = store.claim();
    store.zero(root);
    for frame in 0..frames {
        let rights = if frame == 0 { R | X } else { R | W | D };
        let va = KERNBASE + PAGE * u64::from(frame);
        map::<LEVELS, S>(store, root, va, leaf(frame, rights));
    }
    map::<LEVELS, S>(store, root, trampoline(LEVELS), leaf(0, R | X));
    for slot in 0..slots {
        let stack = store.claim();
        let va = trampoline(LEVELS) - (slot + 1) * 2 * PAGE;
        map::<LEVELS, S>(store, root, va, leaf(stack, R | W | D));
    }
    root
}
