//! Fork: the child shares the parent's pages until one of the two stores to them.

use super::{Space, Table, TableCount};
use crate::entry::{named, COW, W};
use crate::frames::{Frame, Store, WORDS};

impl<const LEVELS: usize> Space<LEVELS> {
    /// Returns the child, and whether a leaf of the parent changed. `None`: too few frames are free.
    pub fn fork<S: Store>(&mut self, store: &mut S) -> Option<(Space<LEVELS>, bool)> {
        let mut count = TableCount::<LEVELS>::new();
        for table in &self.tables {
            if table.live > 0 || table.prefix == Self::TOP {
                count.add(table.prefix, table.prefix);
            }
        }
        if !store.reserve(1 + count.tables) {
            return None;
        }
        store.share(0);
        let trapframe = store.claim();
        let mut child = Space::empty(store, trapframe);
        child.heap_base = self.heap_base;
        child.size = self.size;
        child.regions = self.regions.clone();
        child.mappings = self.mappings.clone();
        let mut changed = false;
        for table in &self.tables {
            if table.live == 0 {
                continue;
            }
            let at = child.ensure_table(store, table.prefix);
            child.tables[at].live = table.live;
            changed |= share_pages(store, table, child.tables[at].frame);
        }
        child.clear_stored(store);
        Some((child, changed))
    }
}

/// Shares the pages of a table with the child's table, and marks those that grant writing; returns whether a leaf of the parent
/// changed.
fn share_pages<S: Store>(store: &mut S, parent: &Table, child: Frame) -> bool {
    let mut changed = false;
    let mut left = parent.live;
    for index in 0..WORDS {
        if left == 0 {
            break;
        }
        let mut word = store.load(parent.frame, index);
        if word == 0 {
            continue;
        }
        left -= 1;
        if word & W != 0 {
            word = word & !W | COW;
            store.store(parent.frame, index, word);
            changed = true;
        }
        store.share(named(word));
        store.store(child, index, word);
    }
    changed
}
