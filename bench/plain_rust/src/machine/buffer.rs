//! A hart's buffer (TLB): translations kept from earlier walks, possibly stale.

use crate::entry::Leaf;

const BUFFER: usize = 32;

/// What a walk for this page ended in, under the ASID that was in `satp` then.
#[derive(Clone, Copy, Default)]
pub struct Entry {
    pub page: u64,
    pub leaf: Leaf,
    pub asid: u8,
}

/// The entries, the oldest first, in a ring.
pub struct Buffer {
    entries: [Entry; BUFFER],
    head: usize,
    len: usize,
}

impl Buffer {
    pub fn new() -> Buffer {
        Buffer {
            entries: [Entry::default(); BUFFER],
            head: 0,
            len: 0,
        }
    }

    /// The place of entry `n` in the ring.
    #[inline(always)]
    fn place(&self, n: usize) -> usize {
        (self.head + n) & (BUFFER - 1)
    }

    /// Entry `n`.
    pub fn get(&self, n: u8) -> Option<Entry> {
        let n = usize::from(n);
        (n < self.len).then(|| self.entries[self.place(n)])
    }

    /// Adds an entry, in a full buffer in the place of the oldest; returns its number.
    pub fn add(&mut self, entry: Entry) -> u8 {
        if self.len == BUFFER {
            self.head = self.place(1);
            self.len -= 1;
        }
        let at = self.place(self.len);
        self.entries[at] = entry;
        self.len += 1;
        self.len as u8 - 1
    }

    /// Removes entry `n`; returns whether there was one.
    pub fn remove(&mut self, n: u8) -> bool {
        let n = usize::from(n);
        if n >= self.len {
            return false;
        }
        for i in n + 1..self.len {
            self.entries[self.place(i - 1)] = self.entries[self.place(i)];
        }
        self.len -= 1;
        true
    }

    /// Removes all entries.
    pub fn fence_all(&mut self) {
        self.len = 0;
    }

    /// Removes the entries of this ASID.
    pub fn fence(&mut self, asid: u8) {
        let mut kept = 0;
        for i in 0..self.len {
            let entry = self.entries[self.place(i)];
            if entry.asid != asid {
                self.entries[self.place(kept)] = entry;
                kept += 1;
            }
        }
        self.len = kept;
    }
}
