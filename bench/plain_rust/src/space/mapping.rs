//! Mappings of files: mmap, munmap and write-back (MIT 6.1810, mmap lab).

use super::{round_up, Mapping, Space, MAPPINGS};
use crate::entry::{index_of, max_va, named, D, PAGE, RIGHT_R, RIGHT_W, RIGHT_X};
use crate::files::{Files, Shelf};
use crate::frames::{Frame, Store, WORDS};
use crate::reply::Refusal;

const MAPPING_LIMIT: u64 = 1_048_576;
const PROT_READ: u64 = 1;
const PROT_WRITE: u64 = 2;
const PROT_EXEC: u64 = 4;
const MAP_SHARED: u64 = 1;
const MAP_PRIVATE: u64 = 2;

/// The rights that PROT grants: writing includes reading.
fn rights_of(prot: u64) -> u8 {
    let mut rights = 0;
    if prot & (PROT_READ | PROT_WRITE) != 0 {
        rights |= RIGHT_R;
    }
    if prot & PROT_WRITE != 0 {
        rights |= RIGHT_W;
    }
    if prot & PROT_EXEC != 0 {
        rights |= RIGHT_X;
    }
    rights
}

impl<const LEVELS: usize> Space<LEVELS> {
    /// Maps a file from its beginning; returns the address.
    pub fn mmap<F: Files>(
        &mut self,
        files: &F,
        len: u64,
        prot: u64,
        flags: u64,
        file: u64,
    ) -> Result<u64, Refusal> {
        let good = (1..=MAPPING_LIMIT).contains(&len) && (1..=7).contains(&prot);
        let shared = flags == MAP_SHARED;
        let writable = match files.writable(file) {
            Some(writable) if good && (shared || flags == MAP_PRIVATE) => writable,
            _ => return Err(Refusal::BadArgument),
        };
        if shared && prot & PROT_WRITE != 0 && !writable {
            return Err(Refusal::FileNotWritable);
        }
        if self.mappings.len() == MAPPINGS {
            return Err(Refusal::MappingsFull);
        }
        let pages = round_up(len);
        let (at, end) = self.highest_gap(pages);
        let first = end.checked_sub(pages).ok_or(Refusal::NoRoom)?;
        if first < round_up(self.size) {
            return Err(Refusal::NoRoom);
        }
        let mapping = Mapping {
            first,
            end,
            offset: 0,
            file: file as u8,
            rights: rights_of(prot),
            shared,
        };
        self.mappings.insert(at, mapping);
        Ok(first * PAGE)
    }

    /// The place in the list and the end of the highest gap between mappings that has this number of pages; if none has, of
    /// what is below all mappings.
    fn highest_gap(&self, pages: u64) -> (usize, u64) {
        let mut end = Self::TRAPFRAME_PAGE;
        let mut at = self.mappings.len();
        while at > 0 && end - self.mappings[at - 1].end < pages {
            at -= 1;
            end = self.mappings[at].first;
        }
        (at, end)
    }

    /// Unmaps one mapping, or its beginning or end. Stored pages are written back first. Returns whether pages were dropped.
    pub fn munmap<S: Store, F: Files>(
        &mut self,
        store: &mut S,
        files: &mut F,
        va: u64,
        len: u64,
    ) -> Result<bool, Refusal> {
        if !va.is_multiple_of(PAGE) || len == 0 || va >= max_va(LEVELS) {
            return Err(Refusal::BadArgument);
        }
        let first = va / PAGE;
        let end = first + round_up(len);
        let inside = |m: &Mapping| m.first <= first && end <= m.end;
        let at = self.mappings.iter().position(inside);
        let at = at.ok_or(Refusal::BadArgument)?;
        let mapping = self.mappings[at];
        if first != mapping.first && end != mapping.end {
            return Err(Refusal::HoleInMapping);
        }
        if mapping.written_back() {
            let pages = self.stored(store, first, end);
            if pages > 0 {
                let mut shelf = files.open();
                if !shelf.promise(pages) {
                    return Err(Refusal::JournalFull);
                }
                self.write_back(store, &mut shelf, first, end);
            }
        }
        let changed = self.drop_pages(store, first, end);
        self.cut(at, first, end);
        Ok(changed)
    }

    /// Takes the pages from `first` to before `end`, which touch an end of the mapping, out of it.
    fn cut(&mut self, at: usize, first: u64, end: u64) {
        let mapping = &mut self.mappings[at];
        if first != mapping.first {
            mapping.end = first;
        } else if end != mapping.end {
            mapping.offset += (end - first) as u32;
            mapping.first = end;
        } else {
            self.mappings.remove(at);
        }
    }

    /// Calls `each` with the table, the page and the leaf of every settled page from `first` to before `end` whose leaf has D,
    /// in ascending order. The pages are of a shared writable mapping.
    fn each_stored<S: Store>(
        &self,
        store: &mut S,
        first: u64,
        end: u64,
        mut each: impl FnMut(&mut S, Frame, u64, u64),
    ) {
        let from = self.first_table(first);
        for table in &self.tables[from..] {
            let base = u64::from(table.prefix) << 9;
            if base >= end {
                break;
            }
            if table.live == 0 {
                continue;
            }
            for page in first.max(base)..end.min(base + WORDS as u64) {
                let word = store.load(table.frame, index_of(page));
                if word & D != 0 {
                    each(store, table.frame, page, word);
                }
            }
        }
    }

    /// The number of pages from `first` to before `end` that have the stored mark.
    fn stored<S: Store>(&self, store: &mut S, first: u64, end: u64) -> u64 {
        let mut count = 0;
        self.each_stored(store, first, end, |_, _, _, _| count += 1);
        count
    }

    /// Removes all stored marks: those of a child, which has stored nothing.
    pub(super) fn clear_stored<S: Store>(&self, store: &mut S) {
        for m in self.mappings.iter().filter(|m| m.written_back()) {
            self.each_stored(store, m.first, m.end, |store, table, page, word| {
                store.store(table, index_of(page), word & !D);
            });
        }
    }

    /// The number of pages of all mappings that have the stored mark.
    pub(super) fn pages_to_write<S: Store>(&self, store: &mut S) -> u64 {
        let back = self.mappings.iter().filter(|m| m.written_back());
        back.map(|m| self.stored(store, m.first, m.end)).sum()
    }

    /// Writes the pages from `first` to before `end` that have the stored mark to their files, in ascending order.
    pub(super) fn write_back<S: Store>(
        &self,
        store: &mut S,
        shelf: &mut Shelf,
        first: u64,
        end: u64,
    ) {
        for m in self.mappings.iter().filter(|m| m.written_back()) {
            let (first, end) = (first.max(m.first), end.min(m.end));
            self.each_stored(store, first, end, |store, _, page, word| {
                store.read_bytes(named(word), 0, shelf.page(m.file, m.place(page)));
            });
        }
    }
}
