//! The address space of a process: its page tables, and the regions, heap and mappings that decide what it may access.

pub mod copying;
mod forking;
mod life;
mod mapping;
mod resident;

use crate::entry::{index_of, leaf, named, pointer, trampoline, trapframe};
use crate::entry::{D, PAGE, R, RIGHT_R, RIGHT_W, SV48, W, X};
use crate::frames::{Frame, Store, WORDS};
use crate::list::List;
use crate::reply::Refusal;

const MAPPINGS: usize = 16;
/// The segments, the guard page and the stack.
const REGIONS: usize = crate::image::SEGMENTS + 2;

/// Pages of the image, or its guard page, which has no rights, or its stack. `end` is the page after the last.
#[derive(Clone, Copy, Default)]
struct Region {
    first: u64,
    end: u64,
    rights: u8,
}

/// Pages of a file. `end` is the page after the last.
#[derive(Clone, Copy, Default)]
struct Mapping {
    first: u64,
    end: u64,
    /// The page of the file that `first` shows.
    offset: u32,
    file: u8,
    rights: u8,
    shared: bool,
}

impl Mapping {
    /// Whether its stored pages are written back to the file.
    fn written_back(&self) -> bool {
        self.shared && self.rights & RIGHT_W != 0
    }

    /// The byte of the file at which the page begins.
    fn place(&self, page: u64) -> usize {
        (u64::from(self.offset) + page - self.first) as usize * PAGE as usize
    }
}

/// A page table of level 0. `prefix` is its pages' number without the last nine bits.
#[derive(Clone, Copy)]
struct Table {
    prefix: u32,
    frame: Frame,
    /// How many pages of the process it maps.
    live: u32,
}

/// What a region, the heap or a mapping grants for one page.
#[derive(Clone, Copy)]
struct Held {
    rights: u8,
    /// The mapping's place in the list.
    mapping: Option<usize>,
}

/// The space of a process. `LEVELS` is `SV39` or `SV48`.
pub struct Space<const LEVELS: usize> {
    pub root: Frame,
    trapframe: Frame,
    heap_base: u64,
    /// The end of the heap.
    size: u64,
    /// Tables of level 2 that are not the root, by page >> 27, in ascending order: none under Sv39.
    highs: Vec<(u32, Frame)>,
    /// Tables of level 1, by page >> 18, in ascending order.
    mids: Vec<(u32, Frame)>,
    /// Tables of level 0, by page >> 9, in ascending order.
    tables: Vec<Table>,
    regions: List<Region, REGIONS>,
    mappings: List<Mapping, MAPPINGS>,
}

/// Counts the page tables that some pages need. The pages come in ascending order.
struct TableCount<const LEVELS: usize> {
    last: Option<u32>,
    tables: u64,
}

impl<const LEVELS: usize> TableCount<LEVELS> {
    /// The root alone.
    fn new() -> TableCount<LEVELS> {
        TableCount {
            last: None,
            tables: 1,
        }
    }

    /// Adds the tables of level 0 from prefix `first` to `last`, and the tables above them.
    fn add(&mut self, first: u32, last: u32) {
        for level in 0..LEVELS - 1 {
            let above = |prefix: u32| prefix >> (9 * level);
            let before = self.last.map(above);
            let low = before.map_or(above(first), |b| above(first).max(b + 1));
            self.tables += u64::from((above(last) + 1).saturating_sub(low));
        }
        self.last = Some(last);
    }
}

/// The pages that this number of bytes needs.
fn round_up(size: u64) -> u64 {
    size.div_ceil(PAGE)
}

/// Makes an empty table and enters it into the table above. The frame is reserved.
fn new_table<S: Store>(store: &mut S, above: Frame, prefix: u32) -> Frame {
    let frame = store.claim();
    store.zero(frame);
    store.store(above, index_of(prefix.into()), pointer(frame));
    frame
}

impl<const LEVELS: usize> Space<LEVELS> {
    const TRAMPOLINE_PAGE: u64 = trampoline(LEVELS) / PAGE;
    const TRAPFRAME_PAGE: u64 = trapframe(LEVELS) / PAGE;
    /// The prefix of the table that maps trampoline and trapframe.
    const TOP: u32 = (Self::TRAPFRAME_PAGE >> 9) as u32;

    /// A space of trampoline and trapframe alone. The frames of its tables are reserved.
    fn empty<S: Store>(store: &mut S, trapframe: Frame) -> Space<LEVELS> {
        let root = store.claim();
        store.zero(root);
        let mut space = Space {
            root,
            trapframe,
            heap_base: 0,
            size: 0,
            highs: Vec::new(),
            mids: Vec::with_capacity(2),
            tables: Vec::with_capacity(4),
            regions: List::new(),
            mappings: List::new(),
        };
        let at = space.ensure_table(store, Self::TOP);
        let top = space.tables[at].frame;
        store.store(top, index_of(Self::TRAMPOLINE_PAGE), leaf(0, R | X));
        let trapframe = leaf(trapframe, R | W | D);
        store.store(top, index_of(Self::TRAPFRAME_PAGE), trapframe);
        space
    }

    fn find_table(&self, prefix: u32) -> Result<usize, usize> {
        self.tables.binary_search_by_key(&prefix, |t| t.prefix)
    }

    fn find_mid(&self, prefix: u32) -> Result<usize, usize> {
        self.mids.binary_search_by_key(&prefix, |m| m.0)
    }

    fn find_high(&self, prefix: u32) -> Result<usize, usize> {
        self.highs.binary_search_by_key(&prefix, |h| h.0)
    }

    /// The place of the table of level 0 with this prefix. Makes it, and those above it, if they are missing; their frames are
    /// reserved.
    fn ensure_table<S: Store>(&mut self, store: &mut S, prefix: u32) -> usize {
        let at = match self.find_table(prefix) {
            Ok(at) => return at,
            Err(at) => at,
        };
        let above = self.ensure_mid(store, prefix >> 9);
        let frame = new_table(store, above, prefix);
        let table = Table {
            prefix,
            frame,
            live: 0,
        };
        self.tables.insert(at, table);
        at
    }

    /// The table of level 1 with this prefix, as `ensure_table`.
    #[inline(always)]
    fn ensure_mid<S: Store>(&mut self, store: &mut S, prefix: u32) -> Frame {
        let at = match self.find_mid(prefix) {
            Ok(at) => return self.mids[at].1,
            Err(at) => at,
        };
        let above = match LEVELS {
            SV48 => self.ensure_high(store, prefix >> 9),
            _ => self.root,
        };
        let frame = new_table(store, above, prefix);
        self.mids.insert(at, (prefix, frame));
        frame
    }

    /// The table of level 2 with this prefix, as `ensure_table`, under Sv48.
    fn ensure_high<S: Store>(&mut self, store: &mut S, prefix: u32) -> Frame {
        let at = match self.find_high(prefix) {
            Ok(at) => return self.highs[at].1,
            Err(at) => at,
        };
        let frame = new_table(store, self.root, prefix);
        self.highs.insert(at, (prefix, frame));
        frame
    }

    /// How many tables are missing on the way to this page.
    fn missing_tables(&self, page: u64) -> u64 {
        let prefix = (page >> 9) as u32;
        if self.find_table(prefix).is_ok() {
            0
        } else if self.find_mid(prefix >> 9).is_ok() {
            1
        } else if LEVELS < SV48 || self.find_high(prefix >> 18).is_ok() {
            2
        } else {
            3
        }
    }

    /// The first table in the list that maps pages from `first` on.
    fn first_table(&self, first: u64) -> usize {
        let before = |t: &Table| u64::from(t.prefix) < first >> 9;
        self.tables.partition_point(before)
    }

    /// Drops the settled pages from `first` to before `end`; returns whether there was one. Tables stay, even empty.
    fn drop_pages<S: Store>(&mut self, store: &mut S, first: u64, end: u64) -> bool {
        let mut any = false;
        let from = self.first_table(first);
        for table in &mut self.tables[from..] {
            let base = u64::from(table.prefix) << 9;
            if base >= end {
                break;
            }
            let mut index = (first.max(base) - base) as usize;
            let stop = (end - base).min(WORDS as u64) as usize;
            while index < stop && table.live > 0 {
                let word = store.load(table.frame, index);
                if word != 0 {
                    store.release(named(word));
                    store.store(table.frame, index, 0);
                    table.live -= 1;
                    any = true;
                }
                index += 1;
            }
        }
        any
    }

    /// The region, heap or mapping that has this page. `None`: there is none.
    fn held(&self, page: u64) -> Option<Held> {
        if page < self.heap_base / PAGE {
            let region = self.regions.iter().find(|r| page < r.end)?;
            let rights = region.rights;
            let mapping = None;
            return (region.first <= page).then_some(Held { rights, mapping });
        }
        if page < round_up(self.size) {
            return Some(Held {
                rights: RIGHT_R | RIGHT_W,
                mapping: None,
            });
        }
        let at = self.mappings.iter().position(|m| page < m.end)?;
        let mapping = &self.mappings[at];
        (mapping.first <= page).then_some(Held {
            rights: mapping.rights,
            mapping: Some(at),
        })
    }

    /// Moves the end of the heap by `delta` bytes; returns the old size, and whether pages were dropped.
    pub fn sbrk<S: Store>(&mut self, store: &mut S, delta: i64) -> Result<(u64, bool), Refusal> {
        let old = self.size;
        let new = i128::from(old) + i128::from(delta);
        if new < i128::from(self.heap_base) {
            return Err(Refusal::BadSize);
        }
        let lowest = self
            .mappings
            .first()
            .map_or(Self::TRAPFRAME_PAGE, |m| m.first);
        if new > i128::from(lowest) * i128::from(PAGE) {
            return Err(Refusal::NoRoom);
        }
        self.size = new as u64;
        let (first, end) = (round_up(self.size), round_up(old));
        let changed = first < end && self.drop_pages(store, first, end);
        Ok((old, changed))
    }
}
