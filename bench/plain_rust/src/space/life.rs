//! How a space begins and ends: start, exec, exit, and the end of a process by a rule.

use super::{Region, Space, TableCount};
use crate::entry::{index_of, leaf, user_leaf, PAGE, R, RIGHT_R, RIGHT_W};
use crate::files::Files;
use crate::frames::{Frame, Store};
use crate::image::{check, Image, Placed};
use crate::reply::Refusal;

impl<const LEVELS: usize> Space<LEVELS> {
    /// Builds the space of these segments. `trapframe` is `None` if the space needs a frame for it. Returns `None` if too few
    /// frames are free.
    fn build<S: Store>(
        store: &mut S,
        placed: &[Placed<'_>],
        trapframe: Option<Frame>,
    ) -> Option<Space<LEVELS>> {
        let top = placed.last().map_or(0, |p| p.first + p.pages);
        let need = Self::frames_of(placed, top) + u64::from(trapframe.is_none());
        if !store.reserve(need) {
            return None;
        }
        let trapframe = match trapframe {
            Some(frame) => frame,
            None => {
                store.share(0);
                store.claim()
            }
        };
        let mut space = Space::empty(store, trapframe);
        for p in placed {
            space.add_region(store, p.first, p.pages, p.rights, p.bytes);
        }
        space.add_region(store, top, 1, 0, &[]);
        space.add_region(store, top + 1, 1, RIGHT_R | RIGHT_W, &[]);
        space.heap_base = (top + 2) * PAGE;
        space.size = space.heap_base;
        Some(space)
    }

    /// The frames that a space takes, without its trapframe. `top` is the page of the guard.
    fn frames_of(placed: &[Placed<'_>], top: u64) -> u64 {
        let prefix = |page: u64| (page >> 9) as u32;
        let mut pages = 2;
        let mut tables = TableCount::<LEVELS>::new();
        for p in placed {
            pages += p.pages;
            tables.add(prefix(p.first), prefix(p.first + p.pages - 1));
        }
        tables.add(prefix(top), prefix(top + 1));
        tables.add(Self::TOP, Self::TOP);
        pages + tables.tables
    }

    /// Adds a region and settles its pages, which begin with `bytes`. The frames are reserved.
    fn add_region<S: Store>(
        &mut self,
        store: &mut S,
        first: u64,
        pages: u64,
        rights: u8,
        bytes: &[u8],
    ) {
        let end = first + pages;
        let region = Region { first, end, rights };
        self.regions
            .push(region)
            .expect("no more regions than segments, guard and stack");
        let mut texts = bytes.chunks(PAGE as usize);
        let mut page = first;
        while page < end {
            let at = self.ensure_table(store, (page >> 9) as u32);
            let table = self.tables[at].frame;
            let stop = end.min(((page >> 9) + 1) << 9);
            self.tables[at].live += (stop - page) as u32;
            for page in page..stop {
                let frame = store.claim();
                store.set_page(frame, texts.next().unwrap_or(&[]));
                let word = match rights {
                    0 => leaf(frame, R),
                    _ => user_leaf(frame, rights, true),
                };
                store.store(table, index_of(page), word);
            }
            page = stop;
        }
    }

    /// The space of a new process.
    pub fn start<S: Store>(store: &mut S, image: &Image) -> Result<Space<LEVELS>, Refusal> {
        let placed = check::<LEVELS>(image).map_err(Refusal::BadImage)?;
        Space::build(store, &placed, None).ok_or(Refusal::NoFrame)
    }

    /// Replaces the space by one of the image. The old frames are dropped after the new ones are taken.
    pub fn exec<S: Store, F: Files>(
        &mut self,
        store: &mut S,
        files: &mut F,
        image: &Image,
    ) -> Result<(), Refusal> {
        let placed = check::<LEVELS>(image).map_err(Refusal::BadImage)?;
        let pages = self.pages_to_write(store);
        let new = if pages == 0 {
            Space::build(store, &placed, Some(self.trapframe)).ok_or(Refusal::NoFrame)?
        } else {
            let mut shelf = files.open();
            if !shelf.promise(pages) {
                return Err(Refusal::JournalFull);
            }
            let new = Space::build(store, &placed, Some(self.trapframe));
            let new = new.ok_or(Refusal::NoFrame)?;
            self.write_back(store, &mut shelf, 0, Self::TRAPFRAME_PAGE);
            new
        };
        self.drop_frames(store);
        *self = new;
        Ok(())
    }

    /// Ends the space by an exit or a rule: stored pages are written back, and all frames are dropped. If it is refused,
    /// nothing has changed.
    pub fn finish<S: Store, F: Files>(
        &mut self,
        store: &mut S,
        files: &mut F,
    ) -> Result<(), Refusal> {
        let pages = self.pages_to_write(store);
        if pages > 0 {
            let mut shelf = files.open();
            if !shelf.promise(pages) {
                return Err(Refusal::JournalFull);
            }
            self.write_back(store, &mut shelf, 0, Self::TRAPFRAME_PAGE);
        }
        self.destroy(store);
        Ok(())
    }

    /// Drops all frames. Nothing is written back.
    pub fn destroy<S: Store>(&mut self, store: &mut S) {
        self.drop_frames(store);
        store.release(self.trapframe);
        store.release(0);
    }

    /// Drops pages and page tables.
    fn drop_frames<S: Store>(&mut self, store: &mut S) {
        self.drop_pages(store, 0, Self::TRAPFRAME_PAGE);
        for table in &self.tables {
            store.release(table.frame);
        }
        for mid in &self.mids {
            store.release(mid.1);
        }
        for high in &self.highs {
            store.release(high.1);
        }
        store.release(self.root);
    }
}
