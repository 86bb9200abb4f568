//! What decides an access, and how a page is made ready for one.

use super::{Held, Mapping, Space};
use crate::entry::{index_of, leaf, max_va, named, trapframe, user_leaf, walk};
use crate::entry::{Access, COW, D, PAGE, W};
use crate::files::Files;
use crate::frames::{Frame, Store};
use crate::reply::{Rule, Stop};

impl<const LEVELS: usize> Space<LEVELS> {
    /// Rules 2 to 8.
    fn judge(&self, access: Access, va: u64) -> Result<Held, Rule> {
        if va >= max_va(LEVELS) {
            return Err(Rule::BeyondMax);
        }
        if va >= trapframe(LEVELS) {
            return Err(Rule::KernelPage);
        }
        let held = self.held(va / PAGE).ok_or(Rule::NoRegion)?;
        if held.rights == 0 {
            return Err(Rule::GuardPage);
        }
        if held.rights & access.right() == 0 {
            return Err(match access {
                Access::Load => Rule::NoRead,
                Access::Store => Rule::NoWrite,
                Access::Fetch => Rule::NoExec,
            });
        }
        Ok(held)
    }

    /// Serves an access that faulted; returns whether a leaf changed.
    pub fn serve<S: Store, F: Files>(
        &mut self,
        store: &mut S,
        files: &mut F,
        access: Access,
        va: u64,
        width: u8,
    ) -> Result<bool, Stop> {
        if va & u64::from(width - 1) != 0 {
            return Err(Stop::Rule(Rule::Misaligned));
        }
        let held = self.judge(access, va).map_err(Stop::Rule)?;
        self.make_resident(store, files, access, va / PAGE, held)
            .map(|(_, changed)| changed)
    }

    /// Makes the address's page ready for the access, whatever its alignment; returns its frame, and whether a leaf changed.
    #[inline]
    pub fn reach<S: Store, F: Files>(
        &mut self,
        store: &mut S,
        files: &mut F,
        access: Access,
        va: u64,
    ) -> Result<(Frame, bool), Stop> {
        let found = walk::<LEVELS, S>(store, self.root, va);
        if found.user(access) {
            if let Some(frame) = found.frame(store, va) {
                return Ok((frame, false));
            }
        }
        let held = self.judge(access, va).map_err(Stop::Rule)?;
        self.make_resident(store, files, access, va / PAGE, held)
    }

    /// Makes a page ready for an access that `held` grants, as `reach`.
    #[inline(never)]
    fn make_resident<S: Store, F: Files>(
        &mut self,
        store: &mut S,
        files: &mut F,
        access: Access,
        page: u64,
        held: Held,
    ) -> Result<(Frame, bool), Stop> {
        let index = index_of(page);
        let prefix = (page >> 9) as u32;
        let table = self.find_table(prefix);
        if let Ok(at) = table {
            let table = self.tables[at].frame;
            let word = store.load(table, index);
            if word != 0 {
                if access != Access::Store || word & (W | D) == W | D {
                    return Ok((named(word), false));
                }
                return open_to_stores(store, table, index, word).map(|frame| (frame, true));
            }
        }
        let need = match table {
            Ok(_) => 1,
            Err(_) => 1 + self.missing_tables(page),
        };
        let mapping = held.mapping.map(|at| self.mappings[at]);
        let frame = filled_frame(store, files, mapping, page, need)?;
        let at = match table {
            Ok(at) => at,
            Err(_) => self.ensure_table(store, prefix),
        };
        let dirty = access == Access::Store || !mapping.is_some_and(|m| m.written_back());
        let table = &mut self.tables[at];
        table.live += 1;
        store.store(table.frame, index, user_leaf(frame, held.rights, dirty));
        Ok((frame, true))
    }
}

/// Reserves `need` frames and claims one of them for the page: with zeros or, in a mapping, with the bytes of its file.
#[inline(always)]
fn filled_frame<S: Store, F: Files>(
    store: &mut S,
    files: &mut F,
    mapping: Option<Mapping>,
    page: u64,
    need: u64,
) -> Result<Frame, Stop> {
    let Some(mapping) = mapping else {
        if !store.reserve(need) {
            return Err(Stop::Rule(Rule::NoFrame));
        }
        let frame = store.claim();
        store.zero(frame);
        return Ok(frame);
    };
    let mut shelf = files.open();
    if !shelf.promise(1) {
        return Err(Stop::JournalFull);
    }
    if !store.reserve(need) {
        return Err(Stop::Rule(Rule::NoFrame));
    }
    let frame = store.claim();
    store.set_page(frame, shelf.page(mapping.file, mapping.place(page)));
    Ok(frame)
}

/// Makes a settled page ready for stores, and sets the stored mark. If the page has the fork mark, a sole holder takes the
/// frame over, any other a copy of it.
fn open_to_stores<S: Store>(
    store: &mut S,
    table: Frame,
    index: usize,
    word: u64,
) -> Result<Frame, Stop> {
    let old = named(word);
    let flags = word & 0x3ff & !COW | W | D;
    if word & COW == 0 || store.count(old) == 1 {
        store.store(table, index, leaf(old, flags));
        return Ok(old);
    }
    if !store.reserve(1) {
        return Err(Stop::Rule(Rule::NoFrame));
    }
    let new = store.claim();
    store.copy_page(old, new);
    store.store(table, index, leaf(new, flags));
    store.release(old);
    Ok(new)
}
