//! Steps that use or change a buffer, and accesses to memory.

use super::buffer::Entry;
use super::{Answer, Machine, Pending, KERNEL_ASID};
use crate::entry::{trampoline, walk, Access, Leaf};
use crate::frames::{Frame, Store};
use crate::reply::{Phase, Refusal, Reply};
use crate::script::WALK;

impl<const LEVELS: usize> Machine<'_, LEVELS> {
    /// The ASID of a slot's process.
    fn asid_of(&self, slot: usize) -> u8 {
        if self.asid {
            slot as u8 + 1
        } else {
            KERNEL_ASID
        }
    }

    /// The table and the ASID that the hart's `satp` names.
    fn satp(&mut self, hart: u8) -> Result<(Frame, u8), Refusal> {
        let hart = self.hart(hart)?;
        let slot = hart.slot;
        match hart.phase {
            Phase::User | Phase::Enter0 | Phase::Enter1 | Phase::Leave2 => {
                let root = self.process(slot).space.root;
                Ok((root, self.asid_of(slot)))
            }
            _ => Ok((self.kernel_root, KERNEL_ASID)),
        }
    }

    /// Keeps the outcome of a walk as the newest entry of the buffer.
    pub(super) fn fill(&mut self, number: u8, va: u64) -> Answer {
        let (root, asid) = self.satp(number)?;
        let leaf = walk::<LEVELS, _>(&self.store, root, va);
        let page = va >> 12;
        let entry = Entry { page, leaf, asid };
        Ok(Reply::Entry(self.hart(number)?.buffer.add(entry)))
    }

    /// Removes a buffer entry.
    pub(super) fn evict(&mut self, hart: u8, entry: u8) -> Answer {
        match self.hart(hart)?.buffer.remove(entry) {
            true => Ok(Reply::Done),
            false => Err(Refusal::NoEntry),
        }
    }

    /// The leaf of a walk, or that of the buffer entry `via`.
    #[inline(always)]
    fn leaf(
        &self,
        hart: usize,
        (root, asid): (Frame, u8),
        va: u64,
        via: u8,
    ) -> Result<Leaf, Refusal> {
        if via == WALK {
            return Ok(walk::<LEVELS, _>(&self.store, root, va));
        }
        match self.harts[hart].buffer.get(via) {
            Some(entry) if entry.page == va >> 12 && entry.asid == asid => Ok(entry.leaf),
            _ => Err(Refusal::NoEntry),
        }
    }

    /// A fetch of the kernel's code in the trampoline page.
    pub(super) fn tramp(&mut self, number: u8, offset: u16, via: u8) -> Answer {
        let phase = self.hart(number)?.phase;
        if !offset.is_multiple_of(4) || offset >= 4096 {
            return Err(Refusal::BadArgument);
        }
        if matches!(phase, Phase::Idle | Phase::User | Phase::Kernel) {
            return Err(Refusal::Impossible(phase));
        }
        let satp = self.satp(number)?;
        let va = trampoline(LEVELS) + u64::from(offset);
        let leaf = self.leaf(usize::from(number), satp, va, via)?;
        let frame = leaf.frame(&self.store, va);
        Ok(match frame.filter(|_| leaf.supervisor_fetch()) {
            Some(frame) => Reply::InFrame(frame),
            None => Reply::Fault(12),
        })
    }

    /// A fetch, a load or a store from user mode.
    #[inline(always)]
    pub(super) fn access(
        &mut self,
        number: u8,
        access: Access,
        width: u8,
        va: u64,
        value: u64,
        via: u8,
    ) -> Answer {
        let hart = self.hart(number)?;
        if hart.phase != Phase::User {
            return Err(Refusal::Impossible(hart.phase));
        }
        let slot = hart.slot;
        let satp = (self.process(slot).space.root, self.asid_of(slot));
        let leaf = self.leaf(usize::from(number), satp, va, via)?;
        let aligned = va & u64::from(width - 1) == 0;
        if aligned && leaf.user(access) {
            if let Some(frame) = leaf.frame(&self.store, va) {
                let at = (va & 4095) as usize;
                if access == Access::Store {
                    self.store.write_value(frame, at, width, value);
                    return Ok(Reply::Stored);
                }
                return Ok(Reply::Value(self.store.read_value(frame, at, width)));
            }
        }
        self.process(slot).pending = Some(Pending { access, va, width });
        self.harts[usize::from(number)].phase = Phase::Enter0;
        let cause = match aligned {
            true => access.page_fault(),
            false => access.misaligned(),
        };
        Ok(Reply::Fault(cause))
    }
}
