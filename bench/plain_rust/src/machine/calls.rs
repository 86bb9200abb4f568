//! Starts, the service of faults, and kernel calls.

use super::{Answer, Machine, Pending, Process, LIVE};
use crate::reply::{Phase, Refusal, Reply, Stop};
use crate::script::Command;
use crate::space::copying::Copied;
use crate::space::Space;

impl<const LEVELS: usize> Machine<'_, LEVELS> {
    /// Starts a process of the image in the lowest free slot.
    pub(super) fn start(&mut self, image: u8) -> Answer {
        let slot = self.free_slot()?;
        let space = Space::start(&mut self.store, &self.images[usize::from(image)])?;
        self.slots[slot] = Some(Process::new(space));
        Ok(Reply::Slot(slot as u8))
    }

    /// The slot of a hart that is in the kernel.
    fn in_kernel(&mut self, hart: u8) -> Result<usize, Refusal> {
        let hart = self.hart(hart)?;
        match hart.phase {
            Phase::Kernel => Ok(hart.slot),
            phase => Err(Refusal::Impossible(phase)),
        }
    }

    /// `in_kernel`, for a process without a fault that waits for its service.
    fn caller(&mut self, hart: u8) -> Result<usize, Refusal> {
        let slot = self.in_kernel(hart)?;
        match self.process(slot).pending {
            None => Ok(slot),
            Some(_) => Err(Refusal::Impossible(Phase::Kernel)),
        }
    }

    /// Serves the pending fault.
    pub(super) fn serve(&mut self, hart: u8) -> Answer {
        let slot = self.in_kernel(hart)?;
        let process = self.slots[slot].as_mut().expect(LIVE);
        let Some(Pending { access, va, width }) = process.pending.take() else {
            return Err(Refusal::Impossible(Phase::Kernel));
        };
        let space = &mut process.space;
        match space.serve(&mut self.store, &mut self.shelf, access, va, width) {
            Ok(changed) => {
                if changed {
                    process.marks = !0;
                }
                Ok(Reply::Ready)
            }
            Err(Stop::Rule(rule)) => {
                self.end(hart, slot);
                Ok(Reply::Ended(rule))
            }
            Err(Stop::JournalFull) => unreachable!("one thread may read any number of pages"),
        }
    }

    /// Ends the process of a hart in the kernel.
    fn end(&mut self, hart: u8, slot: usize) {
        let mut process = self.slots[slot].take().expect(LIVE);
        let ended = process.space.finish(&mut self.store, &mut self.shelf);
        ended.expect("one thread may write any number of pages");
        self.harts[usize::from(hart)].phase = Phase::Idle;
    }

    /// A kernel call of a script.
    #[inline(always)]
    pub(super) fn call(&mut self, call: Command) -> Answer {
        match call {
            Command::Fork { hart, .. } => self.fork(hart),
            Command::Exec { hart, image } => self.exec(hart, image),
            Command::Sbrk { hart, delta } => self.sbrk(hart, delta),
            Command::Mmap {
                hart,
                prot,
                flags,
                file,
                len,
            } => self.mmap(hart, len, prot, flags, file),
            Command::Munmap { hart, va, len } => self.munmap(hart, va, len),
            Command::CopyIn { hart, count, va } => self.copy_in(hart, va, count),
            Command::CopyOut {
                hart,
                count,
                at,
                va,
            } => self.copy_out(hart, va, at, count),
            Command::Exit { hart, status } => self.exit(hart, status),
            _ => unreachable!("all other lines have a step of their own"),
        }
    }

    fn exit(&mut self, hart: u8, status: i32) -> Answer {
        let slot = self.caller(hart)?;
        self.end(hart, slot);
        Ok(Reply::Exited(status))
    }

    fn fork(&mut self, hart: u8) -> Answer {
        let slot = self.caller(hart)?;
        let child = self.free_slot()?;
        let parent = self.slots[slot].as_mut().expect(LIVE);
        let forked = parent.space.fork(&mut self.store);
        let (space, changed) = forked.ok_or(Refusal::NoFrame)?;
        if changed {
            parent.marks = !0;
        }
        self.slots[child] = Some(Process::new(space));
        Ok(Reply::Slot(child as u8))
    }

    fn exec(&mut self, hart: u8, image: u8) -> Answer {
        let slot = self.caller(hart)?;
        let process = self.slots[slot].as_mut().expect(LIVE);
        let image = &self.images[usize::from(image)];
        process
            .space
            .exec(&mut self.store, &mut self.shelf, image)?;
        process.marks = !0;
        Ok(Reply::Done)
    }

    fn sbrk(&mut self, hart: u8, delta: i64) -> Answer {
        let slot = self.caller(hart)?;
        let process = self.slots[slot].as_mut().expect(LIVE);
        let (old, changed) = process.space.sbrk(&mut self.store, delta)?;
        if changed {
            process.marks = !0;
        }
        Ok(Reply::Old(old))
    }

    fn mmap(&mut self, hart: u8, len: u32, prot: u8, flags: u8, file: u8) -> Answer {
        let slot = self.caller(hart)?;
        let process = self.slots[slot].as_mut().expect(LIVE);
        let (prot, flags, file) = (prot.into(), flags.into(), file.into());
        let space = &mut process.space;
        let at = space.mmap(&self.shelf, len.into(), prot, flags, file)?;
        Ok(Reply::At(at))
    }

    fn munmap(&mut self, hart: u8, va: u64, len: u64) -> Answer {
        let slot = self.caller(hart)?;
        let process = self.slots[slot].as_mut().expect(LIVE);
        let space = &mut process.space;
        let changed = space.munmap(&mut self.store, &mut self.shelf, va, len)?;
        if changed {
            process.marks = !0;
        }
        Ok(Reply::Done)
    }

    fn copy_in(&mut self, hart: u8, va: u64, count: u16) -> Answer {
        let slot = self.caller(hart)?;
        let process = self.slots[slot].as_mut().expect(LIVE);
        let out = &mut self.scratch[..usize::from(count)];
        let space = &mut process.space;
        let Copied {
            done,
            stop,
            changed,
        } = space.copy_in(&mut self.store, &mut self.shelf, va, out);
        if changed {
            process.marks = !0;
        }
        Ok(match stop {
            None => Reply::CopiedIn(done),
            Some(stop) => Reply::ShortIn(stop, done),
        })
    }

    fn copy_out(&mut self, hart: u8, va: u64, at: u32, count: u16) -> Answer {
        let slot = self.caller(hart)?;
        let process = self.slots[slot].as_mut().expect(LIVE);
        let bytes = &self.arena[at as usize..][..usize::from(count)];
        let space = &mut process.space;
        let Copied {
            done,
            stop,
            changed,
        } = space.copy_out(&mut self.store, &mut self.shelf, va, bytes);
        if changed {
            process.marks = !0;
        }
        Ok(match stop {
            None => Reply::CopiedOut(done),
            Some(stop) => Reply::ShortOut(stop, done),
        })
    }
}
