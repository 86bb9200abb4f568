//! Steps that schedule a process, enter the kernel and return from it.

use super::{Answer, Machine, LIVE};
use crate::reply::{Phase, Refusal, Reply};

impl<const LEVELS: usize> Machine<'_, LEVELS> {
    /// Schedules the process of slot `to`; `None` leaves the hart idle.
    pub(super) fn switch(&mut self, number: u8, to: Option<u8>) -> Answer {
        let hart = self.hart(number)?;
        let (phase, from) = (hart.phase, hart.slot);
        if phase != Phase::Idle && phase != Phase::Kernel {
            return Err(Refusal::Impossible(phase));
        }
        if let Some(to) = to {
            let process = self.slots.get_mut(usize::from(to)).and_then(Option::as_mut);
            match process {
                Some(process) if process.hart.is_none() => process.hart = Some(number),
                _ => return Err(Refusal::Impossible(phase)),
            }
        }
        if phase == Phase::Kernel {
            self.process(from).hart = None;
        }
        let hart = self.hart(number)?;
        match to {
            Some(to) => {
                hart.phase = Phase::Kernel;
                hart.slot = usize::from(to);
            }
            None => hart.phase = Phase::Idle,
        }
        Ok(Reply::Done)
    }

    /// The process traps voluntarily.
    pub(super) fn trap(&mut self, hart: u8) -> Answer {
        let hart = self.hart(hart)?;
        if hart.phase != Phase::User {
            return Err(Refusal::Impossible(hart.phase));
        }
        hart.phase = Phase::Enter0;
        Ok(Reply::Done)
    }

    /// The next instruction of kernel entry, or of the return.
    pub(super) fn next(&mut self, number: u8) -> Answer {
        let asid = self.asid;
        let hart = self.hart(number)?;
        let (phase, fence) = match hart.phase {
            Phase::Enter0 => (Phase::Enter1, true),
            Phase::Enter1 => (Phase::Enter2, false),
            Phase::Enter2 => (Phase::Kernel, true),
            Phase::Kernel => (Phase::Leave1, true),
            Phase::Leave1 => (Phase::Leave2, false),
            Phase::Leave2 => (Phase::User, true),
            phase => return Err(Refusal::Impossible(phase)),
        };
        if hart.phase == Phase::Kernel {
            let slot = hart.slot;
            if self.process(slot).pending.is_some() {
                return Err(Refusal::Impossible(Phase::Kernel));
            }
        }
        let hart = &mut self.harts[usize::from(number)];
        hart.phase = phase;
        if !asid {
            if fence {
                hart.buffer.fence_all();
            }
        } else if phase == Phase::User {
            let process = self.slots[hart.slot].as_mut().expect(LIVE);
            if process.marks & 1 << number != 0 {
                process.marks &= !(1 << number);
                hart.buffer.fence(hart.slot as u8 + 1);
            }
        }
        Ok(Reply::Done)
    }

    /// Three instructions: kernel entry or the return.
    pub(super) fn three(&mut self, hart: u8) -> Answer {
        self.next(hart)?;
        self.next(hart)?;
        self.next(hart)
    }

    /// Schedules a process and returns to it.
    pub(super) fn on(&mut self, hart: u8, slot: u8) -> Answer {
        self.switch(hart, Some(slot))?;
        self.three(hart)
    }

    /// A trap and kernel entry.
    pub(super) fn enter(&mut self, hart: u8) -> Answer {
        self.trap(hart)?;
        self.three(hart)
    }

    /// Kernel entry after a fault, its service and, if the page is ready, the return.
    pub(super) fn fix(&mut self, hart: u8) -> Answer {
        self.three(hart)?;
        let served = self.serve(hart)?;
        if served == Reply::Ready {
            self.three(hart)?;
        }
        Ok(served)
    }
}
