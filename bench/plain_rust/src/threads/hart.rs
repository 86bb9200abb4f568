//! A hart: takes processes from the run queue and makes their calls.

use super::process::{Entry, Finished, Outcome, Process, Reply};
use super::queue::{next, Batch};
use super::World;
use crate::entry::Access;
use crate::files::Locked;
use crate::frames::Store;
use crate::reply::{Refusal, Rule, Stop};
use crate::script::{Command, LIST_LIMIT};
use crate::shared_frames::Seat;
use std::hint::black_box;
use std::sync::atomic::Ordering;

/// The most calls of a process before it goes back to the queue.
const QUANTUM: usize = 8;
/// The greatest number of bytes of a `copyin`.
const SCRATCH: usize = 256;

/// What comes of a call.
enum Turn<'s> {
    /// The process goes on.
    Goes,
    Forked(Box<Process<'s>>),
    Over(Outcome),
}

pub struct Hart<'w, 's> {
    number: usize,
    world: &'w World<'s>,
    seat: Seat<'s>,
    files: Locked<'s>,
    scratch: [u8; SCRATCH],
}

impl<'w, 's> Hart<'w, 's> {
    pub fn new(world: &'w World<'s>, number: usize) -> Hart<'w, 's> {
        Hart {
            number,
            world,
            seat: Seat::new(world.frames, number, world.parts.len()),
            files: world.files,
            scratch: [0; SCRATCH],
        }
    }

    /// Makes the next call of the process.
    #[inline]
    fn call(&mut self, process: &mut Process<'s>) -> Turn<'s> {
        if process.calls == LIST_LIMIT {
            return self.drop_process(process);
        }
        let Some((&call, rest)) = process.list.split_first() else {
            return self.exit(process, 0);
        };
        process.list = rest;
        process.calls += 1;
        match call {
            Command::Use {
                access,
                width,
                va,
                value,
                ..
            } => return self.access(process, call, access, width, va, value),
            Command::Fork { list, .. } => return self.fork(process, call, list),
            Command::Exit { status, .. } => {
                process.calls -= 1;
                return self.exit(process, status);
            }
            Command::CopyIn { va, count, .. } => self.copy_in(process, call, va, count),
            _ => {
                let reply = self.other_call(process, call);
                process.note(call, reply);
            }
        }
        Turn::Goes
    }

    /// A call that neither ends the process nor returns bytes.
    #[inline(always)]
    fn other_call(&mut self, process: &mut Process<'s>, call: Command) -> Reply {
        let (seat, files) = (&mut self.seat, &mut self.files);
        let space = &mut process.space;
        match call {
            Command::Exec { image, .. } => {
                let image = &self.world.images[usize::from(image)];
                space
                    .exec(seat, files, image)
                    .map_or_else(Reply::Refused, |()| Reply::Done)
            }
            Command::Sbrk { delta, .. } => space
                .sbrk(seat, delta)
                .map_or_else(Reply::Refused, |(old, _)| Reply::Number(old)),
            Command::Mmap {
                len,
                prot,
                flags,
                file,
                ..
            } => space
                .mmap(files, len.into(), prot.into(), flags.into(), file.into())
                .map_or_else(Reply::Refused, Reply::Number),
            Command::Munmap { va, len, .. } => space
                .munmap(seat, files, va, len)
                .map_or_else(Reply::Refused, |_| Reply::Done),
            Command::CopyOut { va, at, count, .. } => {
                let bytes = &self.world.arena[at as usize..][..usize::from(count)];
                Reply::Number(space.copy_out(seat, files, va, bytes).done as u64)
            }
            _ => unreachable!("no call of a list"),
        }
    }

    fn copy_in(&mut self, process: &mut Process<'s>, call: Command, va: u64, count: u16) {
        let out = &mut self.scratch[..usize::from(count)];
        let space = &mut process.space;
        let copied = space.copy_in(&mut self.seat, &mut self.files, va, out);
        let bytes = Some(Box::from(&out[..copied.done]));
        process.journal.push(Entry {
            call,
            reply: Reply::Done,
            bytes,
        });
    }

    #[inline(always)]
    fn access(
        &mut self,
        process: &mut Process<'s>,
        call: Command,
        access: Access,
        width: u8,
        va: u64,
        value: u64,
    ) -> Turn<'s> {
        let (seat, files) = (&mut self.seat, &mut self.files);
        let reached = match va & u64::from(width - 1) {
            0 => process.space.reach(seat, files, access, va),
            _ => Err(Stop::Rule(Rule::Misaligned)),
        };
        match reached {
            Ok((frame, _)) => {
                let at = (va & 4095) as usize;
                let reply = match access {
                    Access::Store => {
                        seat.write_value(frame, at, width, value);
                        Reply::Stored
                    }
                    _ => Reply::Value(black_box(seat.read_value(frame, at, width))),
                };
                process.note(call, reply);
                Turn::Goes
            }
            Err(Stop::Rule(rule)) if process.space.finish(seat, files).is_ok() => {
                process.note(call, Reply::Ended(rule));
                self.over(Outcome::Ended(rule))
            }
            Err(_) => {
                process.calls -= 1;
                self.drop_process(process)
            }
        }
    }

    fn fork(&mut self, process: &mut Process<'s>, call: Command, list: u8) -> Turn<'s> {
        if !self.world.take_slot() {
            process.note(call, Reply::Refused(Refusal::NoSlot));
            return Turn::Goes;
        }
        let Some((space, _)) = process.space.fork(&mut self.seat) else {
            self.world.give_slot();
            process.note(call, Reply::Refused(Refusal::NoFrame));
            return Turn::Goes;
        };
        let mut name = Vec::with_capacity(process.name.len() + 1);
        name.extend_from_slice(&process.name);
        name.push(process.children);
        process.note(call, Reply::Forked(process.children));
        process.children += 1;
        Turn::Forked(Process::new(space, name, self.world.list(list)))
    }

    fn exit(&mut self, process: &mut Process<'s>, status: i32) -> Turn<'s> {
        match process.space.finish(&mut self.seat, &mut self.files) {
            Ok(()) => {
                process.calls += 1;
                process.note(Command::Exit { hart: 0, status }, Reply::Exited(status));
                self.over(Outcome::Exit(status))
            }
            Err(_) => self.drop_process(process),
        }
    }

    /// Ends a process for want of room in its journal or in the history of the files. Nothing is written back.
    fn drop_process(&mut self, process: &mut Process<'s>) -> Turn<'s> {
        process.space.destroy(&mut self.seat);
        self.over(Outcome::Dropped(Refusal::JournalFull))
    }

    /// Gives the frames back before the slot, so that the next holder of the slot finds them free.
    fn over(&mut self, outcome: Outcome) -> Turn<'s> {
        self.seat.give_back();
        self.world.give_slot();
        Turn::Over(outcome)
    }

    /// Runs processes until all have ended; returns those that ended here.
    pub fn run(mut self) -> Vec<Finished> {
        let world = self.world;
        let mut finished = Vec::new();
        // What this hart runs, and what it puts back.
        let (mut batch, mut back) = (Vec::new(), Vec::new());
        loop {
            next(
                &world.parts,
                &world.idle,
                self.number,
                &mut back,
                &mut batch,
            );
            if batch.is_empty() {
                if world.live.load(Ordering::Acquire) == 0 {
                    return finished;
                }
                world.idle.wait();
                continue;
            }
            for mut process in batch.drain(..) {
                match self.quantum(&mut process, &mut back) {
                    None => back.push(process),
                    Some(over) => {
                        finished.push(over);
                        world.one_ended();
                    }
                }
            }
        }
    }

    /// Makes up to eight calls of the process; its children go to `back`. Returns the process if it ended.
    #[inline]
    fn quantum(&mut self, process: &mut Process<'s>, back: &mut Batch<'s>) -> Option<Finished> {
        for _ in 0..QUANTUM {
            let turn = self.call(process);
            self.seat.give_back();
            match turn {
                Turn::Goes => {}
                Turn::Forked(child) => {
                    self.world.live.fetch_add(1, Ordering::Relaxed);
                    back.push(child);
                }
                Turn::Over(outcome) => return Some(process.finished(outcome)),
            }
        }
        None
    }
}
