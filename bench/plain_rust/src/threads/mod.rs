//! Processes on harts that are threads.

mod hart;
mod process;
mod queue;

use crate::entry::SV39;
use crate::files::{Locked, Shelf};
use crate::image::Image;
use crate::kernel_table::{boot, kernel_frames};
use crate::reply::Refusal;
use crate::script::{Command, Script};
use crate::shared_frames::{Seat, SharedFrames};
use crate::space::Space;
use hart::Hart;
use process::{write_text, Finished, Outcome, Process};
use queue::{Idle, Part};
use std::hint::black_box;
use std::io::{self, Write};
use std::sync::atomic::{AtomicU32, AtomicUsize, Ordering};
use std::sync::Mutex;

/// How many pages of files may be read and written in all.
const HISTORY: u64 = 65_536;

/// What all harts see.
struct World<'s> {
    frames: &'s SharedFrames,
    files: Locked<'s>,
    images: &'s [Image],
    arena: &'s [u8],
    commands: &'s [Command],
    lists: &'s [Option<(u32, u32)>],
    /// The number of free slots.
    slots: AtomicU32,
    /// The number of unfinished processes.
    live: AtomicUsize,
    /// The run queue, a part for each hart.
    parts: Vec<Part<'s>>,
    idle: Idle,
}

impl<'s> World<'s> {
    /// The calls of a list.
    fn list(&self, list: u8) -> &'s [Command] {
        let (from, to) = self.lists[usize::from(list)].expect("some line begins the list");
        &self.commands[from as usize..to as usize]
    }

    /// Takes a slot, if one is free.
    fn take_slot(&self) -> bool {
        let take = |slots: u32| slots.checked_sub(1);
        let (success, failure) = (Ordering::AcqRel, Ordering::Relaxed);
        self.slots.fetch_update(success, failure, take).is_ok()
    }

    fn give_slot(&self) {
        self.slots.fetch_add(1, Ordering::Release);
    }

    /// Counts a process that ended; wakes all harts after the last.
    fn one_ended(&self) {
        if self.live.fetch_sub(1, Ordering::AcqRel) == 1 {
            self.idle.wake_all();
        }
    }

    /// Starts a process, or returns why its start is refused.
    fn start(
        &self,
        seat: &mut Seat<'_>,
        name: Vec<u32>,
        image: u8,
        list: u8,
    ) -> Result<(), Finished> {
        let space = if self.take_slot() {
            let space = Space::<SV39>::start(seat, &self.images[usize::from(image)]);
            space.inspect_err(|_| self.give_slot())
        } else {
            Err(Refusal::NoSlot)
        };
        match space {
            Ok(space) => {
                let before = self.live.fetch_add(1, Ordering::Relaxed);
                let process = Process::new(space, name, self.list(list));
                self.parts[before % self.parts.len()].add(process);
                Ok(())
            }
            Err(refusal) => Err(Finished {
                name,
                calls: 0,
                outcome: Outcome::Refused(refusal),
                journal: Vec::new(),
            }),
        }
    }

    /// Makes all starts, in order; returns those that are refused.
    fn start_all(&self, seat: &mut Seat<'_>, starts: &[(u8, u8)]) -> Vec<Finished> {
        let numbered = (0..).zip(starts);
        let started = numbered.map(|(n, &(image, list))| self.start(seat, vec![n], image, list));
        started.filter_map(Result::err).collect()
    }
}

/// Runs this number of harts until all processes have ended, and adds these to the list.
fn run_harts(world: &World<'_>, harts: usize, finished: &mut Vec<Finished>) {
    std::thread::scope(|scope| {
        let spawn = |number: usize| {
            let hart = Hart::new(world, number);
            let thread = std::thread::Builder::new();
            // A thread that cannot be started is left out.
            thread.spawn_scoped(scope, move || hart.run()).ok()
        };
        let others: Vec<_> = (1..harts).filter_map(spawn).collect();
        finished.extend(Hart::new(world, 0).run());
        for other in others {
            finished.extend(other.join().expect("no hart panics"));
        }
    });
}

/// Plays a file for threads that was read, and writes how each process ended.
pub fn play_threads(script: Script, harts: usize, to: impl Write) -> io::Result<()> {
    let config = script
        .boot
        .expect("a file for threads that was read has a pool");
    let (count, slots) = (u64::from(config.frames), u64::from(config.slots));
    let modes: Vec<bool> = script.files.iter().map(|f| f.writable).collect();
    let shelf = Mutex::new(Shelf {
        files: script.files,
        left: HISTORY,
    });
    let frames = SharedFrames::new(config.frames);
    let files = Locked {
        shelf: &shelf,
        modes: &modes,
    };
    let mut seat = Seat::new(&frames, 0, harts);
    boot::<SV39, _>(&mut seat, slots);
    let world = World {
        frames: &frames,
        files,
        images: &script.images,
        arena: &script.arena,
        commands: &script.commands,
        lists: &script.lists,
        slots: AtomicU32::new(config.slots.into()),
        live: AtomicUsize::new(0),
        parts: (0..harts).map(|_| Part::new()).collect(),
        idle: Idle::new(),
    };
    let mut finished = world.start_all(&mut seat, &script.starts);
    run_harts(&world, harts, &mut finished);
    finished.sort_unstable_by(|a, b| a.name.cmp(&b.name));
    black_box(finished.iter().map(|f| f.journal.len()).sum::<usize>());
    let all = count - kernel_frames(count, slots, SV39);
    write_text(&finished, frames.free().into(), all, to)
}
