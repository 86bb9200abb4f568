//! The machine of one thread: harts, their buffers, and a step for each line.

mod access;
mod buffer;
mod calls;
mod phases;

use crate::entry::{Access, SV39, SV48};
use crate::files::Shelf;
use crate::frames::{Frame, Frames};
use crate::image::Image;
use crate::kernel_table::boot;
use crate::output::Out;
use crate::reply::{Phase, Refusal, Reply};
use crate::script::{Boot, Command, Script};
use crate::space::Space;
use buffer::Buffer;
use std::io::{self, Write};

const KERNEL_ASID: u8 = 0;
/// The greatest number of bytes of a `copyin`.
const SCRATCH: usize = 256;

struct Hart {
    phase: Phase,
    /// The slot of its process, if the phase has one.
    slot: usize,
    buffer: Buffer,
}

#[derive(Clone, Copy)]
struct Pending {
    access: Access,
    va: u64,
    width: u8,
}

struct Process<const LEVELS: usize> {
    space: Space<LEVELS>,
    /// An access that faulted and was not served yet.
    pending: Option<Pending>,
    /// The hart that it is on.
    hart: Option<u8>,
    /// The harts that may have stale entries of it under policy `asid`, a bit each.
    marks: u8,
}

impl<const LEVELS: usize> Process<LEVELS> {
    /// A process that is on no hart and marked on all.
    fn new(space: Space<LEVELS>) -> Process<LEVELS> {
        Process {
            space,
            pending: None,
            hart: None,
            marks: !0,
        }
    }
}

/// The reply of a step, or its refusal.
type Answer = Result<Reply, Refusal>;

struct Machine<'s, const LEVELS: usize> {
    store: Frames,
    shelf: Shelf,
    images: &'s [Image],
    arena: &'s [u8],
    kernel_root: Frame,
    asid: bool,
    harts: Vec<Hart>,
    slots: Vec<Option<Process<LEVELS>>>,
    /// The bytes that the last `copyin` read.
    scratch: [u8; SCRATCH],
}

const LIVE: &str = "the slot of a hart's process has that process";

impl<'s, const LEVELS: usize> Machine<'s, LEVELS> {
    fn new(config: Boot, shelf: Shelf, images: &'s [Image], arena: &'s [u8]) -> Self {
        let mut store = Frames::new(config.frames);
        let kernel_root = boot::<LEVELS, _>(&mut store, u64::from(config.slots));
        let hart = || Hart {
            phase: Phase::Idle,
            slot: 0,
            buffer: Buffer::new(),
        };
        Machine {
            store,
            shelf,
            images,
            arena,
            kernel_root,
            asid: config.asid,
            harts: (0..config.harts).map(|_| hart()).collect(),
            slots: (0..config.slots).map(|_| None).collect(),
            scratch: [0; SCRATCH],
        }
    }

    #[inline(always)]
    fn hart(&mut self, hart: u8) -> Result<&mut Hart, Refusal> {
        self.harts
            .get_mut(usize::from(hart))
            .ok_or(Refusal::BadArgument)
    }

    /// The process of a slot that has one.
    #[inline(always)]
    fn process(&mut self, slot: usize) -> &mut Process<LEVELS> {
        self.slots[slot].as_mut().expect(LIVE)
    }

    /// The lowest slot without a process.
    fn free_slot(&self) -> Result<usize, Refusal> {
        let free = self.slots.iter().position(Option::is_none);
        free.ok_or(Refusal::NoSlot)
    }

    fn show<W: Write>(&self, out: &mut Out<W>, file: u8, offset: u64, count: u16) {
        let bytes = &self.shelf.files[usize::from(file)].bytes;
        let from = offset.min(bytes.len() as u64) as usize;
        let to = (from + usize::from(count)).min(bytes.len());
        out.text("file ");
        out.decimal(bytes.len() as u64);
        out.text(" ");
        out.bytes(&bytes[from..to]);
    }

    fn audit<W: Write>(&self, out: &mut Out<W>) {
        let report = self.store.report();
        let parts = [
            ("free ", report.free),
            (" held ", report.held),
            (" shared ", report.shared),
            (" references ", report.references),
        ];
        for (name, n) in parts {
            out.text(name);
            out.decimal(n.into());
        }
    }

    /// Makes the step of a line and writes its reply.
    #[inline(always)]
    fn command<W: Write>(&mut self, command: Command, out: &mut Out<W>) {
        let answer = match command {
            Command::Use {
                hart,
                access,
                width,
                via,
                va,
                value,
            } => self.access(hart, access, width, va, value, via),
            Command::Show {
                file,
                count,
                offset,
            } => return self.show(out, file, offset, count),
            Command::Audit => return self.audit(out),
            Command::Start { image } => self.start(image),
            Command::Switch { hart, slot } => self.switch(hart, Some(slot)),
            Command::SwitchOff { hart } => self.switch(hart, None),
            Command::Trap { hart } => self.trap(hart),
            Command::Next { hart } => self.next(hart),
            Command::Fill { hart, va } => self.fill(hart, va),
            Command::Evict { hart, entry } => self.evict(hart, entry),
            Command::Tramp { hart, via, offset } => self.tramp(hart, offset, via),
            Command::Serve { hart } => self.serve(hart),
            Command::On { hart, slot } => self.on(hart, slot),
            Command::Enter { hart } => self.enter(hart),
            Command::Leave { hart } => self.three(hart),
            Command::Fix { hart } => self.fix(hart),
            call => self.call(call),
        };
        out.reply(answer, &self.scratch);
    }
}

/// Plays a script on page tables of `LEVELS` levels, and writes the reply of each line.
fn play_on<const LEVELS: usize>(script: Script, config: Boot, to: impl Write) -> io::Result<()> {
    let shelf = Shelf {
        files: script.files,
        left: u64::MAX,
    };
    let (images, arena) = (&script.images, &script.arena);
    let mut machine = Machine::<LEVELS>::new(config, shelf, images, arena);
    let mut out = Out::new(to);
    out.text("ok");
    out.end_line()?;
    for &command in &script.commands {
        machine.command(command, &mut out);
        out.end_line()?;
    }
    out.flush()
}

/// Plays a script that was read.
pub fn play(script: Script, to: impl Write) -> io::Result<()> {
    let config = script.boot.expect("a script that was read boots");
    if config.sv48 {
        play_on::<SV48>(script, config, to)
    } else {
        play_on::<SV39>(script, config, to)
    }
}
