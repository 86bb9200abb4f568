//! A process on threads, its journal, and how it ended.

use crate::entry::SV39;
use crate::output::Out;
use crate::reply::{Refusal, Rule};
use crate::script::Command;
use crate::space::Space;
use std::io::{self, Write};

/// What a journal keeps of a call: the call, its reply, and the bytes that a `copyin` read. It is not printed; `xv6vm` keeps
/// one too.
#[expect(dead_code, reason = "kept, and never read")]
pub struct Entry {
    pub call: Command,
    pub reply: Reply,
    pub bytes: Option<Box<[u8]>>,
}

/// The reply of a call.
#[derive(Clone, Copy)]
#[expect(dead_code, reason = "kept, and never read")]
pub enum Reply {
    Value(u64),
    Stored,
    Done,
    Number(u64),
    Refused(Refusal),
    Forked(u32),
    Exited(i32),
    Ended(Rule),
}

/// An unfinished process.
pub struct Process<'s> {
    pub space: Space<SV39>,
    /// The numbers of its name.
    pub name: Vec<u32>,
    /// How many children it has forked.
    pub children: u32,
    /// The calls of its list that are left.
    pub list: &'s [Command],
    /// How many calls it made.
    pub calls: usize,
    pub journal: Vec<Entry>,
}

impl<'s> Process<'s> {
    /// A process that has made no call.
    pub fn new(space: Space<SV39>, name: Vec<u32>, list: &'s [Command]) -> Box<Process<'s>> {
        Box::new(Process {
            space,
            name,
            children: 0,
            list,
            calls: 0,
            journal: Vec::new(),
        })
    }

    /// Adds a call to the journal.
    #[inline(always)]
    pub fn note(&mut self, call: Command, reply: Reply) {
        self.journal.push(Entry {
            call,
            reply,
            bytes: None,
        });
    }

    /// The process at its end.
    pub fn finished(&mut self, outcome: Outcome) -> Finished {
        Finished {
            name: std::mem::take(&mut self.name),
            calls: self.calls,
            outcome,
            journal: std::mem::take(&mut self.journal),
        }
    }
}

/// How a process ended.
pub enum Outcome {
    Exit(i32),
    Ended(Rule),
    /// It ended for want of room in a journal or a history.
    Dropped(Refusal),
    /// It was not started.
    Refused(Refusal),
}

/// A process that has ended, or whose start was refused.
pub struct Finished {
    pub name: Vec<u32>,
    pub calls: usize,
    pub outcome: Outcome,
    pub journal: Vec<Entry>,
}

impl Finished {
    fn write<W: Write>(&self, out: &mut Out<W>) {
        let mut before = "process ";
        for &n in &self.name {
            out.text(before);
            out.decimal(n.into());
            before = ".";
        }
        if !matches!(self.outcome, Outcome::Refused(_)) {
            out.text(" calls ");
            out.decimal(self.calls as u64);
        }
        match self.outcome {
            Outcome::Exit(status) => {
                out.text(" exit ");
                out.signed(status.into());
            }
            Outcome::Ended(rule) => out.pair(" ended ", rule.text()),
            Outcome::Dropped(refusal) => out.pair(" ended ", refusal.text()),
            Outcome::Refused(refusal) => out.pair(" refused ", refusal.text()),
        }
    }
}

/// Writes a line for each process, and how many of `all` frames are free.
pub fn write_text(finished: &[Finished], free: u64, all: u64, to: impl Write) -> io::Result<()> {
    let mut out = Out::new(to);
    for process in finished {
        process.write(&mut out);
        out.end_line()?;
    }
    out.text("free ");
    out.decimal(free);
    out.text(" of ");
    out.decimal(all);
    out.end_line()?;
    out.flush()
}
