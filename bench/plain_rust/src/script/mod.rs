//! Scripts, and files for threads: what their lines say, and which fault a refused one has.

mod fields;
mod lines;
mod lists;
mod plain_line;
mod reader;
mod steps;

use crate::entry::Access;
use crate::files::FileText;
use crate::image::Image;
use lines::Lines;
use reader::Reader;
use std::io::{self, Read};

const LINE_LIMIT: usize = 2_097_664;
const LINES_LIMIT: u32 = 100_000;
/// The most calls of a list, and of a process.
pub const LIST_LIMIT: usize = 10_000;
const COPY_LIMIT: u64 = 256;

/// Why a line is at fault, in the order in which causes are tried.
#[derive(Clone, Copy, Debug, PartialEq, Eq)]
pub enum Cause {
    TooLong,
    NotAscii,
    Word,
    Order,
    Count,
    Number,
    Field,
    Limits,
    TooMany,
}

/// Why a script is not played: the number of the first line at fault, counted from 1, and its cause; or reading or writing
/// failed.
pub enum Fault {
    Script(u32, Cause),
    Io,
}

impl From<io::Error> for Fault {
    fn from(_: io::Error) -> Fault {
        Fault::Io
    }
}

/// In the place of a buffer entry: the access walks.
pub const WALK: u8 = 255;

/// A line after `boot`, or a call of a list, whose `hart` is 0. Numbers that are too large for any hart, slot or entry are kept
/// as one that is too large too.
#[derive(Clone, Copy)]
pub enum Command {
    Start {
        image: u8,
    },
    Switch {
        hart: u8,
        slot: u8,
    },
    SwitchOff {
        hart: u8,
    },
    Trap {
        hart: u8,
    },
    Next {
        hart: u8,
    },
    Fill {
        hart: u8,
        va: u64,
    },
    Evict {
        hart: u8,
        entry: u8,
    },
    /// A fetch, a load or a store. `via` is a buffer entry or `WALK`.
    Use {
        hart: u8,
        access: Access,
        width: u8,
        via: u8,
        va: u64,
        value: u64,
    },
    Tramp {
        hart: u8,
        via: u8,
        offset: u16,
    },
    Serve {
        hart: u8,
    },
    /// `list` is that of the child on threads.
    Fork {
        hart: u8,
        list: u8,
    },
    Exec {
        hart: u8,
        image: u8,
    },
    Sbrk {
        hart: u8,
        delta: i64,
    },
    Mmap {
        hart: u8,
        prot: u8,
        flags: u8,
        file: u8,
        len: u32,
    },
    Munmap {
        hart: u8,
        va: u64,
        len: u64,
    },
    CopyIn {
        hart: u8,
        count: u16,
        va: u64,
    },
    /// The bytes are in the arena, from `at` on.
    CopyOut {
        hart: u8,
        count: u16,
        at: u32,
        va: u64,
    },
    Exit {
        hart: u8,
        status: i32,
    },
    Show {
        file: u8,
        count: u16,
        offset: u64,
    },
    Audit,
    On {
        hart: u8,
        slot: u8,
    },
    Enter {
        hart: u8,
    },
    Leave {
        hart: u8,
    },
    Fix {
        hart: u8,
    },
}

/// What `boot` or `pool` says.
#[derive(Clone, Copy)]
pub struct Boot {
    pub harts: u8,
    pub frames: u32,
    pub slots: u8,
    pub asid: bool,
    /// Whether the page tables are those of Sv48.
    pub sv48: bool,
}

/// A script, or a file for threads.
#[derive(Default)]
pub struct Script {
    pub files: Vec<FileText>,
    pub images: Vec<Image>,
    pub boot: Option<Boot>,
    /// The lines after `boot`, or the calls of all lists, one list after the other.
    pub commands: Vec<Command>,
    /// The bytes of `copyout`.
    pub arena: Vec<u8>,
    /// Where each list begins and ends in `commands`.
    pub lists: Vec<Option<(u32, u32)>>,
    /// The image and the list of each start.
    pub starts: Vec<(u8, u8)>,
}

/// The width of an access.
fn width(n: u64) -> Result<u8, Cause> {
    match n {
        1 | 2 | 4 | 8 => Ok(n as u8),
        _ => Err(Cause::Limits),
    }
}

/// Reads the next line; `None` after the last.
#[inline(always)]
fn next_line(
    lines: &mut Lines<impl Read>,
    reader: &mut Reader,
) -> Result<Option<Result<(), Cause>>, Fault> {
    let (block, odd) = lines.block()?;
    if block.is_empty() {
        return Ok(None);
    }
    let (length, read) = reader.next(block, odd);
    lines.skip(length);
    Ok(Some(read))
}

/// Reads a script, to its end before anything is played.
pub fn read_play(from: impl Read) -> Result<Script, Fault> {
    let mut lines = Lines::new(from);
    let mut reader = Reader::new(false);
    while let Some(read) = next_line(&mut lines, &mut reader)? {
        if let Err(cause) = read {
            lines.drain()?;
            return Err(Fault::Script(reader.line, cause));
        }
    }
    match reader.script.boot {
        Some(_) => Ok(reader.script),
        None => Err(Fault::Script(reader.line + 1, Cause::Order)),
    }
}

/// Reads a file for threads. A fork may name a list that a later line begins, so whether it is at fault is known only at the
/// end.
pub fn read_threads(from: impl Read) -> Result<Script, Fault> {
    let mut lines = Lines::new(from);
    let mut reader = Reader::new(true);
    let mut first = None;
    while let Some(read) = next_line(&mut lines, &mut reader)? {
        if let Err(cause) = read {
            first.get_or_insert((reader.line, cause));
        }
    }
    if reader.script.boot.is_none() {
        first.get_or_insert((reader.line + 1, Cause::Order));
    }
    if let Some(line) = reader.loose_fork() {
        if first.is_none_or(|(at, _)| line < at) {
            first = Some((line, Cause::Limits));
        }
    }
    match first {
        Some((line, cause)) => Err(Fault::Script(line, cause)),
        None => Ok(reader.script),
    }
}
