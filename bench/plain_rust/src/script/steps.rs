//! The lines of a script from `boot` on.

use super::fields::{hex_into, number, small};
use super::reader::{Args, Reader};
use super::{width, Cause, Command, COPY_LIMIT, LINES_LIMIT};
use crate::entry::Access;

/// The most frames of `boot`.
const FRAMES: u64 = 1024;

/// The words of all lines after `boot`.
const WORDS: [&[u8]; 25] = [
    b"start", b"switch", b"trap", b"next", b"fill", b"evict", b"fetch", b"load", b"store",
    b"tramp", b"serve", b"fork", b"exec", b"sbrk", b"mmap", b"munmap", b"copyin", b"copyout",
    b"exit", b"show", b"audit", b"on", b"enter", b"leave", b"fix",
];

/// A fetch, a load or a store.
fn access(word: &[u8], args: &Args<'_>) -> Result<Command, Cause> {
    let (access, ([hart, va, n, value], via)) = match word {
        b"load" => {
            let ([hart, va, n], via) = args.maybe_entry()?;
            (Access::Load, ([hart, va, n, 0], via))
        }
        b"store" => (Access::Store, args.maybe_entry()?),
        _ => {
            let ([hart, va], via) = args.maybe_entry()?;
            (Access::Fetch, ([hart, va, 4, 0], via))
        }
    };
    Ok(Command::Use {
        hart: small(hart),
        access,
        width: width(n)?,
        via,
        va,
        value,
    })
}

/// A line whose only field is a hart.
fn of_hart(word: &[u8], args: &Args<'_>) -> Result<Command, Cause> {
    args.exactly(1)?;
    let hart = small(args.number(0)?);
    Ok(match word {
        b"trap" => Command::Trap { hart },
        b"next" => Command::Next { hart },
        b"serve" => Command::Serve { hart },
        b"fork" => Command::Fork { hart, list: 0 },
        b"enter" => Command::Enter { hart },
        b"leave" => Command::Leave { hart },
        _ => Command::Fix { hart },
    })
}

fn switch(args: &Args<'_>) -> Result<Command, Cause> {
    args.exactly(2)?;
    let hart = small(args.number(0)?);
    Ok(match args.fields[1] {
        b"-" => Command::SwitchOff { hart },
        field => Command::Switch {
            hart,
            slot: small(number(field).ok_or(Cause::Number)?),
        },
    })
}

fn tramp(args: &Args<'_>) -> Result<Command, Cause> {
    let ([hart, offset], via) = args.maybe_entry()?;
    Ok(Command::Tramp {
        hart: small(hart),
        via,
        offset: offset.min(0xffff) as u16,
    })
}

impl Reader {
    pub(super) fn play_line(&mut self, word: &[u8], args: Args<'_>) -> Result<(), Cause> {
        if self.script.boot.is_none() {
            return match word {
                b"boot" => self.boot_line(args),
                _ if WORDS.contains(&word) => Err(Cause::Order),
                _ => Err(Cause::Word),
            };
        }
        // A line at fault ends the reading, so it may be counted before it is judged.
        self.after += 1;
        let command = self.step(word, &args)?;
        if self.after > LINES_LIMIT {
            return Err(Cause::TooMany);
        }
        self.script.commands.push(command);
        Ok(())
    }

    fn boot_line(&mut self, args: Args<'_>) -> Result<(), Cause> {
        if args.count != 4 && args.count != 5 {
            return Err(Cause::Count);
        }
        let sizes = args.numbers()?;
        let asid = match args.fields[3] {
            b"full" => false,
            b"asid" => true,
            _ => return Err(Cause::Field),
        };
        let sv48 = match args.fields[4] {
            b"" | b"sv39" => false,
            b"sv48" => true,
            _ => return Err(Cause::Field),
        };
        self.boot(sizes, asid, sv48, FRAMES)
    }

    fn step(&mut self, word: &[u8], args: &Args<'_>) -> Result<Command, Cause> {
        match word {
            b"load" | b"store" | b"fetch" => access(word, args),
            b"tramp" => tramp(args),
            b"trap" | b"next" | b"serve" | b"fork" | b"enter" | b"leave" | b"fix" => {
                of_hart(word, args)
            }
            b"on" | b"fill" | b"evict" | b"exec" => self.of_hart_and_number(word, args),
            b"switch" => switch(args),
            b"audit" => args.exactly(0).map(|()| Command::Audit),
            b"start" => {
                args.exactly(1)?;
                let image = self.image(args.number(0)?)?;
                Ok(Command::Start { image })
            }
            b"show" => self.show(args),
            b"sbrk" | b"mmap" | b"munmap" | b"copyin" | b"copyout" | b"exit" => {
                self.call(word, args, 1)
            }
            b"boot" => Err(Cause::Order),
            _ => Err(Cause::Word),
        }
    }

    /// A line whose fields are a hart and a number.
    fn of_hart_and_number(&self, word: &[u8], args: &Args<'_>) -> Result<Command, Cause> {
        args.exactly(2)?;
        let [hart, n] = args.numbers()?;
        let hart = small(hart);
        Ok(match word {
            b"on" => Command::On {
                hart,
                slot: small(n),
            },
            b"fill" => Command::Fill { hart, va: n },
            b"evict" => Command::Evict {
                hart,
                entry: small(n),
            },
            _ => Command::Exec {
                hart,
                image: self.image(n)?,
            },
        })
    }

    fn show(&self, args: &Args<'_>) -> Result<Command, Cause> {
        args.exactly(3)?;
        let [file, offset, count] = args.numbers()?;
        if file >= self.script.files.len() as u64 || count > COPY_LIMIT {
            return Err(Cause::Limits);
        }
        Ok(Command::Show {
            file: file as u8,
            count: count as u16,
            offset,
        })
    }

    /// The calls that scripts and lists have in common. Their own fields begin at `from`: 1 in a script, after the hart, and 0
    /// in a list.
    pub(super) fn call(
        &mut self,
        word: &[u8],
        args: &Args<'_>,
        from: usize,
    ) -> Result<Command, Cause> {
        let own = match word {
            b"mmap" => 4,
            b"sbrk" | b"exit" => 1,
            _ => 2,
        };
        args.exactly(own + from)?;
        let hart = match from {
            0 => 0,
            _ => small(args.number(0)?),
        };
        let n = |at: usize| args.number(at + from);
        match word {
            b"sbrk" => Ok(Command::Sbrk {
                hart,
                delta: args.signed(from)?,
            }),
            b"exit" => exit(hart, args.signed(from)?),
            b"mmap" => Ok(Command::Mmap {
                hart,
                len: n(0)?.min(u32::MAX.into()) as u32,
                prot: small(n(1)?),
                flags: small(n(2)?),
                file: small(n(3)?),
            }),
            b"munmap" => Ok(Command::Munmap {
                hart,
                va: n(0)?,
                len: n(1)?,
            }),
            b"copyin" => copy_in(hart, n(0)?, n(1)?),
            _ => self.copy_out(hart, n(0)?, args.fields[1 + from]),
        }
    }

    /// Adds the bytes of a `copyout` to the arena.
    fn copy_out(&mut self, hart: u8, va: u64, field: &[u8]) -> Result<Command, Cause> {
        let at = self.script.arena.len();
        hex_into(field, &mut self.script.arena).ok_or(Cause::Field)?;
        let count = self.script.arena.len() - at;
        if count as u64 > COPY_LIMIT {
            return Err(Cause::Limits);
        }
        Ok(Command::CopyOut {
            hart,
            count: count as u16,
            at: at as u32,
            va,
        })
    }
}

fn exit(hart: u8, status: i64) -> Result<Command, Cause> {
    let status = i32::try_from(status).map_err(|_| Cause::Limits)?;
    Ok(Command::Exit { hart, status })
}

fn copy_in(hart: u8, va: u64, count: u64) -> Result<Command, Cause> {
    if count > COPY_LIMIT {
        return Err(Cause::Limits);
    }
    Ok(Command::CopyIn {
        hart,
        count: count as u16,
        va,
    })
}
