//! The lines of a file for threads from `pool` on.

use super::fields::small;
use super::plain_line::plain_step;
use super::reader::{Args, Reader};
use super::{width, Cause, Command, LINES_LIMIT, LINE_LIMIT, LIST_LIMIT, WALK};
use crate::entry::Access;

/// The most frames of `pool`.
const FRAMES: u64 = 256;
const LISTS: u64 = 64;

/// The words of all lines but declarations.
const WORDS: [&[u8]; 14] = [
    b"pool", b"list", b"start", b"fetch", b"load", b"store", b"fork", b"exec", b"sbrk", b"mmap",
    b"munmap", b"copyin", b"copyout", b"exit",
];

/// The kind of an access, its address, its width and its value.
fn access(word: &[u8], args: &Args<'_>) -> Result<(Access, [u64; 3]), Cause> {
    match word {
        b"load" => {
            args.exactly(2)?;
            let [va, n] = args.numbers()?;
            Ok((Access::Load, [va, n, 0]))
        }
        b"store" => {
            args.exactly(3)?;
            Ok((Access::Store, args.numbers()?))
        }
        _ => {
            args.exactly(1)?;
            let [va] = args.numbers()?;
            Ok((Access::Fetch, [va, 4, 0]))
        }
    }
}

impl Reader {
    /// Reads a call in plain form, if one may come here; returns it, and the length of its line.
    #[inline(always)]
    pub(super) fn plain_call(&mut self, block: &[u8]) -> Option<(Command, usize)> {
        let open = self.open_list.filter(|_| self.script.starts.is_empty())?;
        let (from, to) = self.script.lists[open].as_mut()?;
        if (*to - *from) as usize >= LIST_LIMIT {
            return None;
        }
        let call = plain_step::<true>(block, 0).filter(|call| call.1 <= LINE_LIMIT)?;
        *to += 1;
        Some(call)
    }

    pub(super) fn threads_line(&mut self, word: &[u8], args: Args<'_>) -> Result<(), Cause> {
        if !WORDS.contains(&word) {
            return Err(Cause::Word);
        }
        if word == b"pool" {
            return self.pool_line(args);
        }
        if self.script.boot.is_none() {
            return Err(Cause::Order);
        }
        let started = !self.script.starts.is_empty();
        match word {
            b"start" => self.start_line(args),
            _ if started => Err(Cause::Order),
            b"list" => self.list_line(args),
            _ => self.call_line(word, args),
        }
    }

    fn pool_line(&mut self, args: Args<'_>) -> Result<(), Cause> {
        if self.script.boot.is_some() {
            return Err(Cause::Order);
        }
        args.exactly(2)?;
        let [frames, slots] = args.numbers()?;
        self.boot([1, frames, slots], false, false, FRAMES)
    }

    /// Whether a line read so far begins the list.
    fn declared(&self, list: u64) -> bool {
        matches!(self.script.lists.get(list as usize), Some(Some(_)))
    }

    fn list_line(&mut self, args: Args<'_>) -> Result<(), Cause> {
        args.exactly(1)?;
        let [list] = args.numbers()?;
        self.after += 1;
        if list >= LISTS || self.declared(list) {
            return Err(Cause::Limits);
        }
        if self.after > LINES_LIMIT {
            return Err(Cause::TooMany);
        }
        let at = self.script.commands.len() as u32;
        self.script.lists.resize(LISTS as usize, None);
        self.script.lists[list as usize] = Some((at, at));
        self.open_list = Some(list as usize);
        Ok(())
    }

    fn start_line(&mut self, args: Args<'_>) -> Result<(), Cause> {
        args.exactly(2)?;
        let [image, list] = args.numbers()?;
        self.after += 1;
        let image = self.image(image)?;
        if !self.declared(list) {
            return Err(Cause::Limits);
        }
        if self.after > LINES_LIMIT {
            return Err(Cause::TooMany);
        }
        self.script.starts.push((image, list as u8));
        Ok(())
    }

    fn call_line(&mut self, word: &[u8], args: Args<'_>) -> Result<(), Cause> {
        let open = self.open_list.ok_or(Cause::Order)?;
        let command = self.list_call(word, &args)?;
        let (from, to) = self.script.lists[open].as_mut().expect("a list is open");
        if self.after > LINES_LIMIT || (*to - *from) as usize == LIST_LIMIT {
            return Err(Cause::TooMany);
        }
        *to += 1;
        self.script.commands.push(command);
        Ok(())
    }

    fn list_call(&mut self, word: &[u8], args: &Args<'_>) -> Result<Command, Cause> {
        match word {
            b"load" | b"store" | b"fetch" => {
                let (access, [va, n, value]) = access(word, args)?;
                self.after += 1;
                Ok(Command::Use {
                    hart: 0,
                    access,
                    width: width(n)?,
                    via: WALK,
                    va,
                    value,
                })
            }
            b"fork" => {
                args.exactly(1)?;
                let list = args.number(0)?;
                self.after += 1;
                self.forks.push((self.line, list));
                Ok(Command::Fork {
                    hart: 0,
                    list: small(list),
                })
            }
            b"exec" => {
                args.exactly(1)?;
                let n = args.number(0)?;
                self.after += 1;
                let image = self.image(n)?;
                Ok(Command::Exec { hart: 0, image })
            }
            _ => {
                self.after += 1;
                self.call(word, args, 0)
            }
        }
    }

    /// The line of the first fork whose list no line begins.
    pub(super) fn loose_fork(&self) -> Option<u32> {
        let loose = self.forks.iter().find(|fork| !self.declared(fork.1));
        loose.map(|fork| fork.0)
    }
}
