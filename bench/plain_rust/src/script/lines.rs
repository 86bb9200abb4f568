//! Lines of a stream, through a buffer that has at least one whole line.

use super::fields::any;
use super::{Cause, Fault};
use std::io::{self, Read};

const SCRIPT_LIMIT: usize = 16_777_216;
const CHUNK: usize = 1 << 17;

/// The lines.
pub struct Lines<R> {
    from: R,
    buffer: Vec<u8>,
    /// Where the next line begins.
    start: usize,
    /// The place after the last line feed in the buffer; at the stream's end, after all bytes.
    full: usize,
    /// The place after the last byte that was read.
    end: usize,
    /// How many bytes were read in all.
    total: usize,
    over: bool,
    /// Whether a byte above 127 was read, so that each line has to be searched for one.
    odd: bool,
}

/// The place after the last line feed.
fn last_line_end(bytes: &[u8]) -> Option<usize> {
    let feed = |&c: &u8| c == b'\n';
    let (first, blocks) = bytes.as_rchunks::<64>();
    for (k, block) in blocks.iter().enumerate().rev() {
        if any(block, |c| u8::from(c == b'\n')) != 0 {
            let at = block.iter().rposition(feed)?;
            return Some(first.len() + 64 * k + at + 1);
        }
    }
    Some(first.iter().rposition(feed)? + 1)
}

impl<R: Read> Lines<R> {
    pub fn new(from: R) -> Lines<R> {
        Lines {
            from,
            buffer: vec![0; CHUNK],
            start: 0,
            full: 0,
            end: 0,
            total: 0,
            over: false,
            odd: false,
        }
    }

    /// Reads more bytes; moves those of unfinished lines to the beginning of the buffer, and doubles it if it is full.
    fn read(&mut self) -> Result<(), Fault> {
        if self.start > 0 {
            self.buffer.copy_within(self.start..self.end, 0);
            self.end -= self.start;
            self.start = 0;
        }
        if self.end == self.buffer.len() {
            self.buffer.resize(2 * self.end, 0);
        }
        let n = loop {
            match self.from.read(&mut self.buffer[self.end..]) {
                Err(e) if e.kind() == io::ErrorKind::Interrupted => {}
                other => break other?,
            }
        };
        let new = &self.buffer[self.end..self.end + n];
        self.over = n == 0;
        self.odd |= !new.is_ascii();
        self.full = match last_line_end(new) {
            Some(at) => self.end + at,
            None if self.over => self.end,
            None => 0,
        };
        self.end += n;
        self.total += n;
        if self.total > SCRIPT_LIMIT {
            return Err(Fault::Script(0, Cause::TooLong));
        }
        Ok(())
    }

    /// Whole lines, at least one, or nothing at the end of the stream; and `odd`.
    #[inline(always)]
    pub fn block(&mut self) -> Result<(&[u8], bool), Fault> {
        while self.start >= self.full && !self.over {
            self.read()?;
        }
        Ok((&self.buffer[self.start..self.full], self.odd))
    }

    /// Passes over bytes of the block.
    #[inline(always)]
    pub fn skip(&mut self, length: usize) {
        self.start += length;
    }

    /// Reads to the end of the stream, to see whether the script is too long.
    pub fn drain(&mut self) -> Result<(), Fault> {
        while !self.over {
            self.start = self.end;
            self.read()?;
        }
        Ok(())
    }
}
