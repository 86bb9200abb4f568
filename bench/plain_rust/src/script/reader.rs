//! Reading of lines: those in plain form, declarations, and the fields of all others.

use super::fields::{blank, hex_into, number, segment, signed, small, Fields};
use super::plain_line::plain_step;
use super::{Boot, Cause, Script, LINES_LIMIT, LINE_LIMIT, WALK};
use crate::entry::{SV39, SV48};
use crate::files::FileText;
use crate::image::{Image, Segment};
use crate::kernel_table::kernel_frames;
use std::io::BufRead;

const FILES: usize = 16;
const FILE_LIMIT: u64 = 65_536;
const IMAGES: usize = 64;
/// The most fields after the word that any line but `image` may have.
const MOST: usize = 6;

/// The fields after the word, `MOST` at most, and how many there are.
pub struct Args<'a> {
    pub fields: [&'a [u8]; MOST],
    pub count: usize,
}

impl<'a> Args<'a> {
    #[inline(always)]
    fn of(fields: Fields<'a>) -> Args<'a> {
        let mut args = Args {
            fields: [&[]; MOST],
            count: 0,
        };
        for field in fields {
            if args.count < MOST {
                args.fields[args.count] = field;
            }
            args.count += 1;
        }
        args
    }

    #[inline(always)]
    pub fn exactly(&self, count: usize) -> Result<(), Cause> {
        match self.count == count {
            true => Ok(()),
            false => Err(Cause::Count),
        }
    }

    /// The field as a number.
    pub fn number(&self, at: usize) -> Result<u64, Cause> {
        number(self.fields[at]).ok_or(Cause::Number)
    }

    /// The field as a signed number.
    pub fn signed(&self, at: usize) -> Result<i64, Cause> {
        signed(self.fields[at]).ok_or(Cause::Number)
    }

    /// The first `N` fields as numbers.
    #[inline(always)]
    pub fn numbers<const N: usize>(&self) -> Result<[u64; N], Cause> {
        let mut numbers = [0; N];
        for (n, field) in numbers.iter_mut().zip(&self.fields) {
            *n = number(field).ok_or(Cause::Number)?;
        }
        Ok(numbers)
    }

    /// `N` numbers and, if there is one field more, the buffer entry that it names.
    #[inline(always)]
    pub fn maybe_entry<const N: usize>(&self) -> Result<([u64; N], u8), Cause> {
        if self.count != N && self.count != N + 1 {
            return Err(Cause::Count);
        }
        let numbers = self.numbers()?;
        if self.count == N {
            return Ok((numbers, WALK));
        }
        match self.fields[N] {
            [b'@', rest @ ..] => Ok((numbers, small(number(rest).ok_or(Cause::Field)?))),
            _ => Err(Cause::Field),
        }
    }
}

/// What was read so far.
#[derive(Default)]
pub struct Reader {
    pub script: Script,
    threads: bool,
    /// The number of lines read, skipped ones too.
    pub line: u32,
    /// The number of lines after `boot` or `pool` that are not skipped.
    pub after: u32,
    /// The line and the list of each fork.
    pub forks: Vec<(u32, u64)>,
    /// The list that the next call is of.
    pub open_list: Option<usize>,
}

impl Reader {
    /// A reader of a script or, if `threads`, of a file for threads.
    pub fn new(threads: bool) -> Reader {
        Reader {
            threads,
            ..Reader::default()
        }
    }

    /// Reads the first line of the block; returns its length, and its fault.
    #[inline(always)]
    pub fn next(&mut self, block: &[u8], odd: bool) -> (usize, Result<(), Cause>) {
        if !odd {
            if let Some(length) = self.plain(block) {
                return (length, Ok(()));
            }
        }
        self.any_line(block, odd)
    }

    #[inline(never)]
    fn any_line(&mut self, block: &[u8], odd: bool) -> (usize, Result<(), Cause>) {
        let mut rest = block;
        // Reading from memory cannot fail.
        let length = rest.skip_until(b'\n').unwrap_or(block.len());
        let line = block[..length].strip_suffix(b"\n");
        (length, self.line(line.unwrap_or(block), odd))
    }

    /// Reads a step in plain form, if one may come here, and returns the length of its line.
    #[inline(always)]
    fn plain(&mut self, block: &[u8]) -> Option<usize> {
        if self.script.boot.is_none() || self.after >= LINES_LIMIT {
            return None;
        }
        let (command, length) = if self.threads {
            self.plain_call(block)?
        } else {
            let images = self.script.images.len() as u64;
            plain_step::<false>(block, images).filter(|step| step.1 <= LINE_LIMIT)?
        };
        self.script.commands.push(command);
        self.line += 1;
        self.after += 1;
        Some(length)
    }

    /// Reads a line: one of any form.
    fn line(&mut self, line: &[u8], odd: bool) -> Result<(), Cause> {
        self.line += 1;
        let line = line.strip_suffix(b"\r").unwrap_or(line);
        if line.len() > LINE_LIMIT {
            return Err(Cause::TooLong);
        }
        if odd && !line.is_ascii() {
            return Err(Cause::NotAscii);
        }
        let first = line.iter().position(|&c| !blank(c));
        let Some(first) = first.filter(|&at| line[at] != b'#') else {
            return Ok(());
        };
        let mut fields = Fields {
            rest: &line[first..],
        };
        let word = fields.next().unwrap_or(&[]);
        match word {
            b"file" | b"image" | b"elf" => self.declaration(word, fields),
            _ if self.threads => self.threads_line(word, Args::of(fields)),
            _ => self.play_line(word, Args::of(fields)),
        }
    }

    fn declaration(&mut self, word: &[u8], fields: Fields<'_>) -> Result<(), Cause> {
        if self.script.boot.is_some() {
            return Err(Cause::Order);
        }
        let image = match word {
            b"file" => return self.file(Args::of(fields)),
            b"elf" => {
                let args = Args::of(fields);
                args.exactly(1)?;
                let mut bytes = Vec::new();
                hex_into(args.fields[0], &mut bytes).ok_or(Cause::Field)?;
                Image::Elf(bytes)
            }
            _ => {
                let segments: Option<Vec<Segment>> = fields.map(segment).collect();
                let segments = segments.ok_or(Cause::Field)?;
                if segments.is_empty() {
                    return Err(Cause::Count);
                }
                Image::Segments(segments)
            }
        };
        if self.script.images.len() == IMAGES {
            return Err(Cause::TooMany);
        }
        self.script.images.push(image);
        Ok(())
    }

    fn file(&mut self, args: Args<'_>) -> Result<(), Cause> {
        args.exactly(3)?;
        let [length] = args.numbers()?;
        let writable = match args.fields[1] {
            b"rw" => true,
            b"ro" => false,
            _ => return Err(Cause::Field),
        };
        let mut bytes = Vec::new();
        hex_into(args.fields[2], &mut bytes).ok_or(Cause::Field)?;
        if length > FILE_LIMIT || bytes.len() as u64 > length {
            return Err(Cause::Limits);
        }
        if self.script.files.len() == FILES {
            return Err(Cause::TooMany);
        }
        bytes.resize(length as usize, 0);
        self.script.files.push(FileText { bytes, writable });
        Ok(())
    }

    /// Boots with these harts, frames and slots. `most` is the greatest number of frames.
    pub fn boot(
        &mut self,
        [harts, frames, slots]: [u64; 3],
        asid: bool,
        sv48: bool,
        most: u64,
    ) -> Result<(), Cause> {
        let levels = if sv48 { SV48 } else { SV39 };
        let good = (1..=8).contains(&harts)
            && (16..=most).contains(&frames)
            && (1..=64).contains(&slots)
            && kernel_frames(frames, slots, levels) <= frames;
        if !good {
            return Err(Cause::Limits);
        }
        self.script.boot = Some(Boot {
            harts: harts as u8,
            frames: frames as u32,
            slots: slots as u8,
            asid,
            sv48,
        });
        self.after = 0;
        Ok(())
    }

    /// The number of a declared image.
    pub fn image(&self, n: u64) -> Result<u8, Cause> {
        match n < self.script.images.len() as u64 {
            true => Ok(n as u8),
            false => Err(Cause::Limits),
        }
    }
}
