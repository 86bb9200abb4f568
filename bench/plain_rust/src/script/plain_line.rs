//! Steps in plain form, each read in one pass over the bytes of its line. What has another form is left to `reader.rs`.

use super::fields::{blank, small};
use super::{width, Command, WALK};
use crate::entry::Access;

/// A place in a line. Each function reads on from there, and returns `None` if the line is not in plain form.
struct Cursor<'a> {
    bytes: &'a [u8],
    at: usize,
}

/// The bytes of a word, at most eight, as a number.
const fn key(word: &[u8]) -> u64 {
    let (mut key, mut i) = (0, 0);
    while i < word.len() {
        key |= (word[i] as u64) << (8 * i);
        i += 1;
    }
    key
}

const LOAD: u64 = key(b"load ");
const STORE: u64 = key(b"store ");
const FETCH: u64 = key(b"fetch ");
const FILL: u64 = key(b"fill ");
const ON: u64 = key(b"on ");
const ENTER: u64 = key(b"enter ");
const LEAVE: u64 = key(b"leave ");
const FIX: u64 = key(b"fix ");
const EXEC: u64 = key(b"exec ");

/// Of eight bytes, the first lowest: how many hexadecimal digits they begin with, and the value of these.
#[inline(always)]
fn hex_run(x: u64) -> (u32, u64) {
    const ONES: u64 = 0x0101_0101_0101_0101;
    const HIGH: u64 = 0x80 * ONES;
    let y = x | (0x20 * ONES);
    let digits = (x + 0x50 * ONES) & !(x + 0x46 * ONES);
    let letters = (y + 0x1f * ONES) & !(y + 0x19 * ONES);
    let count = (!(digits | letters) & HIGH).trailing_zeros() / 8;
    let nibbles = (x & (0x0f * ONES)) + 9 * (x >> 6 & ONES);
    let v = nibbles.swap_bytes();
    let v = (v | v >> 4) & 0x00ff_00ff_00ff_00ff;
    let v = (v | v >> 8) & 0x0000_ffff_0000_ffff;
    let v = (v | v >> 16) & 0xffff_ffff;
    (count, v >> (4 * (8 - count)))
}

impl Cursor<'_> {
    /// The next eight bytes.
    #[inline(always)]
    fn eight(&self) -> Option<u64> {
        let rest = self.bytes.get(self.at..)?;
        Some(u64::from_le_bytes(*rest.first_chunk::<8>()?))
    }

    #[inline(always)]
    fn byte(&self) -> Option<u8> {
        self.bytes.get(self.at).copied()
    }

    /// The word of the line, at most six bytes, and the space after it, as their key.
    #[inline(always)]
    fn word(&mut self) -> Option<u64> {
        const ONES: u64 = 0x0101_0101_0101_0101;
        let x = self.eight()?;
        let spaces = x ^ (0x20 * ONES);
        let found = spaces.wrapping_sub(ONES) & !spaces & (0x80 * ONES);
        let length = found.trailing_zeros() / 8;
        self.at = length as usize;
        (length < 7).then(|| x & ((1 << (8 * length + 8)) - 1))
    }

    /// At least one blank, and a number.
    #[inline(always)]
    fn number(&mut self) -> Option<u64> {
        if !blank(self.byte()?) {
            return None;
        }
        while blank(self.byte()?) {
            self.at += 1;
        }
        let x = self.eight()?;
        if x & 0xffff == key(b"0x") {
            self.at += 2;
            return self.hex();
        }
        let from = self.at;
        let mut value: u64 = 0;
        loop {
            let digit = self.byte()?.wrapping_sub(b'0');
            if digit > 9 {
                break;
            }
            value = value.wrapping_mul(10).wrapping_add(u64::from(digit));
            self.at += 1;
        }
        (1..=19).contains(&(self.at - from)).then_some(value)
    }

    /// The digits of a hexadecimal number.
    #[inline(always)]
    fn hex(&mut self) -> Option<u64> {
        let (count, mut value) = hex_run(self.eight()?);
        self.at += count as usize;
        if count == 0 {
            return None;
        }
        let mut last = count;
        while last == 8 {
            let (count, low) = hex_run(self.eight()?);
            if count > 0 && value >> (64 - 4 * count) != 0 {
                return None;
            }
            value = value << (4 * count) | low;
            self.at += count as usize;
            last = count;
        }
        Some(value)
    }

    /// The line's end, a line feed.
    #[inline(always)]
    fn end(&mut self) -> Option<()> {
        if self.byte()? != b'\n' {
            return None;
        }
        self.at += 1;
        Some(())
    }

    /// The line's end, or `@N` and the line's end.
    #[inline(always)]
    fn via(&mut self) -> Option<u8> {
        if self.end().is_some() {
            return Some(WALK);
        }
        if self.bytes.get(self.at..self.at + 2)? != b" @" {
            return None;
        }
        self.at += 2;
        let mut n: u8 = 0;
        let from = self.at;
        while let digit @ 0..=9 = self.byte()?.wrapping_sub(b'0') {
            n = n.wrapping_mul(10).wrapping_add(digit);
            self.at += 1;
        }
        self.end()?;
        (1..=2).contains(&(self.at - 1 - from)).then_some(n)
    }
}

/// A step or a call other than an access.
#[inline(always)]
fn other_step(line: &mut Cursor<'_>, word: u64, images: u64) -> Option<Command> {
    let hart = small(line.number()?);
    let command = match word {
        ENTER => Command::Enter { hart },
        LEAVE => Command::Leave { hart },
        FIX => Command::Fix { hart },
        FILL => Command::Fill {
            hart,
            va: line.number()?,
        },
        ON => Command::On {
            hart,
            slot: small(line.number()?),
        },
        EXEC => Command::Exec {
            hart,
            image: line.number().filter(|&n| n < images)? as u8,
        },
        _ => return None,
    };
    line.end()?;
    Some(command)
}

/// Reads a line in plain form, of a script or, if `THREADS`, of a list; returns its step or call, and its length.
#[inline(always)]
pub fn plain_step<const THREADS: bool>(bytes: &[u8], images: u64) -> Option<(Command, usize)> {
    let mut line = Cursor { bytes, at: 0 };
    let word = line.word()?;
    let access = match word {
        LOAD => Access::Load,
        STORE => Access::Store,
        FETCH => Access::Fetch,
        _ if THREADS => return None,
        _ => {
            let command = other_step(&mut line, word, images)?;
            return Some((command, line.at));
        }
    };
    let hart = if THREADS { 0 } else { small(line.number()?) };
    let va = line.number()?;
    let width = match access {
        Access::Fetch => 4,
        _ => width(line.number()?).ok()?,
    };
    let value = match access {
        Access::Store => line.number()?,
        _ => 0,
    };
    let via = match THREADS {
        true => line.end().map(|()| WALK)?,
        false => line.via()?,
    };
    let command = Command::Use {
        hart,
        access,
        width,
        via,
        va,
        value,
    };
    Some((command, line.at))
}
