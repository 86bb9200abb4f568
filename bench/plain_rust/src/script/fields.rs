//! Fields of a line: words, numbers, hexadecimal bytes, segments.

use crate::entry::{RIGHT_R, RIGHT_W, RIGHT_X};
use crate::frames::word_of;
use crate::image::Segment;

/// The fields of a line, one after the other.
pub struct Fields<'a> {
    pub rest: &'a [u8],
}

/// Whether the byte separates fields.
#[inline(always)]
pub fn blank(c: u8) -> bool {
    c == b' ' || c == b'\t'
}

/// The union of what `mark` returns, in a form that the compiler turns into vector instructions.
#[inline(always)]
pub fn any(block: &[u8; 64], mark: impl Fn(u8) -> u8) -> u8 {
    block.iter().fold(0, |all, &c| all | mark(c))
}

/// A number of bytes at the beginning that have no blank among them. For long fields.
fn without_blank(bytes: &[u8]) -> usize {
    let blocks = bytes.as_chunks::<64>().0;
    let free = |block: &&[u8; 64]| any(block, |c| u8::from(c == b' ') | u8::from(c == b'\t')) == 0;
    64 * blocks.iter().take_while(free).count()
}

impl<'a> Iterator for Fields<'a> {
    type Item = &'a [u8];

    #[inline(always)]
    fn next(&mut self) -> Option<&'a [u8]> {
        let mut from = 0;
        while from < self.rest.len() && blank(self.rest[from]) {
            from += 1;
        }
        if from == self.rest.len() {
            return None;
        }
        let mut to = from + 1;
        while to < self.rest.len() && !blank(self.rest[to]) {
            to += 1;
            if to - from == 32 {
                to += without_blank(&self.rest[to..]);
            }
        }
        let field = &self.rest[from..to];
        self.rest = &self.rest[to..];
        Some(field)
    }
}

/// The values of hexadecimal digits, and 255 for all other bytes.
const DIGITS: [u8; 256] = {
    let mut table = [255; 256];
    let mut i = 0;
    while i < 10 {
        table[b'0' as usize + i] = i as u8;
        i += 1;
    }
    i = 0;
    while i < 6 {
        table[b'a' as usize + i] = 10 + i as u8;
        table[b'A' as usize + i] = 10 + i as u8;
        i += 1;
    }
    table
};

/// A number: decimal, or hexadecimal after `0x`.
#[inline]
pub fn number(field: &[u8]) -> Option<u64> {
    match field {
        [b'0', b'x', digits @ ..] => hexadecimal(digits),
        _ => decimal(field),
    }
}

#[inline]
fn hexadecimal(digits: &[u8]) -> Option<u64> {
    if digits.is_empty() {
        return None;
    }
    let mut value: u64 = 0;
    for &c in digits {
        let digit = DIGITS[usize::from(c)];
        if digit > 15 || value >> 60 != 0 {
            return None;
        }
        value = value << 4 | u64::from(digit);
    }
    Some(value)
}

#[inline]
fn decimal(field: &[u8]) -> Option<u64> {
    if field.is_empty() {
        return None;
    }
    let mut value: u64 = 0;
    // Nineteen digits have no overflow.
    if field.len() <= 19 {
        for &c in field {
            let digit = c.wrapping_sub(b'0');
            if digit > 9 {
                return None;
            }
            value = value * 10 + u64::from(digit);
        }
        return Some(value);
    }
    for &c in field {
        let digit = c.wrapping_sub(b'0');
        if digit > 9 {
            return None;
        }
        value = value.checked_mul(10)?.checked_add(u64::from(digit))?;
    }
    Some(value)
}

/// A number that may begin with `-`.
pub fn signed(field: &[u8]) -> Option<i64> {
    match field {
        [b'-', rest @ ..] => 0i64.checked_sub_unsigned(number(rest)?),
        _ => i64::try_from(number(field)?).ok(),
    }
}

/// Appends the bytes of HEX; `None` if it has a wrong form.
pub fn hex_into(field: &[u8], out: &mut Vec<u8>) -> Option<()> {
    if field == b"-" {
        return Some(());
    }
    if field.is_empty() || !field.len().is_multiple_of(2) {
        return None;
    }
    let bad =
        |c: u8| u8::from(c.wrapping_sub(b'0') > 9) & u8::from((c | 32).wrapping_sub(b'a') > 5);
    let (blocks, rest) = field.as_chunks::<64>();
    let wrong = blocks.iter().any(|block| any(block, bad) != 0);
    if wrong || rest.iter().any(|&c| bad(c) != 0) {
        return None;
    }
    out.reserve(field.len() / 2);
    let mut chunks = field.chunks_exact(8);
    for chunk in &mut chunks {
        let x = word_of(chunk);
        let letters = x >> 6 & 0x0101_0101_0101_0101;
        let x = (x & 0x0f0f_0f0f_0f0f_0f0f) + letters * 9;
        let x = (x << 4 | x >> 8) & 0x00ff_00ff_00ff_00ff;
        let x = (x | x >> 8) & 0x0000_ffff_0000_ffff;
        out.extend_from_slice(&((x | x >> 16) as u32).to_le_bytes());
    }
    for pair in chunks.remainder().chunks_exact(2) {
        let digit = |c: u8| DIGITS[usize::from(c)];
        out.push(digit(pair[0]) << 4 | digit(pair[1]));
    }
    Some(())
}

/// The rights of the letters of an `image` line.
fn flags(letters: &[u8]) -> Option<u8> {
    if letters == b"-" {
        return Some(RIGHT_R);
    }
    let mut seen = 0;
    for &c in letters {
        let right = match c {
            b'r' => RIGHT_R,
            b'w' => RIGHT_W,
            b'x' => RIGHT_X,
            _ => return None,
        };
        if seen & right != 0 {
            return None;
        }
        seen |= right;
    }
    (seen != 0).then_some(seen | RIGHT_R)
}

/// A segment of an `image` line.
pub fn segment(field: &[u8]) -> Option<Segment> {
    let mut parts = field.split(|&c| c == b':');
    let (vaddr, memsz, letters, hex) = (parts.next()?, parts.next()?, parts.next()?, parts.next()?);
    if parts.next().is_some() {
        return None;
    }
    let mut bytes = Vec::new();
    let segment = Segment {
        vaddr: number(vaddr)?,
        memsz: number(memsz)?,
        rights: flags(letters)?,
        bytes: Vec::new(),
    };
    hex_into(hex, &mut bytes)?;
    Some(Segment { bytes, ..segment })
}

/// A number of a hart, slot, image, file or entry. What is too large for all of them becomes 254, which is too large too.
pub fn small(n: u64) -> u8 {
    n.min(254) as u8
}
