//! The output: numbers and bytes as text, in pieces of 64 KiB.

use crate::reply::{Refusal, Reply, Stop};
use std::io::{self, Write};

/// A number as eight hexadecimal digits, the highest first, by operations on one word.
#[inline(always)]
fn hex8(x: u32) -> [u8; 8] {
    let mut v = u64::from(x);
    v = (v | v << 16) & 0x0000_ffff_0000_ffff;
    v = (v | v << 8) & 0x00ff_00ff_00ff_00ff;
    v = (v | v << 4) & 0x0f0f_0f0f_0f0f_0f0f;
    let letters = (v + 0x0606_0606_0606_0606) >> 4 & 0x0101_0101_0101_0101;
    (v + 0x3030_3030_3030_3030 + letters * 39).to_be_bytes()
}

const FLUSH: usize = 1 << 16;

/// Collects text, and writes it whenever it has 64 KiB or more.
pub struct Out<W: Write> {
    buffer: Vec<u8>,
    to: W,
}

impl<W: Write> Out<W> {
    pub fn new(to: W) -> Out<W> {
        Out {
            buffer: Vec::with_capacity(FLUSH + 1024),
            to,
        }
    }

    pub fn text(&mut self, text: &str) {
        self.buffer.extend_from_slice(text.as_bytes());
    }

    pub fn decimal(&mut self, mut value: u64) {
        let mut digits = [0; 20];
        let mut at = 20;
        loop {
            at -= 1;
            digits[at] = b'0' + (value % 10) as u8;
            value /= 10;
            if value == 0 {
                break;
            }
        }
        self.buffer.extend_from_slice(&digits[at..]);
    }

    pub fn signed(&mut self, value: i64) {
        if value < 0 {
            self.buffer.push(b'-');
        }
        self.decimal(value.unsigned_abs());
    }

    /// `0x` and lower-case digits without leading zeros.
    pub fn hex(&mut self, value: u64) {
        let mut digits = [0; 16];
        digits[..8].copy_from_slice(&hex8((value >> 32) as u32));
        digits[8..].copy_from_slice(&hex8(value as u32));
        let skip = (value | 1).leading_zeros() as usize / 4;
        self.text("0x");
        self.buffer.extend_from_slice(&digits[skip..]);
    }

    /// Two hexadecimal digits for each byte, `-` for none.
    pub fn bytes(&mut self, bytes: &[u8]) {
        if bytes.is_empty() {
            return self.text("-");
        }
        let from = self.buffer.len();
        self.buffer.resize(from + 2 * bytes.len(), 0);
        let (words, rest) = bytes.as_chunks::<4>();
        let (texts, tail) = self.buffer[from..].split_at_mut(8 * words.len());
        for (text, word) in texts.as_chunks_mut::<8>().0.iter_mut().zip(words) {
            *text = hex8(u32::from_be_bytes(*word));
        }
        for (text, &byte) in tail.chunks_exact_mut(2).zip(rest) {
            text.copy_from_slice(&hex8(u32::from(byte))[6..]);
        }
    }

    /// A word and a decimal number.
    #[inline(always)]
    fn numbered(&mut self, word: &str, value: u64) {
        self.text(word);
        self.decimal(value);
    }

    /// A word and a hexadecimal number.
    #[inline(always)]
    fn in_hex(&mut self, word: &str, value: u64) {
        self.text(word);
        self.hex(value);
    }

    /// Two texts.
    #[inline(always)]
    pub fn pair(&mut self, word: &str, text: &str) {
        self.text(word);
        self.text(text);
    }

    /// The reply of a step, without the line's end. `scratch` has the bytes that `copyin` read.
    pub fn reply(&mut self, reply: Result<Reply, Refusal>, scratch: &[u8]) {
        match reply {
            Err(refusal) => self.pair("refused ", refusal.text()),
            Ok(Reply::Value(value)) => self.in_hex("value ", value),
            Ok(Reply::Stored) => self.text("stored"),
            Ok(Reply::Done) => self.text("ok"),
            Ok(Reply::Slot(slot)) => self.numbered("slot ", slot.into()),
            Ok(Reply::Fault(cause)) => self.numbered("fault ", cause.into()),
            Ok(Reply::Entry(n)) => self.numbered("entry ", n.into()),
            Ok(Reply::InFrame(n)) => self.numbered("frame ", n.into()),
            Ok(Reply::Ready) => self.text("ready"),
            Ok(Reply::Ended(rule)) => self.pair("ended ", rule.text()),
            Ok(Reply::Old(size)) => self.in_hex("old ", size),
            Ok(Reply::At(va)) => self.in_hex("at ", va),
            Ok(Reply::CopiedIn(n)) => {
                self.numbered("copied ", n as u64);
                self.text(" ");
                self.bytes(&scratch[..n]);
            }
            Ok(Reply::ShortIn(stop, done)) => {
                self.short(stop, done);
                self.text(" ");
                self.bytes(&scratch[..done]);
            }
            Ok(Reply::CopiedOut(n)) => self.numbered("copied ", n as u64),
            Ok(Reply::ShortOut(stop, done)) => self.short(stop, done),
            Ok(Reply::Exited(status)) => {
                self.text("exited ");
                self.signed(status.into());
            }
        }
    }

    /// A copy that stopped after `done` bytes.
    fn short(&mut self, stop: Stop, done: usize) {
        self.text("short ");
        self.text(stop.text());
        self.text(" done ");
        self.decimal(done as u64);
    }

    /// Ends the line; writes what was collected if it is enough.
    #[inline]
    pub fn end_line(&mut self) -> io::Result<()> {
        self.buffer.push(b'\n');
        if self.buffer.len() >= FLUSH {
            self.flush()?;
        }
        Ok(())
    }

    /// Writes what was collected.
    pub fn flush(&mut self) -> io::Result<()> {
        self.to.write_all(&self.buffer)?;
        self.buffer.clear();
        self.to.flush()
    }
}
