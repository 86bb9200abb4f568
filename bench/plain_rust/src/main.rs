//! `plain_rust`: what `xv6vm` does, in plain safe Rust and written for speed. Nothing of it is proved: it is the measuring
//! stick of `docs/PERFORMANCE.md`.
//!
//! ```text
//! plain_rust play FILE               # as xv6vm play FILE
//! plain_rust threads FILE --harts N  # as xv6vm threads FILE --harts N
//! ```
//!
//! It prints what `xv6vm` prints, byte for byte, the name `xv6vm` in its errors too, and ends with the same status;
//! `docs/SCRIPTS.md` describes both. There is one difference: if the host has no memory, it aborts. `bench/beside_plain`
//! builds it, plays the scripts of `bench/scripts` by both programs and compares times, peak memory and texts;
//! `bench/beside_plain --rows` compares its answers with the stored ones of `crates/row_player/data`. It uses std alone and no
//! `unsafe`: `cargo build --release --offline` needs nothing else.
//!
//! What it does for speed:
//!
//! - A script is read through a buffer. A step in plain form is read in one pass over its bytes (`script/plain_line.rs`), any
//!   other line field by field. A step takes 24 bytes.
//! - A process keeps a list of its lowest page tables, with the number of pages that each maps (`space`). Fork, exit and a
//!   shrinking heap pass over empty tables, and copy or drop the others table by table.
//! - What depends on the levels of the page tables is compiled once for Sv39 and once for Sv48.
//! - A buffer is a ring of 32 entries, each with the word of its leaf.
//! - Harts as threads: each has its part of the run queue behind a lock of its own, makes up to eight calls before the process
//!   goes back, and takes half of another's part when its own is empty. Frames are atomic words; each count of references has
//!   a cache line of its own.

mod entry;
mod files;
mod frames;
mod image;
mod kernel_table;
mod list;
mod machine;
mod output;
mod reply;
mod script;
mod shared_frames;
mod space;
mod threads;

use script::{Fault, Script};
use std::fs::File;
use std::io::{self, Read};
use std::process::ExitCode;

const USAGE: &str = "xv6vm: usage: xv6vm play FILE | xv6vm threads FILE --harts N";

fn usage() -> ExitCode {
    eprintln!("{USAGE}");
    ExitCode::from(2)
}

/// Reads the file of this name, or standard input if it is `-`.
fn read(
    name: &str,
    with: impl Fn(&mut dyn Read) -> Result<Script, Fault>,
) -> Result<Script, Fault> {
    if name == "-" {
        return with(&mut io::stdin().lock());
    }
    with(&mut File::open(name)?)
}

/// Prints the fault, if there is one, to standard error, and returns the exit status.
fn status(ran: Result<(), Fault>) -> ExitCode {
    match ran {
        Ok(()) => return ExitCode::SUCCESS,
        Err(Fault::Script(line, cause)) => {
            eprintln!("xv6vm: refused 23 Script line {line} {cause:?}");
        }
        Err(Fault::Io) => eprintln!("xv6vm: refused 24 Io"),
    }
    ExitCode::from(1)
}

fn play(name: &str) -> Result<(), Fault> {
    let script = read(name, |from| script::read_play(from))?;
    Ok(machine::play(script, io::stdout().lock())?)
}

fn play_threads(name: &str, harts: usize) -> Result<(), Fault> {
    let script = read(name, |from| script::read_threads(from))?;
    Ok(threads::play_threads(script, harts, io::stdout().lock())?)
}

/// A number of harts: decimal, 1 to 8.
fn harts(word: &str) -> Option<usize> {
    let decimal = !word.is_empty() && word.bytes().all(|c| c.is_ascii_digit());
    let n: usize = word.parse().ok().filter(|_| decimal)?;
    (1..=8).contains(&n).then_some(n)
}

fn main() -> ExitCode {
    let words: Result<Vec<String>, _> = std::env::args_os()
        .skip(1)
        .map(|word| word.into_string())
        .collect();
    let words = words.unwrap_or_default();
    let words: Vec<&str> = words.iter().map(String::as_str).collect();
    let is_name = |word: &str| word == "-" || !word.starts_with('-');
    match words[..] {
        ["play", name] if is_name(name) => status(play(name)),
        ["threads", name, "--harts", n] | ["threads", "--harts", n, name] if is_name(name) => {
            match harts(n) {
                Some(n) => status(play_threads(name, n)),
                None => usage(),
            }
        }
        _ => usage(),
    }
}
