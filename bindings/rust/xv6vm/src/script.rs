//! Scripts of xv6's virtual memory.

use core::fmt;
use xv6vm_sys as sys;

/// Why a line of a script is at fault.
#[derive(Clone, Copy, Debug, PartialEq, Eq, Hash)]
#[non_exhaustive]
pub enum ScriptFault {
    /// A line, or the script, has too many bytes.
    TooLong,
    /// A byte is not ASCII.
    NotAscii,
    /// No line begins with this word.
    Word,
    /// A declaration after `boot`, another line before it, or no `boot`.
    Order,
    /// The wrong number of fields.
    Count,
    /// A field is no number of its range.
    Number,
    /// A field has a wrong form.
    Field,
    /// A value is outside its limits.
    Limits,
    /// Too many files, images or lines.
    TooMany,
    /// A cause that this crate does not know.
    Unknown(u32),
}

impl ScriptFault {
    fn read(cause: u32) -> ScriptFault {
        match cause {
            sys::XV6VM_TOO_LONG => ScriptFault::TooLong,
            sys::XV6VM_NOT_ASCII => ScriptFault::NotAscii,
            sys::XV6VM_WORD => ScriptFault::Word,
            sys::XV6VM_ORDER => ScriptFault::Order,
            sys::XV6VM_COUNT => ScriptFault::Count,
            sys::XV6VM_NUMBER => ScriptFault::Number,
            sys::XV6VM_FIELD => ScriptFault::Field,
            sys::XV6VM_LIMITS => ScriptFault::Limits,
            sys::XV6VM_TOO_MANY => ScriptFault::TooMany,
            cause => ScriptFault::Unknown(cause),
        }
    }
}

/// Why a script was not played.
#[derive(Clone, Copy, Debug, PartialEq, Eq, Hash)]
#[non_exhaustive]
pub enum ScriptError {
    /// The script is at fault.
    Fault {
        /// The first line at fault, from 1; 0 is the script as a whole.
        line: u64,
        /// Why.
        cause: ScriptFault,
    },
    /// malloc returned NULL.
    NoMemory,
    /// The text has so many bytes, more than the buffer.
    NoRoom(usize),
    /// The library returned a status that this crate does not know.
    UnknownStatus(u32),
}

impl fmt::Display for ScriptError {
    fn fmt(&self, f: &mut fmt::Formatter<'_>) -> fmt::Result {
        match self {
            ScriptError::Fault { line, cause } => write!(f, "line {line} is at fault: {cause:?}"),
            ScriptError::NoMemory => f.write_str("the host is out of memory"),
            ScriptError::NoRoom(needed) => write!(f, "the text has {needed} bytes, more than the buffer"),
            ScriptError::UnknownStatus(status) => write!(f, "the library returned the unknown status {status}"),
        }
    }
}

#[cfg(feature = "std")]
impl std::error::Error for ScriptError {}

/// Plays a script, and writes its text, a line for each answer, to the front of `text`. Returns how many bytes it has.
///
/// # Errors
/// `Fault`; `NoMemory`; `NoRoom`. `text` is as it was.
pub fn play_into(script: &[u8], text: &mut [u8]) -> Result<usize, ScriptError> {
    let mut written = 0usize;
    // SAFETY: two slices with their lengths, never null. `text` is borrowed mutably, `written` is of this function, and nobody writes
    // `script` while it is borrowed.
    let played = unsafe { sys::xv6vm_play(script.as_ptr(), script.len(), text.as_mut_ptr(), text.len(), &mut written) };
    match played.status {
        sys::XV6VM_PLAYED => Ok(written),
        sys::XV6VM_NO_MEMORY => Err(ScriptError::NoMemory),
        sys::XV6VM_NO_ROOM => Err(ScriptError::NoRoom(written)),
        sys::XV6VM_SCRIPT => Err(ScriptError::Fault { line: played.line, cause: ScriptFault::read(played.cause) }),
        status => Err(ScriptError::UnknownStatus(status)),
    }
}

/// A script: the lines that `xv6vm play` takes.
///
/// ```
/// use xv6vm::Script;
///
/// let script = Script::new("image 0x1000:0x1000:rw:61\nboot 1 64 2 full\nstart 0\non 0 0\nload 0 0x1000 1\n");
/// assert_eq!(script.play()?, "ok\nslot 0\nok\nvalue 0x61\n");
/// # Ok::<(), xv6vm::ScriptError>(())
/// ```
#[cfg(feature = "alloc")]
#[derive(Clone, Copy, Debug)]
pub struct Script<'a> {
    bytes: &'a [u8],
}

#[cfg(feature = "alloc")]
impl<'a> Script<'a> {
    /// Takes the text of a script.
    pub fn new<T: AsRef<[u8]> + ?Sized>(text: &'a T) -> Script<'a> {
        Script { bytes: text.as_ref() }
    }

    /// Plays it on a machine that lives as long as the call, and returns its text.
    ///
    /// # Errors
    /// `Fault`; `NoMemory`.
    pub fn play(&self) -> Result<alloc::string::String, ScriptError> {
        let mut text = alloc::vec![0; 4096];
        loop {
            match play_into(self.bytes, &mut text) {
                Ok(written) => {
                    text.truncate(written);
                    return Ok(alloc::string::String::from_utf8_lossy(&text).into_owned());
                }
                Err(ScriptError::NoRoom(needed)) => text.resize(needed, 0),
                Err(error) => return Err(error),
            }
        }
    }
}
