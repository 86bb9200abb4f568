//! The numbers of the C library as enums, and why a call has no answer.

use core::fmt;

/// The kind of an access.
#[derive(Clone, Copy, Debug, PartialEq, Eq, Hash)]
pub enum Access {
    /// An instruction is fetched.
    Fetch,
    /// A load.
    Load,
    /// A store.
    Store,
}

impl Access {
    pub(crate) const fn code(self) -> u32 {
        match self {
            Access::Fetch => xv6vm_sys::XV6VM_FETCH,
            Access::Load => xv6vm_sys::XV6VM_LOAD,
            Access::Store => xv6vm_sys::XV6VM_STORE,
        }
    }
}

/// A privilege mode.
#[derive(Clone, Copy, Debug, PartialEq, Eq, Hash)]
pub enum Mode {
    /// User mode.
    User,
    /// Supervisor mode.
    Supervisor,
    /// Machine mode: of a [`Hart`](crate::Hart) alone.
    Machine,
}

impl Mode {
    pub(crate) const fn code(self) -> u32 {
        match self {
            Mode::User => xv6vm_sys::XV6VM_USER,
            Mode::Supervisor => xv6vm_sys::XV6VM_SUPERVISOR,
            Mode::Machine => xv6vm_sys::XV6VM_MACHINE,
        }
    }
}

/// Why a call has no answer.
#[derive(Clone, Copy, Debug, PartialEq, Eq, Hash)]
#[non_exhaustive]
pub enum Error {
    /// satp has a MODE that the call does not know: other than 0 (Bare), 8 (Sv39) and 9 (Sv48).
    UnknownScheme,
    /// Machine mode is for a [`Hart`](crate::Hart); here the mode is user or supervisor.
    MachineMode,
    /// satp has MODE 0, so there is no page table.
    Bare,
    /// A word of a page table is outside the memory.
    TableOutside,
    /// The place of the TLB is empty, or there is no such place, or its entry does not match.
    NoEntry,
    /// The hart does not write this word to satp: it lacks the MODE, or MODE is 0 and another bit is set.
    NotWritten,
    /// The library returned a status that this crate does not know.
    UnknownStatus(u32),
}

impl fmt::Display for Error {
    fn fmt(&self, f: &mut fmt::Formatter<'_>) -> fmt::Result {
        match self {
            Error::UnknownScheme => f.write_str("satp has a MODE other than 0 (Bare), 8 (Sv39) and 9 (Sv48)"),
            Error::MachineMode => f.write_str("machine mode is for a Hart; here the mode is user or supervisor"),
            Error::Bare => f.write_str("satp has MODE 0, so there is no page table"),
            Error::TableOutside => f.write_str("a word of a page table is outside the memory"),
            Error::NoEntry => f.write_str("the place of the TLB has no entry that matches"),
            Error::NotWritten => {
                f.write_str("the hart does not write this word to satp: it lacks the MODE, or MODE is 0 with another bit set")
            }
            Error::UnknownStatus(status) => write!(f, "the library returned the unknown status {status}"),
        }
    }
}

#[cfg(feature = "std")]
impl std::error::Error for Error {}

/// What stands for a number that C takes beside a flag that says whether it counts.
pub(crate) fn flag<T: Copy + Default>(number: Option<T>) -> (u32, T) {
    (u32::from(number.is_some()), number.unwrap_or_default())
}
