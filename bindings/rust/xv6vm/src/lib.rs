//! A proved reference for RISC-V MMUs: walks of Sv39 and Sv48, a TLB of whole walks, and a judge that says whether an outcome is one
//! that the standard permits after what happened at a hart. It calls the C library libxv6vm; what that returns is proved, this crate is
//! tested.
//!
//! ```
//! use xv6vm::{Access, Memory, Mode, Outcome};
//!
//! // A root at page 0x80000. Its first word maps 1 GiB at 0x80000000, for users.
//! let mut words = vec![0u64; 512];
//! words[0] = 0x80000 << 10 | 0xdf;
//! let memory = Memory::new(0x80000, &words);
//! let satp = 8 << 60 | 0x80000;
//! let outcome = memory.translate(satp, 0x123, Access::Load, Mode::User)?;
//! assert_eq!(outcome, Outcome::Leaf { level: 2, word: words[0], address: 0x8000_0123 });
//! assert_eq!(memory.translate(satp, 1 << 30, Access::Load, Mode::User)?, Outcome::PageFault { cause: 13 });
//! # Ok::<(), xv6vm::Error>(())
//! ```
//!
//! [`Memory`] is one run of words. A table or a page elsewhere is outside of it: an access fault. [`Regions`] are several runs, and
//! [`translate_by`] asks a closure of yours for each word; both say why an access faults.
#![no_std]
#![warn(missing_docs)]
#![deny(unsafe_op_in_unsafe_fn)]

#[cfg(feature = "alloc")]
extern crate alloc;
#[cfg(feature = "std")]
extern crate std;

mod codes;
#[cfg(feature = "alloc")]
mod hart;
mod memory;
#[cfg(feature = "play")]
mod script;
mod tlb;
mod walk;

pub use codes::{Access, Error, Mode};
#[cfg(feature = "alloc")]
pub use hart::{Hart, Judged, MemoryType, Pmps, Profile, Request, Status, Update, Width};
pub use memory::{Leaf, Memory, Outcome};
#[cfg(all(feature = "play", feature = "alloc"))]
pub use script::Script;
#[cfg(feature = "play")]
pub use script::{play_into, ScriptError, ScriptFault};
pub use tlb::{Entry, Question, Tlb};
pub use walk::{translate_by, Asked, Pte, Reason, Regions, Translation, Walk};

/// The version of the C library that this crate is for.
pub const VERSION: &str = xv6vm_sys::XV6VM_VERSION;
