//! Physical memory that a caller lends, and walks over it.

use crate::codes::{Access, Error, Mode};
use xv6vm_sys as sys;

/// The outcome of the translation of an access.
#[derive(Clone, Copy, Debug, PartialEq, Eq, Hash)]
pub enum Outcome {
    /// A leaf permits the access.
    Leaf {
        /// 0 for a page of 4,096 bytes, 1 to 3 for superpages of 2^(12 + 9 * level) bytes.
        level: u32,
        /// Its page table entry.
        word: u64,
        /// The physical address.
        address: u64,
    },
    /// satp has MODE 0: no translation, and no memory is looked at.
    Bare {
        /// The physical address, which is the address of the access.
        address: u64,
    },
    /// No leaf permits the access.
    PageFault {
        /// The exception code, as in scause: 12, 13 or 15.
        cause: u64,
    },
    /// A word of a page table, or the byte at the physical address, is outside the memory.
    AccessFault {
        /// The exception code, as in scause: 1, 5 or 7.
        cause: u64,
    },
}

impl Outcome {
    /// Returns the physical address, if there is one.
    pub const fn address(&self) -> Option<u64> {
        match *self {
            Outcome::Leaf { address, .. } | Outcome::Bare { address } => Some(address),
            _ => None,
        }
    }

    /// Returns the exception code of a fault.
    pub const fn cause(&self) -> Option<u64> {
        match *self {
            Outcome::PageFault { cause } | Outcome::AccessFault { cause } => Some(cause),
            _ => None,
        }
    }

    pub(crate) fn read(raw: sys::xv6vm_outcome) -> Result<Outcome, Error> {
        let sys::xv6vm_outcome { status, level, word, address, cause } = raw;
        match status {
            sys::XV6VM_LEAF => Ok(Outcome::Leaf { level, word, address }),
            sys::XV6VM_BARE => Ok(Outcome::Bare { address }),
            sys::XV6VM_PAGE_FAULT => Ok(Outcome::PageFault { cause }),
            sys::XV6VM_ACCESS_FAULT => Ok(Outcome::AccessFault { cause }),
            sys::XV6VM_NO_ENTRY => Err(Error::NoEntry),
            sys::XV6VM_UNKNOWN if cause == 2 => Err(Error::MachineMode),
            sys::XV6VM_UNKNOWN if cause == 3 => Err(Error::UnknownScheme),
            status => Err(Error::UnknownStatus(status)),
        }
    }

    pub(crate) fn raw(self) -> sys::xv6vm_outcome {
        let none = sys::xv6vm_outcome::default();
        match self {
            Outcome::Leaf { level, word, address } => {
                sys::xv6vm_outcome { status: sys::XV6VM_LEAF, level, word, address, cause: 0 }
            }
            Outcome::Bare { address } => sys::xv6vm_outcome { status: sys::XV6VM_BARE, address, ..none },
            Outcome::PageFault { cause } => sys::xv6vm_outcome { status: sys::XV6VM_PAGE_FAULT, cause, ..none },
            Outcome::AccessFault { cause } => sys::xv6vm_outcome { status: sys::XV6VM_ACCESS_FAULT, cause, ..none },
        }
    }
}

/// The leaf that a walk finds.
#[derive(Clone, Copy, Debug, PartialEq, Eq, Hash)]
pub struct Leaf {
    /// 0 for a page of 4,096 bytes, 1 to 3 for superpages of 2^(12 + 9 * level) bytes.
    pub level: u32,
    /// Its page table entry.
    pub word: u64,
    /// The physical address. It need not be inside the memory.
    pub address: u64,
    /// Whether the leaf or a pointer on the way to it has G.
    pub global: bool,
}

/// Physical memory: one run of 64-bit words from a page on, 512 words a page. All else is outside it. For several runs there are
/// [`Regions`](crate::Regions), for memory behind a call of yours [`translate_by`](crate::translate_by).
///
/// It borrows the words, so make one for each call, or for as long as no word changes.
#[derive(Clone, Copy, Debug)]
pub struct Memory<'a> {
    base_ppn: u64,
    words: &'a [u64],
}

impl<'a> Memory<'a> {
    /// Lends the words of the pages from physical page number `base_ppn` on. The last page may be there in part.
    pub const fn new(base_ppn: u64, words: &'a [u64]) -> Memory<'a> {
        Memory { base_ppn, words }
    }

    /// Lends bytes, as an emulator's RAM often is. `None` if their number is no multiple of 8, or they do not begin at a multiple of 8 in
    /// the host's memory; those of a large `Vec` do.
    ///
    /// ```
    /// # use xv6vm::Memory;
    /// let mut ram = vec![0u8; 1 << 20];
    /// ram[8] = 0xff;
    /// let memory = Memory::from_bytes(0x80000, &ram).expect("a whole number of aligned words");
    /// assert_eq!(memory.words()[1], 0xff);
    /// assert!(Memory::from_bytes(0x80000, &ram[1..]).is_none());
    /// ```
    #[cfg(target_endian = "little")]
    pub fn from_bytes(base_ppn: u64, bytes: &'a [u8]) -> Option<Memory<'a>> {
        // SAFETY: any 8 bytes are a u64, and the slice of words borrows as long as that of bytes.
        let (before, words, after) = unsafe { bytes.align_to::<u64>() };
        (before.is_empty() && after.is_empty()).then_some(Memory::new(base_ppn, words))
    }

    /// Returns the number of the first page.
    pub const fn base_ppn(&self) -> u64 {
        self.base_ppn
    }

    /// Returns the words.
    pub const fn words(&self) -> &'a [u64] {
        self.words
    }

    /// Returns the word at a physical address, of which the low 3 bits do not count; `None` if it is outside the memory.
    ///
    /// ```
    /// # use xv6vm::Memory;
    /// let words = [7, 8, 9];
    /// let memory = Memory::new(0x80000, &words);
    /// assert_eq!((memory.read(0x8000_0010), memory.read(0x8000_0017)), (Some(9), Some(9)));
    /// assert_eq!((memory.read(0x8000_0018), memory.read(0x7fff_fff8)), (None, None));
    /// ```
    pub fn read(&self, address: u64) -> Option<u64> {
        let before = (address / 8).checked_sub(self.base_ppn.checked_mul(512)?)?;
        self.words.get(usize::try_from(before).ok()?).copied()
    }

    /// Translates the address of an access by the page table in `satp`, with SUM and MXR 0. One byte is looked for.
    ///
    /// # Errors
    /// `UnknownScheme`; `MachineMode`.
    pub fn translate(&self, satp: u64, address: u64, access: Access, mode: Mode) -> Result<Outcome, Error> {
        let (words, count) = (self.words.as_ptr(), self.words.len());
        // SAFETY: a slice's pointer is never null, is aligned, and has `count` words, which nobody writes while they are borrowed;
        // the call writes nothing, and keeps no pointer. The same holds of each call below that takes words.
        let raw = unsafe { sys::xv6vm_translate(words, count, self.base_ppn, satp, address, access.code(), mode.code()) };
        Outcome::read(raw)
    }

    /// Walks to an address, and returns the leaf, whatever its rights; `None` if there is none, or a misaligned one, or the address is
    /// not canonical.
    ///
    /// # Errors
    /// `UnknownScheme`; `Bare`; `TableOutside`.
    ///
    /// ```
    /// # use xv6vm::{Leaf, Memory};
    /// let words = [0x80000 << 10 | 0x2f; 512];
    /// let leaf = Leaf { level: 2, word: words[0], address: 0x8000_0123, global: true };
    /// assert_eq!(Memory::new(0x80000, &words).lookup(8 << 60 | 0x80000, 0x123), Ok(Some(leaf)));
    /// ```
    pub fn lookup(&self, satp: u64, address: u64) -> Result<Option<Leaf>, Error> {
        // SAFETY: as in `translate`.
        let raw = unsafe { sys::xv6vm_lookup(self.words.as_ptr(), self.words.len(), self.base_ppn, satp, address) };
        let sys::xv6vm_leaf { status, level, word, address, global } = raw;
        match status {
            sys::XV6VM_LEAF => Ok(Some(Leaf { level, word, address, global: global != 0 })),
            sys::XV6VM_NO_LEAF => Ok(None),
            sys::XV6VM_BARE => Err(Error::Bare),
            sys::XV6VM_ACCESS_FAULT => Err(Error::TableOutside),
            sys::XV6VM_UNKNOWN => Err(Error::UnknownScheme),
            status => Err(Error::UnknownStatus(status)),
        }
    }
}
