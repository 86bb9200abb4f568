//! Walks over memory of any kind, which say why an access faults.

use crate::codes::{Access, Error, Mode};
use crate::memory::{Memory, Outcome};
use xv6vm_sys as sys;

/// A page table entry (PTE) that a walk read.
#[derive(Clone, Copy, Debug, PartialEq, Eq, Hash)]
pub struct Pte {
    /// The level of its table: 0 for the last.
    pub level: u32,
    /// Its physical address.
    pub address: u64,
    /// What was read there.
    pub word: u64,
}

/// Why an access faults: the step of the standard's 4.3.2 at which it does, and the PTE. Rights are judged before alignment, and both
/// before A and D.
#[derive(Clone, Copy, Debug, PartialEq, Eq, Hash)]
pub enum Reason {
    /// A page fault: the address is not canonical (4.4.1, 4.5.1), so no PTE is read.
    NotCanonical,
    /// Step 2, an access fault: the PTE is outside the memory.
    TableOutside {
        /// The level of its table.
        level: u32,
        /// Its physical address.
        address: u64,
        /// The pointer that led there; `None` for the root, to which satp led.
        pointer: Option<u64>,
    },
    /// Step 3, a page fault: V is clear, or W is set without R, or a reserved bit is set.
    Invalid(Pte),
    /// Step 4, a page fault: a pointer at level 0.
    NoLeaf(Pte),
    /// Step 5, a page fault: R, W, X and U of the leaf do not grant the access.
    NotGranted(Pte),
    /// Step 6, a page fault: the leaf is a misaligned superpage.
    Misaligned(Pte),
    /// Step 7, a page fault: A of the leaf is clear, or D at a store.
    NotMarked(Pte),
    /// Step 8, an access fault: the byte is outside the memory.
    ByteOutside {
        /// The leaf.
        leaf: Pte,
        /// The physical address of the byte.
        address: u64,
    },
}

impl Reason {
    /// Returns the step of the standard's 4.3.2; 0 if the address is not canonical.
    pub const fn step(&self) -> u32 {
        match self {
            Reason::NotCanonical => 0,
            Reason::TableOutside { .. } => 2,
            Reason::Invalid(_) => 3,
            Reason::NoLeaf(_) => 4,
            Reason::NotGranted(_) => 5,
            Reason::Misaligned(_) => 6,
            Reason::NotMarked(_) => 7,
            Reason::ByteOutside { .. } => 8,
        }
    }

    /// Returns the PTE that was read at the step; `None` if none was.
    pub const fn pte(&self) -> Option<Pte> {
        match *self {
            Reason::NotCanonical | Reason::TableOutside { .. } => None,
            Reason::Invalid(pte) | Reason::NoLeaf(pte) | Reason::NotGranted(pte) => Some(pte),
            Reason::Misaligned(pte) | Reason::NotMarked(pte) => Some(pte),
            Reason::ByteOutside { leaf, .. } => Some(leaf),
        }
    }

    /// The reason of a walk that has ended in a fault.
    fn read(at: &sys::xv6vm_reached) -> Result<Reason, Error> {
        let address = at.table << 12 | at.index << 3;
        let pte = Pte { level: at.level, address, word: at.word };
        match at.step {
            0 => Ok(Reason::NotCanonical),
            2 => Ok(Reason::TableOutside { level: at.level, address, pointer: (at.word != 0).then_some(at.word) }),
            3 => Ok(Reason::Invalid(pte)),
            4 => Ok(Reason::NoLeaf(pte)),
            5 => Ok(Reason::NotGranted(pte)),
            6 => Ok(Reason::Misaligned(pte)),
            7 => Ok(Reason::NotMarked(pte)),
            8 => Ok(Reason::ByteOutside { leaf: pte, address: at.place }),
            _ => Err(Error::UnknownStatus(at.status)),
        }
    }
}

/// What comes of a walk: the outcome, and of a fault the reason.
#[derive(Clone, Copy, Debug, PartialEq, Eq, Hash)]
pub struct Translation {
    /// The outcome, as that of [`Memory::translate`].
    pub outcome: Outcome,
    /// Of a fault why it is one; else `None`.
    pub reason: Option<Reason>,
}

/// What a walk asks for.
#[derive(Clone, Copy, Debug, PartialEq, Eq, Hash)]
pub enum Asked {
    /// The 64-bit word at a physical address, a multiple of 8.
    Word(u64),
    /// Whether the byte at a physical address is in the memory.
    Byte(u64),
}

/// A walk that asks for each word, for programs that cannot be called back; the others have [`translate_by`]. It asks five times at most.
///
/// ```
/// use xv6vm::{Access, Asked, Mode, Outcome, Walk};
///
/// let mut walk = Walk::begin(8 << 60 | 0x80000, 0x123, Access::Load, Mode::User);
/// assert_eq!(walk.asked(), Some(Asked::Word(0x8000_0000)));
/// walk.tell(Some(0x80000 << 10 | 0xdf)); // a leaf in the root: 1 GiB from 0x80000000 on
/// assert_eq!(walk.asked(), Some(Asked::Byte(0x8000_0123)));
/// assert_eq!(walk.end(), None);
/// walk.tell(Some(0)); // it is there; the word does not count
/// let end = walk.end().expect("the walk has ended")?;
/// assert_eq!(end.outcome, Outcome::Leaf { level: 2, word: 0x80000 << 10 | 0xdf, address: 0x8000_0123 });
/// # Ok::<(), xv6vm::Error>(())
/// ```
#[derive(Clone, Debug, PartialEq, Eq)]
pub struct Walk {
    raw: sys::xv6vm_walk,
}

impl Walk {
    /// Begins the walk for an access.
    pub fn begin(satp: u64, address: u64, access: Access, mode: Mode) -> Walk {
        let mut raw = sys::xv6vm_walk::default();
        // SAFETY: a pointer to a struct of this function, which nobody else sees; the call keeps no pointer.
        unsafe { sys::xv6vm_walk_begin(&mut raw, satp, address, access.code(), mode.code()) }
        Walk { raw }
    }

    /// Returns what is asked for; `None` if the walk has ended.
    pub fn asked(&self) -> Option<Asked> {
        match self.raw.at.status {
            sys::XV6VM_READ => Some(Asked::Word(self.raw.at.place)),
            sys::XV6VM_BYTE => Some(Asked::Byte(self.raw.at.place)),
            _ => None,
        }
    }

    /// Goes on with the word that is asked for, or with any if the byte is there; `None` if it is outside the memory. A walk that has
    /// ended stays as it is.
    pub fn tell(&mut self, word: Option<u64>) {
        // SAFETY: a pointer to a field that is borrowed mutably; the call keeps no pointer.
        unsafe { sys::xv6vm_walk_next(&mut self.raw, u32::from(word.is_some()), word.unwrap_or(0)) }
    }

    /// Returns what came of it; `None` if it has not ended.
    ///
    /// # Errors
    /// `UnknownScheme`; `MachineMode`.
    pub fn end(&self) -> Option<Result<Translation, Error>> {
        self.asked().is_none().then(|| self.ended())
    }

    /// What came of a walk that has ended.
    fn ended(&self) -> Result<Translation, Error> {
        let sys::xv6vm_reached { status, level, word, place, cause, .. } = self.raw.at;
        let outcome = Outcome::read(match status {
            sys::XV6VM_LEAF => sys::xv6vm_outcome { status, level, word, address: place, cause },
            sys::XV6VM_BARE => sys::xv6vm_outcome { status, level: 0, word: 0, address: place, cause },
            status => sys::xv6vm_outcome { status, level: 0, word: 0, address: 0, cause },
        })?;
        let reason = outcome.cause().map(|_| Reason::read(&self.raw.at)).transpose()?;
        Ok(Translation { outcome, reason })
    }
}

/// Translates the address of an access, over memory that `read` reads: the word at a physical address, a multiple of 8, or `None` if no
/// memory is there. It is called five times at most, and must answer the same for the same address. The outcome is that of
/// [`Memory::translate`] over the same memory.
///
/// # Errors
/// `UnknownScheme`; `MachineMode`.
///
/// ```
/// use std::collections::HashMap;
/// use xv6vm::{translate_by, Access, Mode, Outcome, Pte, Reason};
///
/// // A table behind a bus: its word at index 1 maps 1 GiB at 0x80000000, for user loads.
/// let bus = HashMap::from([(0x8020_0008, 0x80000 << 10 | 0x53)]);
/// let read = |address: u64| if address >> 28 == 8 { Some(bus.get(&address).copied().unwrap_or(0)) } else { None };
/// let satp = 8 << 60 | 0x80200;
/// let load = translate_by(read, satp, 0x4000_0123, Access::Load, Mode::User)?;
/// assert_eq!(load.outcome.address(), Some(0x8000_0123));
/// let store = translate_by(read, satp, 0x4000_0123, Access::Store, Mode::User)?;
/// assert_eq!(store.outcome, Outcome::PageFault { cause: 15 });
/// let pte = Pte { level: 2, address: 0x8020_0008, word: 0x2000_0053 };
/// assert_eq!(store.reason, Some(Reason::NotGranted(pte)));
/// assert_eq!(store.reason.map(|it| it.step()), Some(5));
/// # Ok::<(), xv6vm::Error>(())
/// ```
pub fn translate_by(
    mut read: impl FnMut(u64) -> Option<u64>,
    satp: u64,
    address: u64,
    access: Access,
    mode: Mode,
) -> Result<Translation, Error> {
    let mut walk = Walk::begin(satp, address, access, mode);
    while let Some(Asked::Word(place) | Asked::Byte(place)) = walk.asked() {
        walk.tell(read(place & !7));
    }
    walk.ended()
}

/// Physical memory in several runs of words, each a [`Memory`]. Of two that have an address, the first counts.
///
/// ```
/// use xv6vm::{Access, Memory, Mode, Reason, Regions};
///
/// // Page tables in one region, and the page in another: one word of a superpage.
/// let (tables, data) = ([0x80000 << 10 | 0xdf], [7]);
/// let regions = [Memory::new(0x1000, &tables), Memory::new(0x80000, &data)];
/// let memory = Regions::new(&regions);
/// let load = |address| memory.translate(8 << 60 | 0x1000, address, Access::Load, Mode::User);
/// assert_eq!(load(0x7)?.outcome.address(), Some(0x8000_0007));
/// assert!(matches!(load(0x8)?.reason, Some(Reason::ByteOutside { address: 0x8000_0008, .. })));
/// # Ok::<(), xv6vm::Error>(())
/// ```
#[derive(Clone, Copy, Debug)]
pub struct Regions<'a> {
    regions: &'a [Memory<'a>],
}

impl<'a> Regions<'a> {
    /// Lends regions.
    pub const fn new(regions: &'a [Memory<'a>]) -> Regions<'a> {
        Regions { regions }
    }

    /// Returns the regions.
    pub const fn regions(&self) -> &'a [Memory<'a>] {
        self.regions
    }

    /// Returns the word at a physical address, of which the low 3 bits do not count; `None` if it is outside the memory.
    pub fn read(&self, address: u64) -> Option<u64> {
        self.regions.iter().find_map(|it| it.read(address))
    }

    /// Translates the address of an access by the page table in `satp`, with SUM and MXR 0. One byte is looked for.
    ///
    /// # Errors
    /// `UnknownScheme`; `MachineMode`.
    pub fn translate(&self, satp: u64, address: u64, access: Access, mode: Mode) -> Result<Translation, Error> {
        translate_by(|place| self.read(place), satp, address, access, mode)
    }
}
