//! Page table entries, the page-table walk, and the layout of an address space (RISC-V Privileged Architecture 20211203, 4.3 to
//! 4.5).

use crate::frames::{Frame, Store, PPN_BASE, WORDS};

/// Levels of the page tables of Sv39.
pub const SV39: usize = 3;
/// Levels of the page tables of Sv48.
pub const SV48: usize = 4;

pub const PAGE: u64 = 4096;

/// The end of user addresses. As in xv6, the highest bit of a virtual address is not used.
pub const fn max_va(levels: usize) -> u64 {
    1 << (11 + 9 * levels)
}

/// The page of the trampoline, the last one.
pub const fn trampoline(levels: usize) -> u64 {
    max_va(levels) - PAGE
}

/// The page of the trapframe, below the trampoline.
pub const fn trapframe(levels: usize) -> u64 {
    max_va(levels) - 2 * PAGE
}

/// The place of a page's entry in its lowest table.
#[inline(always)]
pub fn index_of(page: u64) -> usize {
    page as usize & (WORDS - 1)
}

pub const V: u64 = 1;
pub const R: u64 = 1 << 1;
pub const W: u64 = 1 << 2;
pub const X: u64 = 1 << 3;
pub const U: u64 = 1 << 4;
pub const A: u64 = 1 << 6;
pub const D: u64 = 1 << 7;
/// The fork mark, in a bit for software (RSW).
pub const COW: u64 = 1 << 8;
const RESERVED: u64 = 0x3ff << 54;
const PPN: u64 = (1 << 44) - 1;

pub const RIGHT_R: u8 = R as u8;
pub const RIGHT_W: u8 = W as u8;
pub const RIGHT_X: u8 = X as u8;

/// A kind of user access.
#[derive(Clone, Copy, Debug, PartialEq, Eq)]
pub enum Access {
    Fetch,
    Load,
    Store,
}

impl Access {
    /// The cause of its page fault.
    pub fn page_fault(self) -> u8 {
        match self {
            Access::Fetch => 12,
            Access::Load => 13,
            Access::Store => 15,
        }
    }

    /// The cause of its fault at an address that is no multiple of the width.
    pub fn misaligned(self) -> u8 {
        match self {
            Access::Fetch => 0,
            Access::Load => 4,
            Access::Store => 6,
        }
    }

    /// The right that a region must grant.
    pub fn right(self) -> u8 {
        match self {
            Access::Fetch => RIGHT_X,
            Access::Load => RIGHT_R,
            Access::Store => RIGHT_W,
        }
    }
}

/// A leaf to this frame, with these flags beside V and A.
pub fn leaf(frame: Frame, flags: u64) -> u64 {
    (PPN_BASE + u64::from(frame)) << 10 | flags | V | A
}

/// A pointer to the table in this frame.
pub fn pointer(frame: Frame) -> u64 {
    (PPN_BASE + u64::from(frame)) << 10 | V
}

/// The leaf of a user page with these rights, with D if `dirty` and they grant writing. In a shared writable mapping D is the
/// stored mark; on all other pages it goes with W.
pub fn user_leaf(frame: Frame, rights: u8, dirty: bool) -> u64 {
    let dirty = if dirty && rights & RIGHT_W != 0 { D } else { 0 };
    leaf(frame, u64::from(rights) | U | dirty)
}

/// The frame that an entry of a process's tables names.
#[inline(always)]
pub fn named(word: u64) -> Frame {
    ((word >> 10 & PPN) - PPN_BASE) as Frame
}

/// What a walk ends in: a leaf and its level. A word of 0 is no leaf.
#[derive(Clone, Copy, Default)]
pub struct Leaf {
    word: u64,
    level: u8,
}

impl Leaf {
    /// Whether the leaf allows this access from user mode.
    #[inline(always)]
    pub fn user(self, access: Access) -> bool {
        let need = match access {
            Access::Fetch => U | A | X,
            Access::Load => U | A | R,
            Access::Store => U | A | R | W | D,
        };
        self.word & need == need
    }

    /// Whether the leaf allows a fetch by the kernel.
    pub fn supervisor_fetch(self) -> bool {
        self.word & (U | A | X) == A | X
    }

    /// The frame of the address's page; `None` if it is outside the memory.
    #[inline(always)]
    pub fn frame<S: Store>(self, store: &S, va: u64) -> Option<Frame> {
        let ppn = self.word >> 10 & PPN;
        if self.level == 0 {
            return store.frame_of(ppn);
        }
        let low = (1 << (9 * self.level)) - 1;
        store.frame_of(ppn | va >> 12 & low)
    }
}

/// The walk of 4.3.2. Pointers of the kernel's and of the processes' tables stay inside the memory, so none ends in an access
/// fault.
#[inline(always)]
pub fn walk<const LEVELS: usize, S: Store>(store: &S, root: Frame, va: u64) -> Leaf {
    let unused = 52 - 9 * LEVELS;
    if ((va << unused) as i64 >> unused) as u64 != va {
        return Leaf::default();
    }
    let mut table = root;
    for level in (0..LEVELS).rev() {
        let word = store.load(table, index_of(va >> (12 + 9 * level)));
        let ppn = word >> 10 & PPN;
        if word & (RESERVED | V | R | W | X | U | A | D) == V && level > 0 {
            let Some(next) = store.frame_of(ppn) else {
                break;
            };
            table = next;
            continue;
        }
        let valid = word & (RESERVED | V) == V && word & (R | X) != 0 && word & (R | W) != W;
        if !valid || level > 0 && ppn & ((1 << (9 * level)) - 1) != 0 {
            break;
        }
        let level = level as u8;
        return Leaf { word, level };
    }
    Leaf::default()
}
