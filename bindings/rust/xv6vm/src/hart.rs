//! What the standard permits, given what happened at a hart.

use alloc::vec::Vec;

use crate::codes::{flag, Access, Error, Mode};
use crate::memory::Memory;
use xv6vm_sys as sys;

/// How many PMP entries a hart has.
#[derive(Clone, Copy, Debug, PartialEq, Eq, Hash)]
pub enum Pmps {
    /// None.
    None,
    /// 16.
    Sixteen,
    /// 64.
    SixtyFour,
}

/// Which extensions and schemes a hart has. The default is Sv39, Sv48, Sv57 and Svade, ASIDs of 16 bits and no PMP entries.
///
/// With both or none of `svade` and `svadu`, a leaf without A, or without D at a store, may be a page fault or be updated, at each
/// access anew.
#[derive(Clone, Copy, Debug, PartialEq, Eq, Hash)]
#[allow(missing_docs)]
pub struct Profile {
    pub sv39: bool,
    pub sv48: bool,
    pub sv57: bool,
    pub svnapot: bool,
    pub svpbmt: bool,
    pub svade: bool,
    pub svadu: bool,
    /// 0 to 16; more is 16.
    pub asid_bits: u8,
    pub pmps: Pmps,
}

impl Default for Profile {
    fn default() -> Profile {
        Profile {
            sv39: true,
            sv48: true,
            sv57: true,
            svnapot: false,
            svpbmt: false,
            svade: true,
            svadu: false,
            asid_bits: 16,
            pmps: Pmps::None,
        }
    }
}

impl Profile {
    fn bits(&self) -> u32 {
        let all = [
            (self.sv39, sys::XV6VM_SV39),
            (self.sv48, sys::XV6VM_SV48),
            (self.sv57, sys::XV6VM_SV57),
            (self.svnapot, sys::XV6VM_SVNAPOT),
            (self.svpbmt, sys::XV6VM_SVPBMT),
            (self.svade, sys::XV6VM_SVADE),
            (self.svadu, sys::XV6VM_SVADU),
        ];
        all.iter().filter(|it| it.0).map(|it| it.1).sum()
    }
}

/// The fields of mstatus that count at an access.
#[derive(Clone, Copy, Debug, PartialEq, Eq, Hash)]
#[allow(missing_docs)]
pub struct Status {
    pub sum: bool,
    pub mxr: bool,
    pub mprv: bool,
    pub mpp: Mode,
}

impl Status {
    /// Returns mstatus with these fields, and all others 0.
    pub const fn mstatus(&self) -> u64 {
        (self.sum as u64) << 18 | (self.mxr as u64) << 19 | (self.mprv as u64) << 17 | (self.mpp.code() as u64) << 11
    }
}

/// How many bytes an access has.
#[derive(Clone, Copy, Debug, PartialEq, Eq, Hash)]
#[allow(missing_docs)]
pub enum Width {
    One = 1,
    Two = 2,
    Four = 4,
    Eight = 8,
}

/// An access.
#[derive(Clone, Copy, Debug, PartialEq, Eq, Hash)]
pub struct Request {
    /// The virtual address.
    pub address: u64,
    /// How many bytes.
    pub width: Width,
    /// Its kind.
    pub access: Access,
    /// The hart's own privilege mode, whatever MPRV says.
    pub mode: Mode,
}

impl Request {
    fn raw(&self) -> sys::xv6vm_access {
        sys::xv6vm_access { address: self.address, width: self.width as u64, access: self.access.code(), mode: self.mode.code() }
    }
}

/// The memory type of an access, by Svpbmt.
#[derive(Clone, Copy, Debug, PartialEq, Eq, Hash)]
pub enum MemoryType {
    /// By the attributes of the physical address.
    Pma,
    /// Non-cacheable.
    Nc,
    /// I/O.
    Io,
}

/// A page table entry that the hart writes to set A or D. Tell it to [`Hart::mem`] after the access, if the outcome is the hart's.
#[derive(Clone, Copy, Debug, PartialEq, Eq, Hash)]
pub struct Update {
    /// The physical address of the entry, a multiple of 8.
    pub address: u64,
    /// The word that is written.
    pub word: u64,
}

/// What comes of an access.
#[derive(Clone, Copy, Debug, PartialEq, Eq, Hash)]
pub enum Judged {
    /// The access is made.
    Granted {
        /// The physical address.
        address: u64,
        /// The memory type.
        memory_type: MemoryType,
        /// The write of A or D, if any.
        update: Option<Update>,
    },
    /// An exception.
    Refused {
        /// Its code, as in scause.
        cause: u64,
        /// The write of A or D, if any.
        update: Option<Update>,
    },
}

impl Judged {
    /// Returns an access that is made at a physical address, of the type [`MemoryType::Pma`], without a write of A or D.
    pub const fn granted(address: u64) -> Judged {
        Judged::Granted { address, memory_type: MemoryType::Pma, update: None }
    }

    /// Returns an exception, without a write of A or D.
    pub const fn refused(cause: u64) -> Judged {
        Judged::Refused { cause, update: None }
    }

    fn raw(&self) -> sys::xv6vm_judged {
        let mut raw = sys::xv6vm_judged::default();
        let update = match *self {
            Judged::Granted { address, memory_type, update } => {
                raw.status = sys::XV6VM_GRANTED;
                raw.address = address;
                raw.memory_type = match memory_type {
                    MemoryType::Pma => 0,
                    MemoryType::Nc => 1,
                    MemoryType::Io => 2,
                };
                update
            }
            Judged::Refused { cause, update } => {
                raw.status = sys::XV6VM_REFUSED;
                raw.cause = cause;
                update
            }
        };
        if let Some(Update { address, word }) = update {
            raw.updates = 1;
            raw.table = address >> 12;
            raw.index = (address & 4095) >> 3;
            raw.word = word;
        }
        raw
    }

    fn read(raw: &sys::xv6vm_judged) -> Judged {
        let written = Update { address: raw.table << 12 | raw.index << 3, word: raw.word };
        let update = (raw.updates != 0).then_some(written);
        if raw.status == sys::XV6VM_REFUSED {
            return Judged::Refused { cause: raw.cause, update };
        }
        let memory_type = match raw.memory_type {
            1 => MemoryType::Nc,
            2 => MemoryType::Io,
            _ => MemoryType::Pma,
        };
        Judged::Granted { address: raw.address, memory_type, update }
    }
}

/// A hart's history: what happened to its page tables, satp and PMP since the last fence of everything.
///
/// Tell it what happens, and ask of each access which outcomes the standard permits, or whether one is. You never say when the hart
/// caches something. Its list of events grows as needed, 32 bytes an event; a fence of everything empties it. A judgement takes time
/// that grows with the square of the number of events, so fence everything now and then.
///
/// ```
/// use xv6vm::{Access, Hart, Judged, Memory, Mode, Profile, Request, Width};
///
/// const BASE: u64 = 0x8000_0000;
/// let mut ram = vec![0u64; 3 * 512]; // the tables of level 2, 1 and 0
/// (ram[0], ram[512], ram[1024]) = (0x20000401, 0x20000801, 0x200000d7);
/// let mut hart = Hart::new(&Profile::default());
/// hart.satp(8 << 60 | BASE >> 12)?;
/// hart.fence(None, None);
///
/// // The page moves from 0x80000000 to 0x80001000. Until a fence, the old leaf may be cached.
/// hart.mem(BASE + 8 * 1024, ram[1024], 0x200004d7);
/// ram[1024] = 0x200004d7;
/// let load = Request { address: 0, width: Width::Eight, access: Access::Load, mode: Mode::User };
/// let stale = Judged::granted(BASE);
/// assert!(hart.judge(&Memory::new(BASE >> 12, &ram), &load, &stale));
/// hart.fence(Some(0), None);
/// let memory = Memory::new(BASE >> 12, &ram);
/// assert!(!hart.judge(&memory, &load, &stale));
/// assert_eq!(hart.outcomes(&memory, &load), [Judged::granted(BASE + 4096)]);
/// # Ok::<(), xv6vm::Error>(())
/// ```
#[derive(Clone, Debug)]
pub struct Hart {
    hart: sys::xv6vm_hart,
    events: Vec<sys::xv6vm_event>,
}

impl Hart {
    /// Begins a history without events: satp 0, mstatus 0, all PMP entries OFF.
    pub fn new(profile: &Profile) -> Hart {
        let mut hart = sys::xv6vm_hart::ZERO;
        let pmps = match profile.pmps {
            Pmps::None => 0,
            Pmps::Sixteen => 16,
            Pmps::SixtyFour => 64,
        };
        // SAFETY: a pointer to a struct of this function, which nobody else sees.
        unsafe { sys::xv6vm_hart_begin(&mut hart, profile.bits(), u32::from(profile.asid_bits), pmps) }
        Hart { hart, events: Vec::new() }
    }

    /// Returns the number of events since the last fence of everything.
    pub fn events(&self) -> usize {
        usize::try_from(self.hart.count).map_or(self.events.len(), |count| count.min(self.events.len()))
    }

    /// Calls until there is room for the event.
    fn tell(&mut self, call: impl Fn(*mut sys::xv6vm_hart, *mut sys::xv6vm_event, usize) -> u32) -> u32 {
        loop {
            let status = call(&mut self.hart, self.events.as_mut_ptr(), self.events.len());
            if status != sys::XV6VM_FULL {
                return status;
            }
            let more = (2 * self.events.len()).max(16);
            self.events.resize(more, sys::xv6vm_event::default());
        }
    }

    /// mstatus from now on, as the register has it: SUM, MXR, MPRV and MPP count.
    pub fn status(&mut self, mstatus: u64) {
        // SAFETY: a pointer to a field that is borrowed mutably.
        unsafe { sys::xv6vm_hart_status(&mut self.hart, mstatus) }
    }

    /// A word of memory changes, by whomever. `address` is physical, and its low 3 bits do not count. Words of page tables matter, and
    /// those that were or will be. Change the memory that you lend to [`Hart::judge`] too.
    pub fn mem(&mut self, address: u64, before: u64, word: u64) {
        // SAFETY: here and below `tell` gives pointers to the hart and to its events, with their number; both are borrowed mutably.
        self.tell(|hart, events, capacity| unsafe { sys::xv6vm_hart_mem(hart, events, capacity, address, before, word) });
    }

    /// satp is written.
    ///
    /// # Errors
    /// `NotWritten`; nothing changes.
    pub fn satp(&mut self, word: u64) -> Result<(), Error> {
        // SAFETY: as in `mem`.
        match self.tell(|hart, events, capacity| unsafe { sys::xv6vm_hart_satp(hart, events, capacity, word) }) {
            0 => Ok(()),
            sys::XV6VM_UNKNOWN => Err(Error::NotWritten),
            status => Err(Error::UnknownStatus(status)),
        }
    }

    /// The registers of a PMP entry become these. Locks are the caller's matter: tell what the registers have. A number that the hart
    /// does not have changes nothing.
    pub fn pmp(&mut self, number: usize, config: u8, address: u64) {
        // SAFETY: as in `mem`.
        self.tell(|hart, events, capacity| unsafe { sys::xv6vm_hart_pmp(hart, events, capacity, number, config, address) });
    }

    /// SFENCE.VMA. `None` is x0: every address, every ASID.
    pub fn fence(&mut self, address: Option<u64>, asid: Option<u16>) {
        let ((has_address, address), (has_asid, asid)) = (flag(address), flag(asid));
        // SAFETY: as in `mem`.
        self.tell(|hart, events, capacity| unsafe {
            sys::xv6vm_hart_fence(hart, events, capacity, has_address, address, has_asid, asid)
        });
    }

    /// Returns whether the standard permits the outcome of an access, given the history; also a fault of the first or last byte of a
    /// misaligned one. `memory` is as it is now.
    pub fn judge(&self, memory: &Memory<'_>, request: &Request, outcome: &Judged) -> bool {
        let (words, access, outcome) = (memory.words(), request.raw(), outcome.raw());
        // SAFETY: two slices with their lengths, and three structs; all are borrowed or of this function, so nobody writes them.
        let answer = unsafe {
            sys::xv6vm_hart_judge(
                &self.hart,
                self.events.as_ptr(),
                self.events.len(),
                words.as_ptr(),
                words.len(),
                memory.base_ppn(),
                &access,
                &outcome,
            )
        };
        answer == 1
    }

    /// Returns the outcomes that the standard permits, in no order. `memory` is as it is now.
    pub fn outcomes(&self, memory: &Memory<'_>, request: &Request) -> Vec<Judged> {
        let (words, access) = (memory.words(), request.raw());
        let mut found = alloc::vec![sys::xv6vm_judged::default(); 8];
        loop {
            let mut listed = 0usize;
            // SAFETY: as in `judge`; `found` and `listed` are of this function, and `found` has as many places as it says.
            unsafe {
                sys::xv6vm_hart_outcomes(
                    &self.hart,
                    self.events.as_ptr(),
                    self.events.len(),
                    words.as_ptr(),
                    words.len(),
                    memory.base_ppn(),
                    &access,
                    found.as_mut_ptr(),
                    found.len(),
                    &mut listed,
                )
            };
            if let Some(outcomes) = found.get(..listed) {
                return outcomes.iter().map(Judged::read).collect();
            }
            let more = 2 * found.len();
            found.resize(more, sys::xv6vm_judged::default());
        }
    }
}
