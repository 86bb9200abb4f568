//! A TLB of whole walks.

use crate::codes::{flag, Access, Error, Mode};
use crate::memory::{Memory, Outcome};
use xv6vm_sys as sys;

/// A place of a TLB: the C struct, whose header explains each field. Any numbers are allowed; the default is an empty place.
pub use xv6vm_sys::xv6vm_entry as Entry;

/// What [`Tlb::permits_of`] is asked of: an access, with its memory and satp, by names.
#[derive(Clone, Copy, Debug)]
pub struct Question<'a> {
    /// The memory, as it is now.
    pub memory: Memory<'a>,
    /// satp, with the ASID of the access.
    pub satp: u64,
    /// The virtual address.
    pub address: u64,
    /// The kind of the access.
    pub access: Access,
    /// The privilege mode: user or supervisor.
    pub mode: Mode,
}

/// A TLB of whole walks, in places that the caller chooses: a `Vec` or an array of entries, or a slice that is borrowed.
///
/// It is a model of such a TLB, and judges none that caches pointers or superpages: that is for [`Hart`](crate::Hart).
///
/// ```
/// use xv6vm::{Access, Entry, Memory, Mode, Outcome, Tlb};
///
/// let (mut words, satp) = ([0u64; 512], 8 << 60 | 7 << 44 | 0x80000);
/// words[0] = 0x80000 << 10 | 0xdf;
/// let mut tlb = Tlb::over([Entry::default(); 4]);
/// tlb.fill(&Memory::new(0x80000, &words), satp, 0)?;
/// words[0] = 0;
/// let place = tlb.first_match(0, 0x123, 7).expect("the fill added an entry");
/// let outcome = tlb.translate(place, 0x123, 7, Access::Load, Mode::User)?;
/// assert_eq!(outcome.address(), Some(0x8000_0123));
/// let memory = Memory::new(0x80000, &words);
/// assert!(tlb.permits(&memory, satp, 0x123, Access::Load, Mode::User, outcome));
/// tlb.fence(None, None);
/// assert!(!tlb.permits(&memory, satp, 0x123, Access::Load, Mode::User, outcome));
/// # Ok::<(), xv6vm::Error>(())
/// ```
#[derive(Clone, Debug)]
pub struct Tlb<S> {
    entries: S,
}

#[cfg(feature = "alloc")]
impl Tlb<alloc::vec::Vec<Entry>> {
    /// Returns an empty TLB of so many places.
    pub fn new(places: usize) -> Self {
        Tlb { entries: alloc::vec![Entry::default(); places] }
    }
}

impl<S: AsRef<[Entry]> + AsMut<[Entry]>> Tlb<S> {
    /// Takes the places of a TLB.
    pub fn over(entries: S) -> Self {
        Tlb { entries }
    }

    /// Returns the places.
    pub fn entries(&self) -> &[Entry] {
        self.entries.as_ref()
    }

    /// Returns the places, to be written.
    pub fn entries_mut(&mut self) -> &mut [Entry] {
        self.entries.as_mut()
    }

    /// Walks to an address, and adds what the walk finds, a leaf or none, as the newest entry, in the last place. If no place is empty,
    /// the oldest entry is removed.
    ///
    /// # Errors
    /// `TableOutside`; `Bare`; `UnknownScheme`. Nothing changes.
    pub fn fill(&mut self, memory: &Memory<'_>, satp: u64, address: u64) -> Result<(), Error> {
        let (entries, words) = (self.entries.as_mut(), memory.words());
        // SAFETY: two slices, never null, aligned, of the lengths beside them. `entries` is borrowed mutably, so nobody else reads or
        // writes it, and it is apart from `words`, which nobody writes. Any numbers are an entry.
        let status = unsafe {
            sys::xv6vm_tlb_fill(
                entries.as_mut_ptr(),
                entries.len(),
                words.as_ptr(),
                words.len(),
                memory.base_ppn(),
                satp,
                address,
            )
        };
        match status {
            sys::XV6VM_LEAF => Ok(()),
            sys::XV6VM_ACCESS_FAULT => Err(Error::TableOutside),
            sys::XV6VM_BARE => Err(Error::Bare),
            sys::XV6VM_UNKNOWN => Err(Error::UnknownScheme),
            status => Err(Error::UnknownStatus(status)),
        }
    }

    /// Returns the first place from `from` on whose entry serves an address under an ASID.
    pub fn first_match(&self, from: usize, address: u64, asid: u16) -> Option<usize> {
        let entries = self.entries.as_ref();
        // SAFETY: a slice, never null, aligned, of the length beside it; nobody writes it while it is borrowed.
        let place = unsafe { sys::xv6vm_tlb_match(entries.as_ptr(), entries.len(), from, address, asid) };
        (place < entries.len()).then_some(place)
    }

    /// Translates an access by the entry in place `n`, whose rights are judged now.
    ///
    /// # Errors
    /// `NoEntry`; `MachineMode`.
    pub fn translate(&self, n: usize, address: u64, asid: u16, access: Access, mode: Mode) -> Result<Outcome, Error> {
        let entries = self.entries.as_ref();
        // SAFETY: as in `first_match`.
        let raw = unsafe { sys::xv6vm_tlb_use(entries.as_ptr(), entries.len(), n, address, asid, access.code(), mode.code()) };
        Outcome::read(raw)
    }

    /// Empties place `n`, as hardware may at any time.
    pub fn evict(&mut self, n: usize) {
        let entries = self.entries.as_mut();
        // SAFETY: a slice that is borrowed mutably, never null, aligned, of the length beside it.
        unsafe { sys::xv6vm_tlb_evict(entries.as_mut_ptr(), entries.len(), n) }
    }

    /// SFENCE.VMA. `None` is x0: every address, every ASID.
    pub fn fence(&mut self, address: Option<u64>, asid: Option<u16>) {
        let ((has_address, address), (has_asid, asid)) = (flag(address), flag(asid));
        let entries = self.entries.as_mut();
        // SAFETY: as in `evict`.
        unsafe { sys::xv6vm_tlb_fence(entries.as_mut_ptr(), entries.len(), has_address, address, has_asid, asid) }
    }

    /// Returns whether an outcome is that of the walk over the memory as it is now, or that of an entry which matches the address and
    /// the ASID in `satp`. The word and the level of a leaf count too.
    pub fn permits(&self, memory: &Memory<'_>, satp: u64, address: u64, access: Access, mode: Mode, outcome: Outcome) -> bool {
        let (entries, words) = (self.entries.as_ref(), memory.words());
        // SAFETY: two slices, never null, aligned, of the lengths beside them; nobody writes them while they are borrowed.
        let answer = unsafe {
            sys::xv6vm_permits(
                entries.as_ptr(),
                entries.len(),
                words.as_ptr(),
                words.len(),
                memory.base_ppn(),
                satp,
                address,
                access.code(),
                mode.code(),
                outcome.raw(),
            )
        };
        answer == 1
    }

    /// [`Tlb::permits`], of a question.
    ///
    /// ```
    /// # use xv6vm::{Access, Entry, Memory, Mode, Outcome, Question, Tlb};
    /// let words = [0x80000 << 10 | 0x53];
    /// let (memory, satp) = (Memory::new(0x80000, &words), 8 << 60 | 0x80000);
    /// let question = Question { memory, satp, address: 0, access: Access::Store, mode: Mode::User };
    /// let tlb = Tlb::over([Entry::default(); 4]);
    /// assert!(tlb.permits_of(&question, Outcome::PageFault { cause: 15 }));
    /// assert!(!tlb.permits_of(&Question { access: Access::Load, ..question }, Outcome::PageFault { cause: 15 }));
    /// ```
    pub fn permits_of(&self, question: &Question<'_>, outcome: Outcome) -> bool {
        let Question { memory, satp, address, access, mode } = question;
        self.permits(memory, *satp, *address, *access, *mode, outcome)
    }
}
