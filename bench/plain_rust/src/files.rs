//! Files, and how many of their pages may still be read or written.

use std::ops::DerefMut;
use std::sync::{Mutex, MutexGuard};

/// A file of the script.
pub struct FileText {
    pub bytes: Vec<u8>,
    pub writable: bool,
}

/// All files.
pub struct Shelf {
    pub files: Vec<FileText>,
    /// How many pages may still be read or written: 65,536 on threads, without limit in `play`.
    pub left: u64,
}

impl Shelf {
    /// Whether this number of pages may still be read or written.
    pub fn promise(&self, pages: u64) -> bool {
        pages <= self.left
    }

    /// The bytes of the page that begins at byte `place` of the file, up to the file's end. Counts as a page read or written.
    pub fn page(&mut self, file: u8, place: usize) -> &mut [u8] {
        self.left -= 1;
        let bytes = &mut self.files[usize::from(file)].bytes;
        let from = place.min(bytes.len());
        let to = (place + 4096).min(bytes.len());
        &mut bytes[from..to]
    }
}

/// A way to the files: the only thread's own, or a lock that is held for one call.
pub trait Files {
    type Open<'a>: DerefMut<Target = Shelf>
    where
        Self: 'a;
    fn open(&mut self) -> Self::Open<'_>;
    /// Whether shared mappings may write to the file; `None` if there is no such file.
    fn writable(&self, file: u64) -> Option<bool>;
}

impl Files for Shelf {
    type Open<'a> = &'a mut Shelf;

    fn open(&mut self) -> &mut Shelf {
        self
    }

    fn writable(&self, file: u64) -> Option<bool> {
        self.files.get(file as usize).map(|f| f.writable)
    }
}

/// The files of several threads. Their modes never change, so no lock is needed to read them.
#[derive(Clone, Copy)]
pub struct Locked<'s> {
    pub shelf: &'s Mutex<Shelf>,
    pub modes: &'s [bool],
}

impl Files for Locked<'_> {
    type Open<'a>
        = MutexGuard<'a, Shelf>
    where
        Self: 'a;

    fn open(&mut self) -> MutexGuard<'_, Shelf> {
        self.shelf.lock().expect("no thread panics with the shelf")
    }

    fn writable(&self, file: u64) -> Option<bool> {
        self.modes.get(file as usize).copied()
    }
}
