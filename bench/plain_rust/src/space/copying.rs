//! Kernel copies: copyin and copyout.

use super::Space;
use crate::entry::{Access, PAGE};
use crate::files::Files;
use crate::frames::Store;
use crate::reply::Stop;

/// How far a copy came.
pub struct Copied {
    /// The bytes that were copied.
    pub done: usize,
    /// Why it stopped before its end.
    pub stop: Option<Stop>,
    /// Whether a leaf changed.
    pub changed: bool,
}

impl<const LEVELS: usize> Space<LEVELS> {
    /// Fills `out` with the bytes from `va` on.
    pub fn copy_in<S: Store, F: Files>(
        &mut self,
        store: &mut S,
        files: &mut F,
        va: u64,
        out: &mut [u8],
    ) -> Copied {
        let length = out.len();
        let each = |store: &mut S, frame, offset, done, run| {
            store.read_bytes(frame, offset, &mut out[done..done + run]);
        };
        self.copy(store, files, Access::Load, va, length, each)
    }

    /// Copies the bytes to `va` and on.
    pub fn copy_out<S: Store, F: Files>(
        &mut self,
        store: &mut S,
        files: &mut F,
        va: u64,
        bytes: &[u8],
    ) -> Copied {
        let each = |store: &mut S, frame, offset, done, run| {
            store.write_bytes(frame, offset, &bytes[done..done + run]);
        };
        self.copy(store, files, Access::Store, va, bytes.len(), each)
    }

    /// Calls `each` for every run of bytes in one page, with its frame, its offset there, the bytes done before it and its
    /// length.
    #[inline(always)]
    fn copy<S: Store, F: Files>(
        &mut self,
        store: &mut S,
        files: &mut F,
        access: Access,
        va: u64,
        length: usize,
        mut each: impl FnMut(&mut S, u32, usize, usize, usize),
    ) -> Copied {
        let mut copied = Copied {
            done: 0,
            stop: None,
            changed: false,
        };
        while copied.done < length {
            let at = va + copied.done as u64;
            match self.reach(store, files, access, at) {
                Err(stop) => {
                    copied.stop = Some(stop);
                    return copied;
                }
                Ok((frame, changed)) => {
                    copied.changed |= changed;
                    let offset = (at % PAGE) as usize;
                    let run = (PAGE as usize - offset).min(length - copied.done);
                    each(store, frame, offset, copied.done, run);
                    copied.done += run;
                }
            }
        }
        copied
    }
}
