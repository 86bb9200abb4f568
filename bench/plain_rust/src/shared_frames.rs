//! Frames that threads share: atomic words and counts of references, and a count of the free frames.

use crate::frames::{word_of, Frame, Store, WORDS};
use crate::list::List;
use std::sync::atomic::{AtomicU32, AtomicU64, Ordering};

/// A count in a cache line of its own.
#[repr(align(64))]
struct Count(AtomicU32);

/// The frames.
pub struct SharedFrames {
    words: Vec<[AtomicU64; WORDS]>,
    counts: Vec<Count>,
    /// How many frames are free and unreserved.
    free: Count,
}

impl SharedFrames {
    pub fn new(frames: u32) -> SharedFrames {
        let page = || [const { AtomicU64::new(0) }; WORDS];
        SharedFrames {
            words: (0..frames).map(|_| page()).collect(),
            counts: (0..frames).map(|_| Count(AtomicU32::new(0))).collect(),
            free: Count(AtomicU32::new(frames)),
        }
    }

    /// The number of frames without references, when no hart runs.
    pub fn free(&self) -> u32 {
        let free = |count: &&Count| count.0.load(Ordering::Acquire) == 0;
        self.counts.iter().filter(free).count() as u32
    }
}

/// One hart's way to the frames. Only the sole holder of a frame writes its words. The count orders what one holder does before
/// what the next one does.
pub struct Seat<'f> {
    frames: &'f SharedFrames,
    /// Where the next search for a free frame begins.
    next: usize,
    /// Frames that this hart freed. Other harts may have taken them since.
    freed: List<Frame, 64>,
    /// How many frames this call freed that the count of free frames does not have yet.
    back: u32,
}

impl<'f> Seat<'f> {
    /// The harts' first searches begin at different places.
    pub fn new(frames: &'f SharedFrames, hart: usize, harts: usize) -> Seat<'f> {
        let next = frames.counts.len() * hart / harts;
        let (freed, back) = (List::new(), 0);
        Seat {
            frames,
            next,
            freed,
            back,
        }
    }

    /// Ends a call: the frames that it freed are free for all harts.
    #[inline(always)]
    pub fn give_back(&mut self) {
        if self.back > 0 {
            self.frames.free.0.fetch_add(self.back, Ordering::Release);
            self.back = 0;
        }
    }

    /// Takes the frame if it is free.
    fn take(&self, frame: Frame) -> bool {
        let count = &self.frames.counts[frame as usize].0;
        count.load(Ordering::Relaxed) == 0
            && count
                .compare_exchange(0, 1, Ordering::Acquire, Ordering::Relaxed)
                .is_ok()
    }
}

impl Store for Seat<'_> {
    #[inline(always)]
    fn load(&self, frame: Frame, index: usize) -> u64 {
        self.frames.words[frame as usize][index & (WORDS - 1)].load(Ordering::Relaxed)
    }

    #[inline(always)]
    fn store(&mut self, frame: Frame, index: usize, word: u64) {
        self.frames.words[frame as usize][index & (WORDS - 1)].store(word, Ordering::Relaxed);
    }

    #[inline(always)]
    fn frames(&self) -> u32 {
        self.frames.words.len() as u32
    }

    fn count(&self, frame: Frame) -> u32 {
        self.frames.counts[frame as usize].0.load(Ordering::Acquire)
    }

    fn reserve(&mut self, n: u64) -> bool {
        let Ok(n) = u32::try_from(n) else {
            return false;
        };
        self.give_back();
        let take = |free: u32| free.checked_sub(n);
        let free = &self.frames.free.0;
        free.fetch_update(Ordering::AcqRel, Ordering::Relaxed, take)
            .is_ok()
    }

    /// At least as many frames as are reserved have no reference, so the search ends.
    fn claim(&mut self) -> Frame {
        while let Some(frame) = self.freed.pop() {
            if self.take(frame) {
                return frame;
            }
        }
        loop {
            let at = self.next;
            self.next = if at + 1 == self.frames.counts.len() {
                0
            } else {
                at + 1
            };
            if self.take(at as Frame) {
                return at as Frame;
            }
        }
    }

    fn share(&mut self, frame: Frame) {
        self.frames.counts[frame as usize]
            .0
            .fetch_add(1, Ordering::Relaxed);
    }

    fn release(&mut self, frame: Frame) {
        let before = self.frames.counts[frame as usize]
            .0
            .fetch_sub(1, Ordering::AcqRel);
        if before == 1 {
            self.back += 1;
            // If the list is full, a search will find the frame.
            let _ = self.freed.push(frame);
        }
    }

    fn copy_page(&mut self, from: Frame, to: Frame) {
        let from = &self.frames.words[from as usize];
        let to = &self.frames.words[to as usize];
        for (to, from) in to.iter().zip(from) {
            to.store(from.load(Ordering::Relaxed), Ordering::Relaxed);
        }
    }

    fn set_page(&mut self, frame: Frame, bytes: &[u8]) {
        let page = &self.frames.words[frame as usize];
        let chunks = bytes.chunks_exact(8);
        let whole = chunks.len();
        let tail = chunks.remainder();
        for (word, chunk) in page.iter().zip(chunks) {
            word.store(word_of(chunk), Ordering::Relaxed);
        }
        for word in &page[whole..] {
            word.store(0, Ordering::Relaxed);
        }
        if !tail.is_empty() {
            let mut word = [0; 8];
            word[..tail.len()].copy_from_slice(tail);
            page[whole].store(u64::from_le_bytes(word), Ordering::Relaxed);
        }
    }
}
