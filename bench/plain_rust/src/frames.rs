//! Frames: their words, the counts of their references, and which are free. `Frames` is for one thread; `shared_frames.rs` has
//! those that threads share.

/// The number of a frame; frame 0 is at 0x80000000.
pub type Frame = u32;

/// Words of a frame, and entries of a page table.
pub const WORDS: usize = 512;
/// The physical page number of frame 0.
pub const PPN_BASE: u64 = 0x80000;

/// What the rest of the program does with frames. It is generic over this trait.
pub trait Store {
    fn load(&self, frame: Frame, index: usize) -> u64;
    fn store(&mut self, frame: Frame, index: usize, word: u64);
    /// How many frames there are, free or not.
    fn frames(&self) -> u32;
    /// The number of references to a frame.
    fn count(&self, frame: Frame) -> u32;
    /// Reserves `n` free frames, all or none. Each lets one later `claim` take a frame.
    fn reserve(&mut self, n: u64) -> bool;
    /// Takes a reserved frame, with one reference. Its words are what its last holder left.
    fn claim(&mut self) -> Frame;
    /// Adds a reference. There are never more than one for each slot and one for the kernel.
    fn share(&mut self, frame: Frame);
    /// Drops a reference. A frame without references is free.
    fn release(&mut self, frame: Frame);
    fn copy_page(&mut self, from: Frame, to: Frame);
    /// Copies these bytes, at most 4,096, to the start of a frame and zeroes the rest.
    fn set_page(&mut self, frame: Frame, bytes: &[u8]);

    fn zero(&mut self, frame: Frame) {
        self.set_page(frame, &[]);
    }

    /// Copies bytes of a frame from byte `at` on. `at + out.len()` is at most 4,096.
    #[inline]
    fn read_bytes(&self, frame: Frame, at: usize, out: &mut [u8]) {
        let (mut index, skip) = (at / 8, at % 8);
        let head = head_length(skip, out.len());
        let (head, rest) = out.split_at_mut(head);
        if !head.is_empty() {
            let word = self.load(frame, index).to_le_bytes();
            head.copy_from_slice(&word[skip..skip + head.len()]);
            index += 1;
        }
        let mut chunks = rest.chunks_exact_mut(8);
        for chunk in &mut chunks {
            chunk.copy_from_slice(&self.load(frame, index).to_le_bytes());
            index += 1;
        }
        let tail = chunks.into_remainder();
        if !tail.is_empty() {
            let word = self.load(frame, index).to_le_bytes();
            tail.copy_from_slice(&word[..tail.len()]);
        }
    }

    /// Copies bytes to a frame from byte `at` on. `at + bytes.len()` is at most 4,096.
    #[inline]
    fn write_bytes(&mut self, frame: Frame, at: usize, bytes: &[u8]) {
        let (mut index, skip) = (at / 8, at % 8);
        let head = head_length(skip, bytes.len());
        let (head, rest) = bytes.split_at(head);
        if !head.is_empty() {
            self.merge(frame, index, skip, head);
            index += 1;
        }
        let mut chunks = rest.chunks_exact(8);
        for chunk in &mut chunks {
            self.store(frame, index, word_of(chunk));
            index += 1;
        }
        if !chunks.remainder().is_empty() {
            self.merge(frame, index, 0, chunks.remainder());
        }
    }

    /// Replaces some bytes of a word, from byte `skip` on.
    fn merge(&mut self, frame: Frame, index: usize, skip: usize, bytes: &[u8]) {
        let mut word = self.load(frame, index).to_le_bytes();
        word[skip..skip + bytes.len()].copy_from_slice(bytes);
        self.store(frame, index, u64::from_le_bytes(word));
    }

    /// Loads `width` bytes, 1, 2, 4 or 8, at a multiple of the width.
    #[inline(always)]
    fn read_value(&self, frame: Frame, at: usize, width: u8) -> u64 {
        let word = self.load(frame, at / 8);
        word >> (at % 8 * 8) & mask(width)
    }

    /// Stores the low `width` bytes, 1, 2, 4 or 8, at a multiple of the width.
    #[inline(always)]
    fn write_value(&mut self, frame: Frame, at: usize, width: u8, value: u64) {
        if width == 8 {
            return self.store(frame, at / 8, value);
        }
        let shift = at % 8 * 8;
        let word = self.load(frame, at / 8);
        let clear = word & !(mask(width) << shift);
        self.store(frame, at / 8, clear | (value & mask(width)) << shift);
    }

    /// The frame of a physical page number; `None` if it is outside the memory.
    #[inline(always)]
    fn frame_of(&self, ppn: u64) -> Option<Frame> {
        let frame = ppn.wrapping_sub(PPN_BASE);
        (frame < u64::from(self.frames())).then_some(frame as Frame)
    }
}

/// Of a run of `length` bytes that begins at byte `skip` of a word: how many lie before the next word, 0 if `skip` is 0.
#[inline(always)]
fn head_length(skip: usize, length: usize) -> usize {
    if skip == 0 {
        0
    } else {
        (8 - skip).min(length)
    }
}

/// The low `width` bytes of a word.
#[inline(always)]
fn mask(width: u8) -> u64 {
    u64::MAX >> (64 - 8 * u32::from(width))
}

/// Eight bytes as a word, the lowest first.
#[inline(always)]
pub fn word_of(chunk: &[u8]) -> u64 {
    let mut bytes = [0; 8];
    bytes.copy_from_slice(chunk);
    u64::from_le_bytes(bytes)
}

/// The frames of one thread.
pub struct Frames {
    words: Vec<[u64; WORDS]>,
    counts: Vec<u16>,
    /// The free frames, the next to be taken last.
    free: Vec<u16>,
}

/// The counts of `audit`.
pub struct Report {
    pub free: u32,
    pub held: u32,
    pub shared: u32,
    pub references: u32,
}

impl Frames {
    pub fn new(frames: u32) -> Frames {
        Frames {
            words: vec![[0; WORDS]; frames as usize],
            counts: vec![0; frames as usize],
            free: (0..frames as u16).rev().collect(),
        }
    }

    pub fn report(&self) -> Report {
        let (mut held, mut shared, mut references) = (0, 0, 0);
        for &count in &self.counts {
            held += u32::from(count > 0);
            shared += u32::from(count > 1);
            references += u32::from(count);
        }
        let free = self.counts.len() as u32 - held;
        Report {
            free,
            held,
            shared,
            references,
        }
    }
}

impl Store for Frames {
    #[inline(always)]
    fn load(&self, frame: Frame, index: usize) -> u64 {
        self.words[frame as usize][index & (WORDS - 1)]
    }

    #[inline(always)]
    fn store(&mut self, frame: Frame, index: usize, word: u64) {
        self.words[frame as usize][index & (WORDS - 1)] = word;
    }

    #[inline(always)]
    fn frames(&self) -> u32 {
        self.words.len() as u32
    }

    fn count(&self, frame: Frame) -> u32 {
        u32::from(self.counts[frame as usize])
    }

    /// With one thread, what is free here is still free when it is claimed.
    fn reserve(&mut self, n: u64) -> bool {
        n <= self.free.len() as u64
    }

    fn claim(&mut self) -> Frame {
        let frame = self.free.pop().expect("the frame was reserved");
        self.counts[usize::from(frame)] = 1;
        Frame::from(frame)
    }

    fn share(&mut self, frame: Frame) {
        self.counts[frame as usize] += 1;
    }

    fn release(&mut self, frame: Frame) {
        let count = &mut self.counts[frame as usize];
        *count -= 1;
        if *count == 0 {
            self.free.push(frame as u16);
        }
    }

    fn read_bytes(&self, frame: Frame, at: usize, out: &mut [u8]) {
        let page = &self.words[frame as usize];
        let (index, skip) = (at / 8, at % 8);
        let head = head_length(skip, out.len());
        let (head, rest) = out.split_at_mut(head);
        if !head.is_empty() {
            let word = page[index].to_le_bytes();
            head.copy_from_slice(&word[skip..skip + head.len()]);
        }
        let words = &page[index + usize::from(skip > 0)..];
        let (chunks, tail) = rest.as_chunks_mut::<8>();
        let whole = chunks.len();
        for (chunk, word) in chunks.iter_mut().zip(words) {
            *chunk = word.to_le_bytes();
        }
        if !tail.is_empty() {
            tail.copy_from_slice(&words[whole].to_le_bytes()[..tail.len()]);
        }
    }

    fn write_bytes(&mut self, frame: Frame, at: usize, bytes: &[u8]) {
        let (index, skip) = (at / 8, at % 8);
        let head = head_length(skip, bytes.len());
        let (head, rest) = bytes.split_at(head);
        if !head.is_empty() {
            self.merge(frame, index, skip, head);
        }
        let first = index + usize::from(skip > 0);
        let (chunks, tail) = rest.as_chunks::<8>();
        let words = &mut self.words[frame as usize][first..];
        for (word, chunk) in words.iter_mut().zip(chunks) {
            *word = u64::from_le_bytes(*chunk);
        }
        if !tail.is_empty() {
            self.merge(frame, first + chunks.len(), 0, tail);
        }
    }

    fn copy_page(&mut self, from: Frame, to: Frame) {
        let pair = self.words.get_disjoint_mut([from as usize, to as usize]);
        let [from, to] = pair.expect("two frames of the memory");
        to.copy_from_slice(from);
    }

    fn set_page(&mut self, frame: Frame, bytes: &[u8]) {
        let page = &mut self.words[frame as usize];
        let chunks = bytes.chunks_exact(8);
        let whole = chunks.len();
        let tail = chunks.remainder();
        for (word, chunk) in page.iter_mut().zip(chunks) {
            *word = word_of(chunk);
        }
        page[whole..].fill(0);
        if !tail.is_empty() {
            let mut word = [0; 8];
            word[..tail.len()].copy_from_slice(tail);
            page[whole] = u64::from_le_bytes(word);
        }
    }
}
