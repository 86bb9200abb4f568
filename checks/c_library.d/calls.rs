//! Calls the C library from Rust by the crate of bindings/rust/xv6vm-sys, behind safe functions: a slice is all that a call asks for. What
//! must come back is written here as numbers.

use std::process::ExitCode;

use xv6vm_sys as raw;
use xv6vm_sys::{xv6vm_entry as Entry, xv6vm_leaf as Leaf, xv6vm_outcome as Outcome, xv6vm_reached as Reached};

#[derive(Clone, Copy)]
enum Access {
    Fetch = 0,
    Load = 1,
    Store = 2,
}

#[derive(Clone, Copy)]
enum Mode {
    User = 0,
    Supervisor = 1,
}

/// Physical memory from page number `base_ppn` on.
struct Memory {
    words: Vec<u64>,
    base_ppn: u64,
}

impl Memory {
    fn translate(&self, satp: u64, address: u64, access: Access, mode: Mode) -> Outcome {
        let words = &self.words;
        unsafe { raw::xv6vm_translate(words.as_ptr(), words.len(), self.base_ppn, satp, address, access as u32, mode as u32) }
    }

    /// Walks with a question for each word. Returns how the walk ends, and how often it asks.
    fn walk(&self, satp: u64, address: u64, access: Access, mode: Mode) -> (Reached, u32) {
        let (mut walk, mut asked) = (raw::xv6vm_walk::default(), 0);
        unsafe { raw::xv6vm_walk_begin(&mut walk, satp, address, access as u32, mode as u32) };
        while walk.at.status == raw::XV6VM_READ || walk.at.status == raw::XV6VM_BYTE {
            let before = (walk.at.place / 8).checked_sub(512 * self.base_ppn);
            let word = before.and_then(|it| self.words.get(it as usize));
            unsafe { raw::xv6vm_walk_next(&mut walk, u32::from(word.is_some()), word.copied().unwrap_or(0)) };
            asked += 1;
        }
        (walk.at, asked)
    }

    fn lookup(&self, satp: u64, address: u64) -> Leaf {
        let words = &self.words;
        unsafe { raw::xv6vm_lookup(words.as_ptr(), words.len(), self.base_ppn, satp, address) }
    }
}

/// A TLB of four places.
#[derive(Default)]
struct Tlb {
    entries: [Entry; 4],
}

impl Tlb {
    fn fill(&mut self, memory: &Memory, satp: u64, address: u64) -> u32 {
        let (entries, words) = (&mut self.entries, &memory.words);
        unsafe {
            raw::xv6vm_tlb_fill(entries.as_mut_ptr(), entries.len(), words.as_ptr(), words.len(), memory.base_ppn, satp, address)
        }
    }

    fn first_match(&self, address: u64, asid: u16) -> Option<usize> {
        let n = unsafe { raw::xv6vm_tlb_match(self.entries.as_ptr(), self.entries.len(), 0, address, asid) };
        (n < self.entries.len()).then_some(n)
    }

    fn translate(&self, n: usize, address: u64, asid: u16, access: Access, mode: Mode) -> Outcome {
        let entries = &self.entries;
        unsafe { raw::xv6vm_tlb_use(entries.as_ptr(), entries.len(), n, address, asid, access as u32, mode as u32) }
    }

    fn evict(&mut self, n: usize) {
        unsafe { raw::xv6vm_tlb_evict(self.entries.as_mut_ptr(), self.entries.len(), n) }
    }

    fn fence(&mut self, address: Option<u64>, asid: Option<u16>) {
        let (has_address, has_asid) = (u32::from(address.is_some()), u32::from(asid.is_some()));
        let entries = &mut self.entries;
        unsafe {
            raw::xv6vm_tlb_fence(
                entries.as_mut_ptr(),
                entries.len(),
                has_address,
                address.unwrap_or(0),
                has_asid,
                asid.unwrap_or(0),
            )
        }
    }

    fn permits(&self, memory: &Memory, satp: u64, address: u64, access: Access, mode: Mode, outcome: Outcome) -> bool {
        let (entries, words) = (&self.entries, &memory.words);
        let answer = unsafe {
            raw::xv6vm_permits(
                entries.as_ptr(),
                entries.len(),
                words.as_ptr(),
                words.len(),
                memory.base_ppn,
                satp,
                address,
                access as u32,
                mode as u32,
                outcome,
            )
        };
        answer == 1
    }
}

/// Compares, prints what differs, and counts both.
#[derive(Default)]
struct Checks {
    made: u32,
    differences: u32,
}

impl Checks {
    fn same<T: PartialEq + std::fmt::Debug>(&mut self, what: &str, got: T, want: T) {
        self.made += 1;
        if got != want {
            self.differences += 1;
            println!("differs: calls.rs, {what}: {got:x?} in place of {want:x?}");
        }
    }
}

const SV39: u64 = 8 << 60 | 7 << 44 | 0x80001;
const SV48: u64 = 9 << 60 | 7 << 44 | 0x80000;

/// A leaf of the frame at 0x80005000 for user loads and stores.
const DATA: u64 = 0x80005 << 10 | 0xd7;

/// Six frames: tables of levels 3 to 0, a spare one, and the page of 0x1000.
fn memory() -> Memory {
    let mut words = vec![0; 6 * 512];
    for level in 0..3 {
        words[level * 512] = (0x80001 + level as u64) << 10 | 1;
    }
    words[3 * 512 + 1] = DATA;
    Memory { words, base_ppn: 0x80000 }
}

fn leaf(address: u64) -> Outcome {
    Outcome { word: DATA, address, ..Outcome::default() }
}

fn ends(status: u32, cause: u64) -> Outcome {
    Outcome { status, cause, ..Outcome::default() }
}

fn walks(checks: &mut Checks) {
    let memory = memory();
    for satp in [SV39, SV48] {
        let walk = |address, access, mode| memory.translate(satp, address, access, mode);
        checks.same("load", walk(0x1234, Access::Load, Mode::User), leaf(0x80005234));
        checks.same("store", walk(0x1fff, Access::Store, Mode::User), leaf(0x80005fff));
        checks.same("fetch", walk(0x1234, Access::Fetch, Mode::User), ends(1, 12));
        checks.same("supervisor", walk(0x1234, Access::Store, Mode::Supervisor), ends(1, 15));
        checks.same("no leaf", walk(0x2000, Access::Load, Mode::User), ends(1, 13));
        checks.same("not canonical", walk(1 << 63, Access::Load, Mode::User), ends(1, 13));
        let found = Leaf { word: DATA, address: 0x80005234, ..Leaf::default() };
        checks.same("look-up", memory.lookup(satp, 0x1234), found);
        checks.same("look-up of no leaf", memory.lookup(satp, 0x2000).status, 4);
    }
    let bare = Outcome { status: 3, address: 0x1234, ..Outcome::default() };
    checks.same("MODE 0", memory.translate(0, 0x1234, Access::Fetch, Mode::Supervisor), bare);
    checks.same("MODE 10", memory.translate(10 << 60, 0x1234, Access::Load, Mode::User), ends(6, 3));
    let none = Memory { words: Vec::new(), base_ppn: 0x80000 };
    checks.same("no words", none.translate(SV39, 0x1234, Access::Store, Mode::User), ends(2, 7));
}

fn walks_that_ask(checks: &mut Checks) {
    let memory = memory();
    for (satp, reads) in [(SV39, 3), (SV48, 4)] {
        let leaf = Reached { table: 0x80003, index: 1, place: 0x80005234, word: DATA, ..Reached::default() };
        checks.same("a leaf", memory.walk(satp, 0x1234, Access::Load, Mode::User), (leaf, reads + 1));
        let fault = Reached { status: 1, place: 0x80003008, cause: 12, step: 5, ..leaf };
        checks.same("no right", memory.walk(satp, 0x1234, Access::Fetch, Mode::User), (fault, reads));
        let fault = Reached { status: 1, cause: 13, ..Reached::default() };
        checks.same("not canonical", memory.walk(satp, 1 << 63, Access::Load, Mode::User), (fault, 0));
    }
    let outside =
        Reached { status: 2, level: 2, table: 0x90000, index: 3, place: 0x90000018, cause: 7, step: 2, ..Reached::default() };
    checks.same("no table", memory.walk(8 << 60 | 0x90000, 3 << 30, Access::Store, Mode::User), (outside, 1));
    let bare = Reached { status: 3, place: 0x1234, ..Reached::default() };
    checks.same("MODE 0", memory.walk(0, 0x1234, Access::Load, Mode::User), (bare, 0));
}

fn tlbs(checks: &mut Checks) {
    let (mut memory, mut tlb) = (memory(), Tlb::default());
    checks.same("empty", tlb.first_match(0x1000, 7), None);
    checks.same("fill", tlb.fill(&memory, SV39, 0x1000), 0);
    checks.same("fill without a leaf", tlb.fill(&memory, SV39, 0x2000), 0);
    checks.same("fill without a table", tlb.fill(&memory, 8 << 60, 0x1000), 2);
    checks.same("match", tlb.first_match(0x1fff, 7), Some(2));
    checks.same("another ASID", tlb.first_match(0x1fff, 8), None);
    memory.words[3 * 512 + 1] = 0;
    checks.same("stale", tlb.translate(2, 0x1234, 7, Access::Load, Mode::User), leaf(0x80005234));
    checks.same("no leaf kept", tlb.translate(3, 0x2000, 7, Access::Load, Mode::User), ends(1, 13));
    checks.same("place 0", tlb.translate(0, 0x1234, 7, Access::Load, Mode::User), ends(5, 0));
    let permits = |tlb: &Tlb, satp, outcome| tlb.permits(&memory, satp, 0x1234, Access::Load, Mode::User, outcome);
    checks.same("the walk is permitted", permits(&tlb, SV39, ends(1, 13)), true);
    checks.same("a stale entry is permitted", permits(&tlb, SV39, leaf(0x80005234)), true);
    checks.same("not under another ASID", permits(&tlb, SV39 ^ 1 << 44, leaf(0x80005234)), false);
    checks.same("nor another address", permits(&tlb, SV39, leaf(0x80005235)), false);
    tlb.fence(Some(0x1000), Some(8));
    checks.same("a fence of another ASID", tlb.first_match(0x1000, 7), Some(2));
    tlb.fence(Some(0x1fff), None);
    checks.same("fenced", tlb.first_match(0x1000, 7), None);
    checks.same("a fenced entry is not permitted", permits(&tlb, SV39, leaf(0x80005234)), false);
    checks.same("fill once more", tlb.fill(&memory, SV39, 0x2000), 0);
    tlb.evict(3);
    checks.same("evicted", tlb.first_match(0x2000, 7), None);
    tlb.fence(None, None);
    checks.same("empty", tlb.entries.iter().all(|it| it.kind == 0), true);
}

fn main() -> ExitCode {
    let mut checks = Checks::default();
    walks(&mut checks);
    walks_that_ask(&mut checks);
    tlbs(&mut checks);
    println!("comparisons in Rust {}", checks.made);
    println!("differences {}", checks.differences);
    ExitCode::from(u8::from(checks.differences != 0))
}
