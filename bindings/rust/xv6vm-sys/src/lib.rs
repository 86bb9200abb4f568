//! The calls of libxv6vm as its header declares them: `xv6vm.h` says what each does, and what a caller must keep.
//!
//! Every call is `unsafe`: a pointer must not be null, also with a count of 0, and must be aligned; an array must have as many elements
//! as the count beside it says; while a call runs nobody writes what it reads, and nobody else reads or writes what it writes. The crate
//! `xv6vm` keeps these rules for you. What the header has in C alone (`xv6vm_translate_by` and regions) is not here: it is a loop around
//! `xv6vm_walk_begin` and `xv6vm_walk_next`.
#![no_std]
#![allow(non_camel_case_types)]

pub const XV6VM_VERSION: &str = "0.9.0";

pub const XV6VM_FETCH: u32 = 0;
pub const XV6VM_LOAD: u32 = 1;
pub const XV6VM_STORE: u32 = 2;

pub const XV6VM_USER: u32 = 0;
pub const XV6VM_SUPERVISOR: u32 = 1;
pub const XV6VM_MACHINE: u32 = 3;

pub const XV6VM_LEAF: u32 = 0;
pub const XV6VM_PAGE_FAULT: u32 = 1;
pub const XV6VM_ACCESS_FAULT: u32 = 2;
pub const XV6VM_BARE: u32 = 3;
pub const XV6VM_NO_LEAF: u32 = 4;
pub const XV6VM_NO_ENTRY: u32 = 5;
pub const XV6VM_UNKNOWN: u32 = 6;
pub const XV6VM_FULL: u32 = 7;

/// The outcome of the translation of an access.
#[repr(C)]
#[derive(Clone, Copy, Debug, Default, PartialEq, Eq, Hash)]
pub struct xv6vm_outcome {
    pub status: u32,
    pub level: u32,
    pub word: u64,
    pub address: u64,
    pub cause: u64,
}

/// What a walk finds for an address, whatever the rights.
#[repr(C)]
#[derive(Clone, Copy, Debug, Default, PartialEq, Eq, Hash)]
pub struct xv6vm_leaf {
    pub status: u32,
    pub level: u32,
    pub word: u64,
    pub address: u64,
    pub global: u64,
}

/// A place of a TLB. Any numbers are allowed; all zeros is an empty place.
#[repr(C)]
#[derive(Clone, Copy, Debug, Default, PartialEq, Eq, Hash)]
pub struct xv6vm_entry {
    pub address: u64,
    pub word: u64,
    pub level: u32,
    pub asid: u16,
    pub global: u8,
    pub kind: u8,
}

pub const XV6VM_READ: u32 = 8;
pub const XV6VM_BYTE: u32 = 9;

/// How far a walk has come.
#[repr(C)]
#[derive(Clone, Copy, Debug, Default, PartialEq, Eq, Hash)]
pub struct xv6vm_reached {
    pub status: u32,
    pub level: u32,
    pub table: u64,
    pub index: u64,
    pub place: u64,
    pub word: u64,
    pub cause: u64,
    pub step: u64,
}

/// A walk that asks for each word: what it is for, and how far it has come. Any numbers are allowed; `xv6vm_walk_begin` makes a sensible one.
#[repr(C)]
#[derive(Clone, Copy, Debug, Default, PartialEq, Eq, Hash)]
pub struct xv6vm_walk {
    pub satp: u64,
    pub address: u64,
    pub access: u32,
    pub mode: u32,
    pub at: xv6vm_reached,
}

pub const XV6VM_STORE_EVENT: u64 = 0;
pub const XV6VM_SATP_EVENT: u64 = 1;
pub const XV6VM_PMP_EVENT: u64 = 2;
pub const XV6VM_FENCE_ADDRESS_EVENT: u64 = 3;
pub const XV6VM_FENCE_ASID_EVENT: u64 = 4;

/// An event of a hart's history. Any numbers are allowed.
#[repr(C)]
#[derive(Clone, Copy, Debug, Default, PartialEq, Eq, Hash)]
pub struct xv6vm_event {
    pub kind: u64,
    pub key: u64,
    pub value: u64,
    pub other: u64,
}

/// A PMP entry: its byte of pmpcfg, and pmpaddr.
#[repr(C)]
#[derive(Clone, Copy, Debug, Default, PartialEq, Eq, Hash)]
pub struct xv6vm_pmp {
    pub config: u64,
    pub address: u64,
}

pub const XV6VM_SVNAPOT: u32 = 1;
pub const XV6VM_SVPBMT: u32 = 2;
pub const XV6VM_SVADE: u32 = 4;
pub const XV6VM_SVADU: u32 = 8;
pub const XV6VM_SV39: u32 = 256;
pub const XV6VM_SV48: u32 = 512;
pub const XV6VM_SV57: u32 = 1024;

/// What is known of a hart beside its events. Any numbers are allowed; `xv6vm_hart_begin` makes a sensible one.
#[repr(C)]
#[derive(Clone, Copy, Debug, PartialEq, Eq, Hash)]
pub struct xv6vm_hart {
    pub profile: u32,
    pub asid_bits: u32,
    pub mstatus: u64,
    pub satp: u64,
    pub pmp_count: u64,
    pub count: u64,
    pub pmp: [xv6vm_pmp; 64],
}

impl xv6vm_hart {
    /// All zeros, for `xv6vm_hart_begin`.
    pub const ZERO: xv6vm_hart = xv6vm_hart {
        profile: 0,
        asid_bits: 0,
        mstatus: 0,
        satp: 0,
        pmp_count: 0,
        count: 0,
        pmp: [xv6vm_pmp { config: 0, address: 0 }; 64],
    };
}

/// An access.
#[repr(C)]
#[derive(Clone, Copy, Debug, Default, PartialEq, Eq, Hash)]
pub struct xv6vm_access {
    pub address: u64,
    pub width: u64,
    pub access: u32,
    pub mode: u32,
}

pub const XV6VM_GRANTED: u32 = 0;
pub const XV6VM_REFUSED: u32 = 1;

/// What comes of an access.
#[repr(C)]
#[derive(Clone, Copy, Debug, Default, PartialEq, Eq, Hash)]
pub struct xv6vm_judged {
    pub status: u32,
    pub memory_type: u32,
    pub address: u64,
    pub cause: u64,
    pub updates: u64,
    pub table: u64,
    pub index: u64,
    pub word: u64,
}

pub const XV6VM_PLAYED: u32 = 0;
pub const XV6VM_NO_MEMORY: u32 = 21;
pub const XV6VM_SCRIPT: u32 = 23;
pub const XV6VM_NO_ROOM: u32 = 25;

pub const XV6VM_TOO_LONG: u32 = 1;
pub const XV6VM_NOT_ASCII: u32 = 2;
pub const XV6VM_WORD: u32 = 3;
pub const XV6VM_ORDER: u32 = 4;
pub const XV6VM_COUNT: u32 = 5;
pub const XV6VM_NUMBER: u32 = 6;
pub const XV6VM_FIELD: u32 = 7;
pub const XV6VM_LIMITS: u32 = 8;
pub const XV6VM_TOO_MANY: u32 = 9;

/// How the play of a script ended.
#[repr(C)]
#[derive(Clone, Copy, Debug, Default, PartialEq, Eq, Hash)]
pub struct xv6vm_played {
    pub status: u32,
    pub cause: u32,
    pub line: u64,
}

extern "C" {
    pub fn xv6vm_translate(
        words: *const u64,
        count: usize,
        base_ppn: u64,
        satp: u64,
        address: u64,
        access: u32,
        mode: u32,
    ) -> xv6vm_outcome;
    pub fn xv6vm_lookup(words: *const u64, count: usize, base_ppn: u64, satp: u64, address: u64) -> xv6vm_leaf;
    pub fn xv6vm_tlb_fill(
        entries: *mut xv6vm_entry,
        places: usize,
        words: *const u64,
        count: usize,
        base_ppn: u64,
        satp: u64,
        address: u64,
    ) -> u32;
    pub fn xv6vm_tlb_match(entries: *const xv6vm_entry, places: usize, from: usize, address: u64, asid: u16) -> usize;
    pub fn xv6vm_tlb_use(
        entries: *const xv6vm_entry,
        places: usize,
        n: usize,
        address: u64,
        asid: u16,
        access: u32,
        mode: u32,
    ) -> xv6vm_outcome;
    pub fn xv6vm_tlb_evict(entries: *mut xv6vm_entry, places: usize, n: usize);
    pub fn xv6vm_tlb_fence(entries: *mut xv6vm_entry, places: usize, has_address: u32, address: u64, has_asid: u32, asid: u16);
    pub fn xv6vm_permits(
        entries: *const xv6vm_entry,
        places: usize,
        words: *const u64,
        count: usize,
        base_ppn: u64,
        satp: u64,
        address: u64,
        access: u32,
        mode: u32,
        outcome: xv6vm_outcome,
    ) -> u32;
    pub fn xv6vm_walk_begin(walk: *mut xv6vm_walk, satp: u64, address: u64, access: u32, mode: u32);
    pub fn xv6vm_walk_next(walk: *mut xv6vm_walk, is_there: u32, word: u64);
    pub fn xv6vm_hart_begin(hart: *mut xv6vm_hart, profile: u32, asid_bits: u32, pmp_count: u32);
    pub fn xv6vm_hart_status(hart: *mut xv6vm_hart, mstatus: u64);
    pub fn xv6vm_hart_mem(
        hart: *mut xv6vm_hart,
        events: *mut xv6vm_event,
        capacity: usize,
        address: u64,
        before: u64,
        word: u64,
    ) -> u32;
    pub fn xv6vm_hart_satp(hart: *mut xv6vm_hart, events: *mut xv6vm_event, capacity: usize, satp: u64) -> u32;
    pub fn xv6vm_hart_pmp(
        hart: *mut xv6vm_hart,
        events: *mut xv6vm_event,
        capacity: usize,
        number: usize,
        config: u8,
        address: u64,
    ) -> u32;
    pub fn xv6vm_hart_fence(
        hart: *mut xv6vm_hart,
        events: *mut xv6vm_event,
        capacity: usize,
        has_address: u32,
        address: u64,
        has_asid: u32,
        asid: u16,
    ) -> u32;
    pub fn xv6vm_hart_judge(
        hart: *const xv6vm_hart,
        events: *const xv6vm_event,
        capacity: usize,
        words: *const u64,
        count: usize,
        base_ppn: u64,
        access: *const xv6vm_access,
        outcome: *const xv6vm_judged,
    ) -> u32;
    pub fn xv6vm_hart_outcomes(
        hart: *const xv6vm_hart,
        events: *const xv6vm_event,
        capacity: usize,
        words: *const u64,
        count: usize,
        base_ppn: u64,
        access: *const xv6vm_access,
        found: *mut xv6vm_judged,
        places: usize,
        listed: *mut usize,
    ) -> u32;
    #[cfg(feature = "play")]
    pub fn xv6vm_play(script: *const u8, length: usize, text: *mut u8, capacity: usize, written: *mut usize) -> xv6vm_played;
}
