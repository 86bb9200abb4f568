//! Walks over memory of any kind. What must come back is worked out by hand from the standard's 4.3.2, and written here as numbers.

use xv6vm::{
    translate_by, Access, Asked, Entry, Error, Memory, Mode, Outcome, Pte, Question, Reason, Regions, Tlb, Translation, Walk,
};
use Access::{Fetch, Load, Store};
use Mode::{Supervisor, User};

const SV39: u64 = 8 << 60 | 0x80001;
const SV48: u64 = 9 << 60 | 0x80000;

/// A leaf of the frame at 0x80005000 for user loads and stores: V, R, W, U, A, D.
const DATA: u64 = 0x80005 << 10 | 0xd7;

/// Six frames: tables of levels 3 to 0, a spare one, and the page of 0x1000.
fn words() -> Vec<u64> {
    let mut words = vec![0; 6 * 512];
    for level in 0..3 {
        words[level * 512] = (0x80001 + level as u64) << 10 | 1;
    }
    words[3 * 512 + 1] = DATA;
    words
}

/// Walks by Sv39 to 0x1234, with another word at a place.
fn walk(place: u64, word: u64, access: Access, mode: Mode) -> Translation {
    let words = words();
    let memory = Memory::new(0x80000, &words);
    let read = |at: u64| if at == place { Some(word) } else { memory.read(at) };
    translate_by(read, SV39, 0x1234, access, mode).unwrap()
}

fn page_fault(cause: u64, reason: Reason) -> Translation {
    Translation { outcome: Outcome::PageFault { cause }, reason: Some(reason) }
}

fn access_fault(cause: u64, reason: Reason) -> Translation {
    Translation { outcome: Outcome::AccessFault { cause }, reason: Some(reason) }
}

fn leaf(word: u64, address: u64) -> Translation {
    Translation { outcome: Outcome::Leaf { level: 0, word, address }, reason: None }
}

const LEAF: u64 = 0x80003008;
const ROOT: u64 = 0x80001000;

fn at_leaf(word: u64) -> Pte {
    Pte { level: 0, address: LEAF, word }
}

#[test]
fn steps() {
    assert_eq!(walk(LEAF, DATA, Load, User), leaf(DATA, 0x80005234));
    // step 3: V is clear; W without R; bit 54 is reserved; so it is in a pointer
    for word in [0, DATA & !1, DATA & !2, DATA | 1 << 54] {
        assert_eq!(walk(LEAF, word, Load, User), page_fault(13, Reason::Invalid(at_leaf(word))));
    }
    let pte = Pte { level: 2, address: ROOT, word: 1 << 63 | 0x80002 << 10 | 1 };
    assert_eq!(walk(ROOT, pte.word, Fetch, User), page_fault(12, Reason::Invalid(pte)));
    // step 4: neither R nor X at level 0
    assert_eq!(walk(LEAF, 0x80004 << 10 | 1, Store, User), page_fault(15, Reason::NoLeaf(at_leaf(0x80004 << 10 | 1))));
    // step 5: no X; U in supervisor mode with SUM = 0; no U in user mode; no W
    assert_eq!(walk(LEAF, DATA, Fetch, User), page_fault(12, Reason::NotGranted(at_leaf(DATA))));
    assert_eq!(walk(LEAF, DATA, Load, Supervisor), page_fault(13, Reason::NotGranted(at_leaf(DATA))));
    assert_eq!(walk(LEAF, DATA & !0x10, Load, User), page_fault(13, Reason::NotGranted(at_leaf(DATA & !0x10))));
    assert_eq!(walk(LEAF, DATA & !4, Store, User), page_fault(15, Reason::NotGranted(at_leaf(DATA & !4))));
    // step 7: A is clear; D is clear at a store, and no matter at a load
    assert_eq!(walk(LEAF, DATA & !0x40, Load, User), page_fault(13, Reason::NotMarked(at_leaf(DATA & !0x40))));
    assert_eq!(walk(LEAF, DATA & !0x80, Store, User), page_fault(15, Reason::NotMarked(at_leaf(DATA & !0x80))));
    assert_eq!(walk(LEAF, DATA & !0x80, Load, User), leaf(DATA & !0x80, 0x80005234));
}

#[test]
fn superpages() {
    // a leaf in the root maps 2^18 pages, and 0x80001 is no multiple of that: step 6, after step 5 and before step 7
    let pte = |word| Pte { level: 2, address: ROOT, word };
    let word = 0x80001 << 10 | 0xd7;
    assert_eq!(walk(ROOT, word, Load, User), page_fault(13, Reason::Misaligned(pte(word))));
    assert_eq!(walk(ROOT, word & !0x40, Load, User), page_fault(13, Reason::Misaligned(pte(word & !0x40))));
    assert_eq!(walk(ROOT, word, Load, Supervisor), page_fault(13, Reason::NotGranted(pte(word))));
    let word = 0x80000 << 10 | 0xd7;
    let outcome = Outcome::Leaf { level: 2, word, address: 0x80001234 };
    assert_eq!(walk(ROOT, word, Load, User), Translation { outcome, reason: None });
}

#[test]
fn outside() {
    // step 2: the table of level 0 is at 0x90000000; the root is at 0x70000000
    let pointer = 0x90000 << 10 | 1;
    let reason = Reason::TableOutside { level: 0, address: 0x90000008, pointer: Some(pointer) };
    assert_eq!(walk(0x80002000, pointer, Store, User), access_fault(7, reason));
    let reason = Reason::TableOutside { level: 2, address: 0x70000018, pointer: None };
    let memory = words();
    let memory = Memory::new(0x80000, &memory);
    let walked = translate_by(|at| memory.read(at), 8 << 60 | 0x70000, 3 << 30, Fetch, User);
    assert_eq!(walked, Ok(access_fault(1, reason)));
    // step 8: the byte is at 0x90000234
    let word = 0x90000 << 10 | 0xd7;
    let reason = Reason::ByteOutside { leaf: at_leaf(word), address: 0x90000234 };
    assert_eq!(walk(LEAF, word, Load, User), access_fault(5, reason));
    assert_eq!((reason.step(), reason.pte()), (8, Some(at_leaf(word))));
}

/// What is asked for, in order, and addresses that are not canonical.
#[test]
fn questions() {
    let words = words();
    let memory = Memory::new(0x80000, &words);
    let mut asked = Vec::new();
    let mut by = |satp, address, mode| {
        asked.clear();
        let read = |at| {
            asked.push(at);
            memory.read(at)
        };
        (translate_by(read, satp, address, Load, mode), asked.clone())
    };
    let places = [0x80000000, 0x80001000, 0x80002000, LEAF, 0x80005230];
    assert_eq!(by(SV39, 0x1234, User), (Ok(leaf(DATA, 0x80005234)), places[1..].to_vec()));
    assert_eq!(by(SV48, 0x1234, User), (Ok(leaf(DATA, 0x80005234)), places.to_vec()));
    let refused = Ok(page_fault(13, Reason::NotCanonical));
    for (satp, address) in [(SV39, 1 << 38), (SV39, 1 << 63), (SV48, 1 << 47), (SV39, u64::MAX << 38 ^ 1 << 50)] {
        assert_eq!(by(satp, address, User), (refused, Vec::new()));
    }
    let bare = Translation { outcome: Outcome::Bare { address: u64::MAX }, reason: None };
    assert_eq!(by(0, u64::MAX, Supervisor), (Ok(bare), Vec::new()));
    assert_eq!(by(10 << 60, 0x1234, User), (Err(Error::UnknownScheme), Vec::new()));
    assert_eq!(by(SV39, 0x1234, Mode::Machine), (Err(Error::MachineMode), Vec::new()));
    assert_eq!(Reason::NotCanonical.pte(), None);
}

#[test]
fn regions() {
    let words = words();
    let (tables, rest) = words.split_at(3 * 512);
    let halves = [Memory::new(0x80003, rest), Memory::new(0x80000, tables)];
    let memory = Regions::new(&halves);
    assert_eq!(memory.translate(SV48, 0x1fff, Store, User), Ok(leaf(DATA, 0x80005fff)));
    assert_eq!((memory.read(LEAF + 7), memory.read(0x80006000), memory.regions().len()), (Some(DATA), None, 2));
    // the last level's table is gone; another is in front of it
    let reason = Reason::TableOutside { level: 0, address: LEAF, pointer: Some(0x80003 << 10 | 1) };
    assert_eq!(Regions::new(&halves[1..]).translate(SV39, 0x1234, Load, User), Ok(access_fault(5, reason)));
    let table = [0, DATA & !0x40];
    let covered = [Memory::new(0x80003, &table), halves[0], halves[1]];
    let reason = Reason::NotMarked(at_leaf(DATA & !0x40));
    assert_eq!(Regions::new(&covered).translate(SV39, 0x1234, Load, User), Ok(page_fault(13, reason)));
    let nowhere = [Memory::new(u64::MAX, &words), Memory::new(1 << 55, &words)];
    assert_eq!((Regions::new(&nowhere).read(u64::MAX), Regions::new(&nowhere).read(0)), (None, None));
    assert!(
        matches!(Regions::new(&[]).translate(SV39, 0, Load, User), Ok(it) if it.outcome == Outcome::AccessFault { cause: 5 })
    );
}

/// A walk without a closure: what it says of an end, and that it stays there.
#[test]
fn by_hand() {
    let mut walk = Walk::begin(SV39, 0x1234, Store, User);
    for (asked, word) in [(ROOT, 0x80002 << 10 | 1), (0x80002000, 0x80003 << 10 | 1), (LEAF, DATA)] {
        assert_eq!((walk.asked(), walk.end()), (Some(Asked::Word(asked)), None));
        walk.tell(Some(word));
    }
    assert_eq!(walk.asked(), Some(Asked::Byte(0x80005234)));
    let before = walk.clone();
    walk.tell(None);
    let end = access_fault(7, Reason::ByteOutside { leaf: at_leaf(DATA), address: 0x80005234 });
    assert_eq!((walk.asked(), walk.end()), (None, Some(Ok(end))));
    walk.tell(Some(0));
    assert_eq!(walk.end(), Some(Ok(end)));
    assert_ne!(walk, before);
}

#[test]
fn questions_by_name() {
    let words = words();
    let memory = Memory::new(0x80000, &words);
    let mut tlb = Tlb::over([Entry::default(); 2]);
    let question = Question { memory, satp: SV39, address: 0x2234, access: Load, mode: User };
    let old = Outcome::Leaf { level: 0, word: DATA, address: 0x80005234 };
    assert!(tlb.permits_of(&question, Outcome::PageFault { cause: 13 }) && !tlb.permits_of(&question, old));
    // an entry for 0x2000 that has the leaf of 0x1000
    tlb.entries_mut()[0] = Entry { address: 0x2000, word: DATA, level: 0, asid: 0, global: 0, kind: 1 };
    assert!(tlb.permits_of(&question, Outcome::PageFault { cause: 13 }) && tlb.permits_of(&question, old));
    assert!(!tlb.permits_of(&Question { address: 0x3234, ..question }, old));
    assert!(!tlb.permits_of(&Question { satp: SV39 | 1 << 44, ..question }, old));
    assert!(!tlb.permits_of(&Question { access: Store, ..question }, Outcome::PageFault { cause: 13 }));
}
