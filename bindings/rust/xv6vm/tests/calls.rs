//! Each call once. What must come back is written here as numbers.

use xv6vm::{
    Access, Entry, Error, Hart, Judged, Leaf, Memory, MemoryType, Mode, Outcome, Pmps, Profile, Request, Tlb, Update, Width,
};

const SV39: u64 = 8 << 60 | 7 << 44 | 0x80001;
const SV48: u64 = 9 << 60 | 7 << 44 | 0x80000;

/// A leaf of the frame at 0x80005000 for user loads and stores.
const DATA: u64 = 0x80005 << 10 | 0xd7;

/// Six frames: tables of levels 3 to 0, a spare one, and the page of 0x1000.
fn words() -> Vec<u64> {
    let mut words = vec![0; 6 * 512];
    for level in 0..3 {
        words[level * 512] = (0x80001 + level as u64) << 10 | 1;
    }
    words[3 * 512 + 1] = DATA;
    words
}

fn leaf(address: u64) -> Result<Outcome, Error> {
    Ok(Outcome::Leaf { level: 0, word: DATA, address })
}

#[test]
fn walks() {
    let words = words();
    let memory = Memory::new(0x80000, &words);
    for satp in [SV39, SV48] {
        let walk = |address, access, mode| memory.translate(satp, address, access, mode);
        assert_eq!(walk(0x1234, Access::Load, Mode::User), leaf(0x80005234));
        assert_eq!(walk(0x1fff, Access::Store, Mode::User), leaf(0x80005fff));
        assert_eq!(walk(0x1234, Access::Fetch, Mode::User), Ok(Outcome::PageFault { cause: 12 }));
        assert_eq!(walk(0x1234, Access::Store, Mode::Supervisor), Ok(Outcome::PageFault { cause: 15 }));
        assert_eq!(walk(0x1234, Access::Load, Mode::Machine), Err(Error::MachineMode));
        let found = Leaf { level: 0, word: DATA, address: 0x80005234, global: false };
        assert_eq!(memory.lookup(satp, 0x1234), Ok(Some(found)));
        assert_eq!(memory.lookup(satp, 0x2000), Ok(None));
    }
    let bare = memory.translate(0, 0x1234, Access::Fetch, Mode::Supervisor);
    assert_eq!(bare, Ok(Outcome::Bare { address: 0x1234 }));
    assert_eq!(memory.translate(10 << 60, 0x1234, Access::Load, Mode::User), Err(Error::UnknownScheme));
    assert_eq!(memory.lookup(0, 0x1234), Err(Error::Bare));
    assert_eq!(memory.lookup(10 << 60, 0x1234), Err(Error::UnknownScheme));
    let none = Memory::new(0x80000, &[]);
    assert_eq!(none.translate(SV39, 0x1234, Access::Store, Mode::User), Ok(Outcome::AccessFault { cause: 7 }));
    assert_eq!(none.lookup(SV39, 0x1234), Err(Error::TableOutside));
}

#[test]
fn tlbs() {
    let (mut words, mut tlb) = (words(), Tlb::over([Entry::default(); 4]));
    assert_eq!(tlb.first_match(0, 0x1000, 7), None);
    let memory = Memory::new(0x80000, &words);
    assert_eq!(tlb.fill(&memory, SV39, 0x1000), Ok(()));
    assert_eq!(tlb.fill(&memory, SV39, 0x2000), Ok(()));
    assert_eq!(tlb.fill(&memory, 8 << 60, 0x1000), Err(Error::TableOutside));
    assert_eq!(tlb.fill(&memory, 0, 0x1000), Err(Error::Bare));
    assert_eq!(tlb.first_match(0, 0x1fff, 7), Some(2));
    assert_eq!(tlb.first_match(3, 0x1fff, 7), None);
    assert_eq!(tlb.first_match(0, 0x1fff, 8), None);
    words[3 * 512 + 1] = 0;
    let memory = Memory::new(0x80000, &words);
    assert_eq!(tlb.translate(2, 0x1234, 7, Access::Load, Mode::User), leaf(0x80005234));
    assert_eq!(tlb.translate(3, 0x2000, 7, Access::Load, Mode::User), Ok(Outcome::PageFault { cause: 13 }));
    assert_eq!(tlb.translate(0, 0x1234, 7, Access::Load, Mode::User), Err(Error::NoEntry));
    let permits = |tlb: &Tlb<_>, outcome| tlb.permits(&memory, SV39, 0x1234, Access::Load, Mode::User, outcome);
    let stale = Outcome::Leaf { level: 0, word: DATA, address: 0x80005234 };
    assert!(permits(&tlb, Outcome::PageFault { cause: 13 }) && permits(&tlb, stale));
    tlb.fence(Some(0x1000), Some(8));
    assert!(permits(&tlb, stale));
    tlb.fence(Some(0x1fff), None);
    assert!(!permits(&tlb, stale));
    assert_eq!(tlb.fill(&memory, SV39, 0x2000), Ok(()));
    assert_eq!(tlb.entries()[3].kind, 2);
    tlb.evict(3);
    assert_eq!(tlb.entries(), [Entry::default(); 4]);
    assert_eq!(Tlb::new(4).entries(), tlb.entries_mut());
}

#[test]
fn events_grow() {
    let mut hart = Hart::new(&Profile { sv48: false, pmps: Pmps::Sixteen, ..Profile::default() });
    assert_eq!(hart.satp(SV48), Err(Error::NotWritten));
    assert_eq!(hart.satp(SV39), Ok(()));
    for _ in 0..100 {
        hart.mem(0x80004000, 0, 0);
    }
    hart.pmp(0, 0x1f, u64::MAX >> 10);
    hart.fence(Some(0x1000), Some(7));
    assert_eq!(hart.events(), 103);
    hart.fence(None, None);
    assert_eq!(hart.events(), 0);
}

/// A hart that sets A and D itself. The leaf lacks both.
#[test]
fn updates() {
    let (mut words, place) = (words(), 0x80003008);
    words[3 * 512 + 1] = DATA & !0xc0;
    let mut hart = Hart::new(&Profile { svade: false, svadu: true, ..Profile::default() });
    hart.satp(SV39).unwrap();
    hart.fence(None, None);
    let store = Request { address: 0x1238, width: Width::Four, access: Access::Store, mode: Mode::User };
    let update = Some(Update { address: place, word: DATA });
    let outcome = Judged::Granted { address: 0x80005238, memory_type: MemoryType::Pma, update };
    let memory = Memory::new(0x80000, &words);
    assert_eq!(hart.outcomes(&memory, &store), [outcome]);
    assert!(hart.judge(&memory, &store, &outcome));
    assert!(!hart.judge(&memory, &store, &Judged::granted(0x80005238)));
    assert!(!hart.judge(&memory, &store, &Judged::refused(15)));
    let misaligned = Request { address: 0x1239, ..store };
    assert_eq!(hart.outcomes(&memory, &misaligned), [Judged::refused(6)]);
    hart.status(1 << 18);
    let load = Request { mode: Mode::Supervisor, access: Access::Load, ..store };
    let update = Some(Update { address: place, word: DATA & !0x80 });
    assert_eq!(hart.outcomes(&memory, &load), [Judged::Granted { address: 0x80005238, memory_type: MemoryType::Pma, update }]);
}

#[cfg(feature = "play")]
#[test]
fn scripts() {
    use xv6vm::{play_into, Script, ScriptError, ScriptFault};
    let script = "image 0x1000:0x1000:rw:61\nboot 1 64 1 full\nstart 0\non 0 0\nload 0 0x1000 1\n";
    let text = "ok\nslot 0\nok\nvalue 0x61\n";
    assert_eq!(Script::new(script).play(), Ok(text.to_string()));
    assert_eq!(
        Script::new(&script.replace("load", "laod")).play(),
        Err(ScriptError::Fault { line: 5, cause: ScriptFault::Word })
    );
    let mut room = [9; 100];
    assert_eq!(play_into(script.as_bytes(), &mut room), Ok(text.len()));
    assert_eq!((&room[..text.len()], room[text.len()]), (text.as_bytes(), 9));
    assert_eq!(play_into(script.as_bytes(), &mut room[..4]), Err(ScriptError::NoRoom(text.len())));
}
