"""Harts with caches, for checks/mmu: what each of them may do with an access. They know tags and no history.

At any moment a hart may fetch a word from memory ahead of a use that it guesses (level, page, ASID, global), may let a walk read one
PTE more and keep it, and may forget anything. A walk that began may end after satp is written, if no fence ends it. A store that sets A or D in the place of a leaf that it keeps may be its own, and then it keeps
the leaf so. A fence removes what its tags tell it to. Numbers are sections of the standard.

    Hart          what is kept, and what it says
    PlainHart     keeps nothing
    HartOfAll     keeps all that a hart may: an access has all outcomes that any hart has
    RandomHart    keeps little, at random: an access has one outcome
"""
import collections

from rules import ACCESS_FAULT, MISALIGNED, PAGE_FAULT, TYPES, Status, aged, allows, asid_of, effective, index_of, is_canonical, is_global
from rules import is_locked, is_napot, kind_of, leads_to, pmp_permits, ppn_of, root_of, top_of, updates
from rules import with_entry

# A word with its tags. place: where the walk looks for it. leafed: since it was read, a leaf was stored there
Entry = collections.namedtuple("Entry", "level page place word asid is_global leafed")
# Where a walk may be: its ASID, and whether a pointer on its way is global
Stand = collections.namedtuple("Stand", "level table asid is_global")
Use = collections.namedtuple("Use", "level page place")
# Of all MODEs: a PTE serves under each
HIGHEST = 4


def page_of(va, level):
    return va >> 12 + 9 * level


def uses_of(vas, tables):
    """For which PTEs words may be fetched, with tables by level."""
    places = {(va, level, table) for va in vas for level in tables for table in tables[level]}
    return sorted({Use(level, page_of(va, level), table * 4096 + index_of(va, level) * 8) for va, level, table in places})


class Hart:
    """Memory, satp, PMP and what is kept."""

    def __init__(self, profile, uses, asids):
        self.profile, self.uses, self.asids = profile, uses, asids
        self.memory, self.runs, self.satp, self.status = {}, [], 0, Status(0, 0, 0, "U")
        # the words of satp under which walks may be
        self.begun = {self.satp}
        self.pmp = ((0, 0),) * profile.pmps
        # copies of the PMP entries by which checks may be made until a fence of all (3.7.2)
        self.copies = {self.pmp}
        self.fetched, self.kept = collections.defaultdict(set), collections.defaultdict(set)

    def word(self, place):
        found = self.memory.get(place)
        return 0 if found is None and any(first <= place < end for first, end in self.runs) else found

    # ---- events

    def store(self, place, word):
        was = self.word(place)
        self.memory[place] = word
        if self.profile.ad != "svade" and was is not None:
            self.update(place, was, word)
        for entries in (self.fetched, self.kept):
            for key, group in entries.items():
                if kind_of(self.profile, word, key[0]) == "leaf" and any(it.place == place for it in group):
                    entries[key] = {it._replace(leafed=True) if it.place == place else it for it in group}

    def update(self, place, was, word):
        """4.3.2, step 7: A and D of leaves that are kept."""
        for group in self.kept.values():
            group |= {it._replace(word=word, leafed=False) for it in group if self.is_at(it, place) and updates(it.word, was, word)}

    def is_at(self, entry, place):
        """A leaf is read for the PTE at a place."""
        if is_napot(self.profile, entry.word, entry.level):
            return entry.place & ~127 == place & ~127
        return entry.place == place and kind_of(self.profile, entry.word, entry.level) == "leaf"

    def write_satp(self, word):
        self.satp = word
        self.begun = self.begun | {word}

    def write_pmp(self, number, config, address):
        if not is_locked(self.pmp, number):
            self.pmp = with_entry(self.pmp, number, config, address)
            self.copies.add(self.pmp)

    def fence(self, va, asid):
        """4.2.1."""
        top = top_of(self.satp)
        if va is not None and top is not None and not is_canonical(va, top):
            return
        if va is None and asid is None:
            self.copies = {self.pmp}
        if va is None:
            self.begun = {satp for satp in self.begun if asid is not None and asid_of(satp) != asid} | {self.satp}
        for entries in self.fetched, self.kept:
            for key, group in list(entries.items()):
                entries[key] = {it for it in group if not self.is_covered(it, va, asid)}

    def is_covered(self, entry, va, asid):
        if asid is not None and (entry.is_global or entry.asid != asid):
            return False
        if va is None:
            return True
        if va >> 12 + 9 * entry.level != entry.page:
            return False
        kind = kind_of(self.profile, entry.word, entry.level)
        return kind == "leaf" or (kind == "invalid" and (entry.leafed or self.profile.fence_invalid))

    # ---- what may be read now

    def sources(self, use):
        """The words of memory that may be taken for a PTE: its own or, at level 0, a NAPOT leaf of its group (chapter 5)."""
        own = self.word(use.place)
        found = [] if own is None else [own]
        if self.profile.svnapot and use.level == 0:
            group = [self.word(use.place & ~127 | 8 * number) for number in range(16)]
            found += [word for word in group if word and is_napot(self.profile, word, 0)]
        return found

    def ahead(self, use, asid, globally):
        """What may be fetched ahead of a use."""
        return [] if self.profile.ordered else [Entry(*use, word, asid, globally, False) for word in self.sources(use)]

    def root(self, va, satp):
        """Where walks under a word of satp begin."""
        top = top_of(satp)
        return None if top is None or not is_canonical(va, top) else Stand(top, root_of(satp), asid_of(satp), False)

    def roots(self, va):
        """Where walks begin, and those that began under another satp may still be."""
        return sorted({self.root(va, satp) for satp in self.begun} - {None})

    def is_of_now(self, it):
        """A PTE, or a stand; of whichever MODE it was read under."""
        return it.is_global or it.asid == asid_of(self.satp)

    def leads(self, entry):
        """The stand to which a pointer leads; None for what is no pointer."""
        if kind_of(self.profile, entry.word, entry.level) != "pointer":
            return None
        return Stand(entry.level - 1, ppn_of(entry.word), entry.asid, entry.is_global)

    def use_at(self, stand, va):
        return Use(stand.level, page_of(va, stand.level), stand.table * 4096 + index_of(va, stand.level) * 8)

    def reads(self, stand, va):
        """The PTEs that a walk at a stand may read now."""
        use, asid = self.use_at(stand, va), stand.asid
        if not self.may(True, "S", "load", use.place, 8):
            return
        for word in self.sources(use):
            yield Entry(*use, word, asid, stand.is_global or is_global(word), False)
        for it in self.fetched.get(use, ()):
            if it.asid == asid and it.is_global == (stand.is_global or is_global(it.word)):
                yield it

    def is_unread(self, stand, va):
        place = self.use_at(stand, va).place
        return self.word(place) is None or self.may(False, "S", "load", place, 8)

    def may(self, verdict, privilege, kind, pa, width):
        """PMP may come to this verdict."""
        return any(pmp_permits(copy, privilege, kind, pa, width) == verdict for copy in self.copies)

    # ---- outcomes

    def untranslated(self, access):
        """The outcomes of an access that no PTE decides; None if some do."""
        top = top_of(self.satp)
        if access.va % access.width:
            return {f"fault {MISALIGNED[access.kind]}"}
        if effective(access.mode, access.kind, self.status) == "M" or top is None:
            return self.ends(access, access.va, "", "")
        return None if is_canonical(access.va, top) else {f"fault {PAGE_FAULT[access.kind]}"}

    def ends(self, access, pa, type_, update):
        """What comes of the access itself."""
        fault, privilege = f"fault {ACCESS_FAULT[access.kind]}", effective(access.mode, access.kind, self.status)
        is_there = pa < 1 << 56 and self.word(pa & ~7) is not None
        found = set()
        if is_there and self.may(True, privilege, access.kind, pa, access.width):
            found.add(f"pa {pa:#x}{type_}{update}")
        if not is_there or self.may(False, privilege, access.kind, pa, access.width):
            found |= {fault, fault + update}
        return found

    def says(self, entry, access):
        """What comes of an access whose walk ends at a PTE (4.3.2, steps 5 to 8)."""
        fault, privilege = f"fault {PAGE_FAULT[access.kind]}", effective(access.mode, access.kind, self.status)
        is_leaf = kind_of(self.profile, entry.word, entry.level) == "leaf"
        if not is_leaf or not allows(entry.word, entry.level, access.kind, privilege, self.status):
            return {fault}
        pa, type_ = leads_to(self.profile, entry.word, entry.level, access.va), TYPES[entry.word >> 61 & 3]
        word = aged(entry.word, access.kind)
        if word == entry.word:
            return self.ends(access, pa, type_, "")
        found = set() if self.profile.ad == "svadu" else {fault}
        if self.profile.ad != "svade" and self.word(entry.place) == entry.word:
            if self.may(True, "S", "store", entry.place, 8):
                found |= self.ends(access, pa, type_, f" set {entry.place:#x} {word:#x}")
            if self.may(False, "S", "store", entry.place, 8):
                found.add(f"fault {ACCESS_FAULT[access.kind]}")
        return found

    def stands(self, va):
        """Where a walk may be, by what is kept."""
        yield from self.roots(va)
        for level in range(1, HIGHEST + 1):
            for it in self.kept.get((level, page_of(va, level)), ()):
                stand = self.leads(it)
                if stand is not None:
                    yield stand

    def stands_now(self, va):
        """Where a walk of the present satp may be."""
        return (it for it in self.stands(va) if self.is_of_now(it))

    def outcomes(self, access):
        """The outcomes of an access by what is kept alone."""
        found = self.untranslated(access)
        if found is not None:
            return found
        found = set()
        for level in range(HIGHEST + 1):
            for it in self.kept.get((level, page_of(access.va, level)), ()):
                if self.is_of_now(it) and kind_of(self.profile, it.word, level) != "pointer":
                    found |= self.says(it, access)
        if any(self.is_unread(it, access.va) for it in self.stands_now(access.va)):
            found.add(f"fault {ACCESS_FAULT[access.kind]}")
        return found


class PlainHart(Hart):
    """Keeps nothing: it walks over memory, satp and PMP as they are."""

    def __init__(self, hart):
        super().__init__(hart.profile, [], [])
        self.memory, self.runs, self.satp, self.status = hart.memory, hart.runs, hart.satp, hart.status
        self.pmp, self.copies = hart.pmp, {hart.pmp}

    def outcomes(self, access):
        found, stand = self.untranslated(access), self.root(access.va, self.satp)
        while found is None:
            if self.is_unread(stand, access.va):
                return {f"fault {ACCESS_FAULT[access.kind]}"}
            use = self.use_at(stand, access.va)
            entry = Entry(*use, self.word(use.place), asid_of(self.satp), False, False)
            stand = self.leads(entry)
            found = self.says(entry, access) if stand is None else None
        return found


class HartOfAll(Hart):
    """Fetches each word at each moment, walks as far as walks go before each event, and forgets nothing but by fences. With
    `forgets` False it does not heed fences either."""

    def __init__(self, profile, uses, asids, vas, forgets=True):
        super().__init__(profile, uses, asids)
        self.vas, self.forgets = vas, forgets

    def fetch_all(self, place=None):
        for use in self.uses:
            if place is None or use.place == place or (use.level == 0 and use.place & ~127 == place & ~127):
                for asid in self.asids:
                    for globally in (False, True):
                        self.fetched[use].update(self.ahead(use, asid, globally))

    def walk_all(self):
        for va in self.vas:
            roots, stands = self.roots(va), set()
            for level in reversed(range(HIGHEST + 1)):
                stands |= {root for root in roots if root.level == level}
                kept = self.kept[level, page_of(va, level)]
                for stand in stands:
                    kept.update(self.reads(stand, va))
                stands = {self.leads(it) for it in kept} - {None}

    def store(self, place, word):
        self.walk_all()
        super().store(place, word)
        self.fetch_all(place)

    def write_satp(self, word):
        self.walk_all()
        super().write_satp(word)

    def write_pmp(self, number, config, address):
        self.walk_all()
        super().write_pmp(number, config, address)

    def fence(self, va, asid):
        if self.forgets:
            self.walk_all()
            super().fence(va, asid)
            self.fetch_all()

    def outcomes(self, access):
        self.walk_all()
        return super().outcomes(access)

    def without_caches(self):
        return PlainHart(self)


class RandomHart(Hart):
    """An emulator that speculates: it has room for a few entries."""

    def __init__(self, profile, uses, asids, vas, rng):
        super().__init__(profile, uses, asids)
        self.vas, self.rng = vas, rng
        self.room, self.eagerness = rng.choice([2, 4, 8, 20]), rng.choice([1, 3, 6])

    def entries(self):
        """All that is kept, in an order."""
        return [(group, it) for entries in (self.fetched, self.kept) for group in entries.values() for it in sorted(group)]

    def keep(self, entries, key, entry):
        entries[key].add(entry)
        every = self.entries()
        while len(every) > self.room:
            group, it = every.pop(self.rng.randrange(len(every)))
            group.discard(it)

    def speculate(self):
        """Does a few things that no event asks for."""
        for _ in range(self.rng.randrange(self.eagerness + 1)):
            if self.rng.random() < 0.5 and self.uses:
                use = self.rng.choice(self.uses)
                for it in self.ahead(use, self.rng.choice(self.asids), self.rng.random() < 0.3)[:1]:
                    self.keep(self.fetched, use, it)
            else:
                va = self.rng.choice(self.vas)
                self.walk(va, self.stands(va))

    def walk(self, va, stands):
        """Walks from a root or a kept pointer until a PTE that is no pointer. Returns it; None for an access fault."""
        stands = list(stands)
        stand = self.rng.choice(sorted(stands)) if stands else None
        while stand is not None:
            found = sorted(set(self.reads(stand, va)))
            if self.is_unread(stand, va) and (not found or self.rng.random() < 0.5):
                return None
            entry = self.rng.choice(found)
            self.keep(self.kept, (entry.level, entry.page), entry)
            stand = self.leads(entry)
            if stand is None:
                return entry
        return None

    def outcome(self, access):
        """The outcome of an access."""
        found = self.untranslated(access)
        while not found:
            here = [it for level in range(HIGHEST + 1) for it in sorted(self.kept.get((level, page_of(access.va, level)), ()))]
            here = [it for it in here if self.is_of_now(it) and kind_of(self.profile, it.word, it.level) != "pointer"]
            entry = self.rng.choice(here) if here and self.rng.random() < 0.7 else self.walk(access.va, self.stands_now(access.va))
            # none by a PTE that memory has no more, and whose A is clear: it walks anew
            found = self.says(entry, access) if entry else {f"fault {ACCESS_FAULT[access.kind]}"}
            if not found:
                for group in self.kept.values():
                    group.discard(entry)
        return self.rng.choice(sorted(found))
