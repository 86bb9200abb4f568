"""Tiny cases, in which each hart is tried: whatever it fetches, walks, keeps and forgets, with room for three PTEs."""
from harts import Entry, Hart, Use, page_of
from rules import Access, Profile, aged, kind_of, words_of
from scripts import BASE, Script, Wanted

ROOM = 3
VA = 0x200000
ROOTS, MIDDLES = (BASE + 1, BASE + 2), (BASE + 3, BASE + 4)


class EveryHart(Hart):
    """All sets of PTEs that harts may keep at a moment."""

    def __init__(self, profile, uses, asids):
        super().__init__(profile, uses, asids)
        self.states = {frozenset()}

    def keep(self, state):
        """Makes this the hart that keeps what a state has: pairs of whether a walk read it and a PTE."""
        self.fetched.clear()
        self.kept.clear()
        for is_kept, it in state:
            if is_kept:
                self.kept[it.level, it.page].add(it)
            else:
                self.fetched[Use(it.level, it.page, it.place)].add(it)

    def state(self):
        both = (False, self.fetched), (True, self.kept)
        return frozenset((is_kept, it) for is_kept, entries in both for group in entries.values() for it in group)

    def more(self, state):
        """What a hart may keep beside a state."""
        self.keep(state)
        for use in self.uses:
            for asid in self.asids:
                for globally in (False, True):
                    yield from ((False, it) for it in self.ahead(use, asid, globally))
        for stand in list(self.stands(VA)):
            yield from ((True, it) for it in self.reads(stand, VA))

    def wander(self):
        """All states that harts may come to without an event."""
        todo = list(self.states)
        while todo:
            state = todo.pop()
            near = [state - {it} for it in state]
            if len(state) < ROOM:
                near += [state | {it} for it in set(self.more(state)) - state]
            todo += (new := set(near) - self.states)
            self.states |= new

    def event(self, name, *fields):
        """Lets an event happen to each of them."""
        self.wander()
        after, memory, satp = set(), dict(self.memory), self.satp
        for state in self.states:
            self.memory, self.satp = dict(memory), satp
            self.keep(state)
            getattr(self, name)(*fields)
            after.add(self.state())
        self.states = after

    def union(self, access):
        """The outcomes of all of them."""
        self.wander()
        found = set()
        for state in self.states:
            self.keep(state)
            found |= self.outcomes(access)
        return found

    def outcomes(self, access):
        """By what is kept, and by walks on from there."""
        found = self.untranslated(access)
        if found is not None:
            return found
        before = None
        while before != (before := self.state()):
            for stand in list(self.stands(access.va)):
                for it in set(self.reads(stand, access.va)):
                    self.kept[it.level, it.page].add(it)
        return super().outcomes(access)


def tiny_script(rng, name, with_readings):
    """Two roots and two tables of level 1, with one PTE each, two ASIDs. Returns the script, and how many states there were."""
    ordered, fence_invalid = (rng.random() < 0.4, rng.random() < 0.4) if with_readings else (False, False)
    profile = Profile(["sv39"], rng.choice(["svade", "svadu", "ad-either"]), False, False, 0, 16, ordered, fence_invalid)
    slots = [(2, frame * 4096) for frame in ROOTS] + [(1, frame * 4096 + 8) for frame in MIDDLES]
    hart = EveryHart(profile, [Use(level, page_of(VA, level), place) for level, place in slots], (0, 1))
    leaf = lambda ppn, flags: ppn << 10 | flags
    tops = [0, leaf(MIDDLES[0], 1), leaf(MIDDLES[1], 1), leaf(MIDDLES[0], 0x21), leaf(1 << 19, 0x53), leaf(1 << 19, 0x73), 5]
    ends = [0, leaf(0x80000, 0x53), leaf(0x80200, 0x53), leaf(0x80400, 0x73), leaf(0x80600, 0x13)]
    lines, wanted = [words_of(profile), "ram 0x80000000 0x1000000"], [Wanted("text", "ok", None)] * 2
    hart.runs.append((0x80000000, 0x81000000))

    def happen(line, *event, text="ok"):
        lines.append(line)
        wanted.append(Wanted("text", text, None))
        hart.event(*event)

    def mem(level, place):
        word = rng.choice(tops if level == 2 else ends)
        if rng.random() < 0.3:  # an update of A and D
            word = aged(hart.memory.get(place, word), rng.choice(["load", "store"]))
        happen(f"mem {place:#x} {word:#x}", "store", place, word)

    def satp():
        word = 8 << 60 | rng.randrange(2) << 44 | rng.choice(ROOTS)
        happen(f"satp {word:#x}", "write_satp", word, text=f"satp {word:#x}")

    for slot in slots:
        mem(*slot)
    satp()
    happen("sfence", "fence", None, None)
    for _ in range(rng.randrange(3, 7)):
        draw = rng.random()
        if draw < 0.5:
            mem(*rng.choice(slots))
        elif draw < 0.65:
            satp()
        else:
            va = rng.choice([None, VA, VA, VA + 0x1000, 1 << 30])
            asid = rng.randrange(2) if va is None or rng.random() < 0.6 else None
            happen(f"sfence {'-' if va is None else hex(va)}" + ("" if asid is None else f" {asid}"), "fence", va, asid)
    access = Access("load", VA, 8, "U")
    lines.append(f"load {VA:#x} 8 U")
    wanted.append(Wanted("outcomes", None, frozenset(hart.union(access))))
    return Script(name, lines, wanted), len(hart.states)
