#!/usr/bin/env python3
"""A judge of accesses by history, in which errors are planted: it answers lines as `xv6lab mmu -` does, by the same search.

It is as crates/access_judge/specs/Search.antt: from each word that satp had it goes down the tables by each word that a PTE had,
and asks in the end which fences came after it. It has no reasons, tells no outcome of memory as it is from others, and
has no profile `ordered` or `fence-invalid`. usage: judge.py < LINES
"""
import collections
import re
import sys

from rules import ACCESS_FAULT, MISALIGNED, PAGE_FAULT, TYPES, Access, Profile, Status, aged, allows, asid_of, effective, index_of
from rules import is_address_locked, is_canonical, is_global, is_locked, is_napot, kind_of, leads_to, of_parts, pmp_permits, ppn_of
from rules import root_of, top_of, updates, with_entry

MODES = {"sv39": 8, "sv48": 9, "sv57": 10}
# A word that satp had, the last fence of its ASID then, and the last moment at which a walk under it may go on
Use = collections.namedtuple("Use", "satp epoch last")
Stand = collections.namedtuple("Stand", "level table asid is_global epoch last")
# A PTE with the last moment at which the walk may have read its word
Read = collections.namedtuple("Read", "level table word asid is_global last")


class Judge:
    def __init__(self, profile):
        self.profile, self.status, self.runs = profile, Status(0, 0, 0, "U"), []
        self.words, self.satp, self.pmp = {}, 0, ((0, 0),) * profile.pmps
        self.restart()

    def restart(self):
        """After a fence of all, what was before counts no more."""
        self.now, self.spaces, self.addresses = 0, collections.Counter(), []
        self.words = {place: [(0, had[-1][1])] for place, had in self.words.items()}
        self.used, self.ended, self.pmps = [(self.satp, 0)], {}, [(0, self.pmp)]

    # ---- events

    def tick(self):
        self.now += 1
        used = self.satp, self.spaces[asid_of(self.satp)]
        if used not in self.used:
            self.used.append(used)

    def uses(self):
        """Under which words of satp walks may be, each with the last moment: right before the next fence of its ASID, or now."""
        for satp, epoch in self.used:
            yield Use(satp, epoch, self.ended.get((asid_of(satp), epoch), self.now))

    def store(self, place, word):
        had = self.words.setdefault(place, [(0, 0)] if self.is_in_run(place) else [])
        had.append((self.now + 1, word))
        self.tick()

    def write_satp(self, word):
        self.satp = word
        self.tick()

    def write_pmp(self, number, config, address):
        self.pmp = with_entry(self.pmp, number, config, address)
        self.pmps.append((self.now + 1, self.pmp))
        self.tick()

    def fence(self, va, asid):
        if va is None and asid is None:
            self.restart()
            return
        if va is None:
            self.ended[asid, self.spaces[asid]] = self.now
            self.spaces[asid] = self.now + 1
        elif is_valid(va, self.satp):
            self.addresses.append((self.now + 1, va, asid))
        self.tick()

    # ---- what was

    def is_in_run(self, place):
        return any(first <= place < end for first, end in self.runs)

    def versions(self, place, moment):
        """The words that a place had until a moment, each with its last moment, the newest first."""
        had = self.words.get(place, [(0, 0)] if self.is_in_run(place) else [])
        found = []
        for number, (since, word) in enumerate(had):
            if since <= moment:
                end = had[number + 1][0] - 1 if number + 1 < len(had) else self.now
                found.append((word, min(end, moment)))
        return found[::-1]

    def word(self, place):
        had = self.versions(place, self.now)
        return had[0][0] if had else None

    def may(self, verdict, moment, privilege, kind, pa, width):
        return any(since <= moment and pmp_permits(entries, privilege, kind, pa, width) == verdict for since, entries in self.pmps)

    # ---- the search

    def place(self, read, va):
        return read.table * 4096 + index_of(va, read.level) * 8

    def reads_at(self, stand, va):
        place = self.place(stand, va)
        if not self.may(True, stand.last, "S", "load", place, 8):
            return []
        had = self.versions(place, stand.last)
        if self.profile.svnapot and stand.level == 0:
            for other in range(place & ~127, (place & ~127) + 128, 8):
                had += [it for it in self.versions(other, stand.last) if is_napot(self.profile, it[0], 0)]
        found = [Read(stand.level, stand.table, word, stand.asid, stand.is_global or is_global(word), last) for word, last in had]
        return [it for it in found if it.is_global or it.last >= stand.epoch]

    def search(self, stand, va):
        """All stands from one on, and the PTEs at them that are no pointers."""
        yield stand
        for read in self.reads_at(stand, va):
            if kind_of(self.profile, read.word, read.level) != "pointer":
                yield read
                continue
            last = self.now if read.is_global else stand.last
            yield from self.search(Stand(read.level - 1, ppn_of(read.word), read.asid, read.is_global, stand.epoch, last), va)

    def search_all(self, va):
        for use in self.uses():
            top = top_of(use.satp)
            if top is not None and is_canonical(va, top):
                yield from self.search(Stand(top, root_of(use.satp), asid_of(use.satp), False, use.epoch, use.last), va)

    def became_leaf(self, read, va, number):
        """After the read's moment and before a fence its word was made a leaf."""
        had = self.versions(self.place(read, va), number - 1)
        return any(last > read.last and kind_of(self.profile, word, read.level) == "leaf" for word, last in had)

    def is_fenced(self, read, va):
        if not read.is_global and read.last < self.spaces[read.asid]:
            return True
        kind, bits = kind_of(self.profile, read.word, read.level), 12 + 9 * read.level
        for number, address, asid in self.addresses:
            if asid is not None and (read.is_global or asid != read.asid):
                continue
            if read.last < number and address >> bits == va >> bits and (kind == "leaf" or self.became_leaf(read, va, number)):
                return True
        return False

    def serves(self, read, va):
        """A PTE serves under satp as it is."""
        return is_translated(self.satp, va) and (read.is_global or read.asid == asid_of(self.satp)) and not self.is_fenced(read, va)

    def words_of(self, read, va):
        """A PTE's word; and of a leaf those that the hart may have made of it since, by setting A or D in its place."""
        yield read
        if self.profile.ad == "svade" or kind_of(self.profile, read.word, read.level) != "leaf":
            return
        place = self.place(read, va)
        group = range(place & ~127, (place & ~127) + 128, 8) if is_napot(self.profile, read.word, read.level) else [place]
        for place in group:
            had = self.versions(place, self.now)
            for (new, _), (was, last) in zip(had, had[1:]):
                if last >= read.last and updates(read.word, was, new):
                    yield read._replace(word=new)

    # ---- outcomes

    def ends(self, access, pa, type_, update):
        fault, privilege = f"fault {ACCESS_FAULT[access.kind]}", effective(access.mode, access.kind, self.status)
        is_there = pa < 1 << 56 and self.word(pa & ~7) is not None
        found = set()
        if is_there and self.may(True, self.now, privilege, access.kind, pa, access.width):
            found.add(f"pa {pa:#x}{type_}{update}")
        if not is_there or self.may(False, self.now, privilege, access.kind, pa, access.width):
            found |= {fault, fault + update}
        return found

    def says(self, read, access):
        page_fault, privilege = f"fault {PAGE_FAULT[access.kind]}", effective(access.mode, access.kind, self.status)
        if kind_of(self.profile, read.word, read.level) != "leaf" or not allows(read.word, read.level, access.kind, privilege, self.status):
            return {page_fault}
        pa, type_ = leads_to(self.profile, read.word, read.level, access.va), TYPES[read.word >> 61 & 3] or ""
        place, word = self.place(read, access.va), aged(read.word, access.kind)
        if word == read.word:
            return self.ends(access, pa, type_, "")
        found = set()
        if self.profile.ad != "svadu":
            found.add(page_fault)
        if self.profile.ad != "svade" and self.word(place) == read.word:
            if self.may(True, self.now, "S", "store", place, 8):
                found |= self.ends(access, pa, type_, f" set {place:#x} {word:#x}")
            if self.may(False, self.now, "S", "store", place, 8):
                found.add(f"fault {ACCESS_FAULT[access.kind]}")
        return found

    def outcomes(self, access):
        top = top_of(self.satp)
        if access.va % access.width:
            return {f"fault {MISALIGNED[access.kind]}"}
        if effective(access.mode, access.kind, self.status) == "M" or top is None:
            return self.ends(access, access.va, "", "")
        if not is_canonical(access.va, top):
            return {f"fault {PAGE_FAULT[access.kind]}"}
        found = set()
        for it in self.search_all(access.va):
            if isinstance(it, Read):
                if self.serves(it, access.va):
                    for word in self.words_of(it, access.va):
                        found |= self.says(word, access)
            elif it.last == self.now and (it.is_global or it.asid == asid_of(self.satp)):
                place = self.place(it, access.va)
                if self.word(place) is None or self.may(False, self.now, "S", "load", place, 8):
                    found.add(f"fault {ACCESS_FAULT[access.kind]}")
        return found


def is_valid(va, satp):
    top = top_of(satp)
    return top is None or is_canonical(va, top)


def is_translated(satp, va):
    top = top_of(satp)
    return top is not None and is_canonical(va, top)


def read_profile(words):
    modes = [word for word in words if word in MODES] or list(MODES)
    sizes = {name: int(size) for word in words for name, size in re.findall(r"^(pmp|asid)(\d+)$", word)}
    ad = next((word for word in words if word in ("svadu", "ad-either")), "svade")
    return Profile(modes, ad, "svnapot" in words, "svpbmt" in words, sizes.get("pmp", 0), sizes.get("asid", 16), False, False)


def matches(claim, outcome):
    """A claim without a memory type is for each."""
    return claim == outcome or claim == re.sub(" (nc|io)", "", outcome)


class Talk:
    """Answers lines."""

    def __init__(self):
        self.judge = Judge(read_profile([]))

    def answer(self, line):
        name, *rest = line.split()
        judge = self.judge
        if name == "profile":
            if {"ordered", "fence-invalid"} & set(rest):
                return f"error: {rest}"
            self.judge = Judge(read_profile(rest))
        elif name == "ram":
            judge.runs.append((int(rest[0], 0), int(rest[0], 0) + int(rest[1], 0)))
        elif name == "mem":
            judge.store(int(rest[0], 0), int(rest[1], 0))
        elif name == "status":
            judge.status = Status(*map(int, rest[:3]), rest[3])
        elif name == "satp":
            word, asids = int(rest[0], 0), (1 << judge.profile.asid_bits) - 1
            if word >> 60 in [0, *(MODES[it] for it in judge.profile.modes)]:
                judge.write_satp(word & ~(0xFFFF << 44) | (asid_of(word) & asids) << 44)
            return f"satp {judge.satp:#x}"
        elif name == "pmp":
            number, config, address = (int(it, 0) for it in rest)
            if is_locked(judge.pmp, number):
                return "locked"
            judge.write_pmp(number, config, address)
            return "address locked" if is_address_locked(judge.pmp, number) else "ok"
        elif name == "sfence":
            va, asid = ([None if it == "-" else int(it, 0) for it in rest] + [None, None])[:2]
            judge.fence(va, asid)
            return "ok" if va is None or is_valid(va, judge.satp) else f"no effect: {va:#x} is no address under the present MODE"
        else:
            return self.judged(Access(name, int(rest[0], 0), int(rest[1]), rest[2]), " ".join(rest[4:]))
        return "ok"

    def judged(self, access, claim):
        found = self.judge.outcomes(access)
        if not claim:
            return "; ".join(sorted(found))
        if not any(matches(claim, it) for it in found | of_parts(self.judge.outcomes, access)):
            return f"NOT permitted: not found. Permitted: {'; '.join(sorted(found))}"
        if " set " in claim:
            self.judge.store(*(int(it, 0) for it in claim.split()[-2:]))
        return "permitted (held)"


def main():
    talk, amiss = Talk(), False
    for line in sys.stdin:
        if line.split("#")[0].strip():
            answer = talk.answer(line)
            amiss = amiss or answer.startswith(("error", "NOT permitted"))
            print(answer, flush=True)
    return 1 if amiss else 0


if __name__ == "__main__":
    sys.exit(main())
