"""Random scripts of lines for `xv6lab mmu`, each line with what must be answered, by the harts of harts.py."""
import collections

from harts import HartOfAll, RandomHart, uses_of
from rules import ACCESS_FAULT, MISALIGNED, PAGE_FAULT, TOPS, Access, Profile, Status, aged, asid_of, effective, index_of
from rules import is_address_locked, is_canonical, is_locked, of_parts, root_of, top_of, words_of

BASE = 0x80000  # a frame
MODES = {"sv39": 8, "sv48": 9, "sv57": 10}
OUTSIDE = 0x90000  # a frame outside the memory
LEAVES = [0xDF, 0xDF, 0xD7, 0xCF, 0xC7, 0x53, 0x73, 0xFF, 0x59, 0x51, 0x49, 0x17, 0x13, 0x97, 0x57]

# What an answer must be. kind: text (that text), outcomes (a list of just those), permitted, refused (NOT permitted, with just those).
# seen: what its labels and reasons are judged by
Wanted = collections.namedtuple("Wanted", "kind text outcomes seen", defaults=(None,))
# An access with satp and the words of memory, and the outcomes by memory, satp and PMP as they are
Seen = collections.namedtuple("Seen", "profile status access satp words now")
# A row of memory, satp, fences and accesses
Script = collections.namedtuple("Script", "name lines wanted")


def random_profile(rng, with_readings):
    modes = ["sv39"] if rng.random() < 0.4 else list(MODES)
    ad = rng.choice(["svade", "svade", "svadu", "ad-either"])
    return Profile(
        modes,
        ad,
        rng.random() < 0.4,
        rng.random() < 0.3,
        rng.choice([0, 0, 0, 16, 64]),
        rng.choice([16, 16, 16, 1]),
        with_readings and rng.random() < 0.3,
        with_readings and rng.random() < 0.3,
    )


class Writer:
    """Writes one script."""

    def __init__(self, rng, name, with_readings):
        self.rng, self.name = rng, name
        self.profile = random_profile(rng, with_readings)
        self.lines, self.wanted, self.reached = [], [], collections.Counter()
        top = max(TOPS[MODES[mode]] for mode in self.profile.modes)
        frames = iter(range(BASE + 1, BASE + 20))
        self.tables = {level: [next(frames), next(frames)] for level in reversed(range(top + 1))}
        if rng.random() < 0.3:  # a table of two levels
            level = rng.randrange(top)
            self.tables[level].append(self.tables[level + 1][0])
        if rng.random() < 0.3:
            self.tables[rng.randrange(top)].append(OUTSIDE)
        self.vas = self.random_vas(top)
        self.asids = range(2) if self.profile.asid_bits == 1 else range(3)
        self.slots = sorted({(it.level, it.place) for it in uses_of(self.vas, self.tables)})
        if self.profile.svnapot:
            self.slots += sorted({(0, place ^ 8 << rng.randrange(4)) for level, place in self.slots if level == 0})
        uses = uses_of(self.vas, self.reached_tables(top))
        self.hart = RandomHart(self.profile, uses, self.asids, self.vas, rng)
        self.all = HartOfAll(self.profile, uses, self.asids, self.vas)
        self.ghost = HartOfAll(self.profile, uses, self.asids, self.vas, forgets=False)

    def reached_tables(self, top):
        """The tables at which walks come by, by level: a table of two levels has pointers of both."""
        reached = {level: set(self.tables[level]) for level in self.tables}
        for level in reversed(range(1, top + 1)):
            for made, tables in self.tables.items():
                if made and reached[level] & set(tables):
                    reached[level - 1] |= set(self.tables[made - 1])
        return reached

    def random_vas(self, top):
        """A few pages that share tables, one perhaps an address under a wider MODE alone."""
        rng = self.rng
        first = sum(rng.choice([0, 1, 511]) << 12 + 9 * level for level in range(3))
        if first >> 38:
            first |= (1 << 64) - (1 << 39)
        others = [first ^ 1 << rng.choice([12, 13, 16, 21, 30]) for _ in range(2)]
        if top > 2:
            others.append(first ^ 1 << 12 + 9 * rng.randrange(3, top + 1))
        return sorted({first, *rng.sample(others, rng.randrange(1, 3))})

    # ---- lines

    def say(self, line, wanted):
        self.lines.append(line)
        self.wanted.append(wanted)

    def ok(self, line, text="ok"):
        self.say(line, Wanted("text", text, None))

    def each(self):
        return self.hart, self.all, self.ghost

    def word(self, level):
        rng = self.rng
        if level and rng.random() < 0.7:
            ppn = rng.choice(self.tables[level - 1])
            reserved = rng.choice([1, 2, 3, 4]) << 61 if rng.random() < 0.04 else 0
            return ppn << 10 | rng.choice([1, 1, 1, 1, 1, 0x21, 0x21, 0x101, 0, 0x11, 0x41]) | reserved
        flags = rng.choice(LEAVES) if rng.random() < 0.8 else rng.choice([0, 0, 0x20, 5, 1, rng.randrange(256)])
        ppn = BASE + rng.randrange(32)
        if level:
            ppn = (BASE >> 9 * level << 9 * level) | (0 if rng.random() < 0.9 else 8)
        word = ppn << 10 | flags
        if level == 0 and self.profile.svnapot and rng.random() < 0.5:
            flags = flags if rng.random() < 0.8 else 0
            word = 1 << 63 | (BASE + rng.choice([0, 16])) << 10 | rng.choice([0x2000, 0x2000, 0x2000, 0x1000, 0x2400]) | flags
        if rng.random() < (0.3 if self.profile.svpbmt else 0.02):
            word |= rng.choice([1, 2, 3]) << 61
        if rng.random() < 0.03:
            word ^= 1 << rng.choice([8, 9, 54, 57, 60, 63])
        return word

    def mem(self, level, place, word):
        for hart in self.each():
            hart.store(place, word)
        self.ok(f"mem {place:#x} {word:#x}")

    def age(self):
        """A global leaf, to which a fence of the ASID leaves no way, so that a hart may hold it and no walk reads it; A or D is set in its place, or
        another word, and the page is accessed."""
        rng, top, root = self.rng, top_of(self.hart.satp), root_of(self.hart.satp)
        va = rng.choice(self.vas)
        if top is None or not is_canonical(va, top) or root not in self.tables[top]:
            return
        level, table = rng.choice([0, 0, *range(top)]), root
        for above in range(top, level, -1):
            below = rng.choice([it for it in self.tables[above - 1] if it != OUTSIDE])
            self.mem(above, table * 4096 + index_of(va, above) * 8, below << 10 | 1)
            table = below
        place, word = table * 4096 + index_of(va, level) * 8, (BASE >> 9 * level << 9 * level) << 10 | rng.choice([0x37, 0x37, 0x77, 0x27, 0x6F])
        if level == 0 and self.profile.svnapot and rng.random() < 0.5:  # read, and perhaps changed, in the place of another of its pages
            word |= 1 << 63 | 0x2000
            self.mem(level, place, word)
            place ^= 8 << rng.randrange(4)
        self.mem(level, place, word)
        self.hart.speculate()
        self.mem(top, root * 4096 + index_of(va, top) * 8, 0)
        self.fence(None, asid_of(self.hart.satp))
        for _ in range(rng.randrange(1, 3)):
            self.mem(level, place, aged(self.hart.memory[place], rng.choice(["load", "store"])) ^ (rng.random() < 0.2) << 10)
            self.access(va)

    def satp(self):
        rng = self.rng
        mode = MODES[rng.choice(self.profile.modes)] if rng.random() < 0.3 else MODES[self.profile.modes[0]]
        mode = self.mode if rng.random() < 0.7 else mode
        word = mode << 60 | rng.choice(self.asids) << 44 | rng.choice(self.tables[TOPS[mode]])
        if rng.random() < 0.1:
            word = 0
        elif rng.random() < 0.05:  # not written
            others = [1, 7, 11, 15] + ([9, 10] if len(self.profile.modes) == 1 else [])
            word = word & (1 << 60) - 1 | rng.choice(others) << 60
        elif rng.random() < 0.1 and self.profile.asid_bits == 1:
            word |= 6 << 44
        self.write_satp(word)

    def write_satp(self, word):
        line, asid = f"satp {word:#x}", asid_of(word) & (1 << self.profile.asid_bits) - 1
        if word >> 60 in [0, *(MODES[mode] for mode in self.profile.modes)]:
            word = word >> 60 << 60 | asid << 44 | root_of(word)
            for hart in self.each():
                hart.write_satp(word)
        self.ok(line, f"satp {self.hart.satp:#x}")

    def change(self):
        """A PTE of an address is changed, a fence follows, mostly near it, and the address is accessed."""
        rng = self.rng
        va = rng.choice(self.vas)
        level = rng.choice([0, 0, *self.tables])
        place = rng.choice(self.tables[level]) * 4096 + index_of(va, level) * 8
        if level == 0 and self.profile.svnapot and rng.random() < 0.4:  # as a NAPOT leaf, but for V
            self.mem(level, place, 1 << 63 | BASE << 10 | 0x2000 | rng.choice(LEAVES) & ~1)
            self.hart.speculate()
            self.mem(level, place, BASE + rng.randrange(32) << 10 | rng.choice(LEAVES))
        elif level and rng.random() < 0.3:  # no leaf, a pointer, a fence, and only then a leaf
            self.mem(level, place, rng.choice([0, 5]))
            self.mem(level, place, rng.choice(self.tables[level - 1]) << 10 | 1)
            self.fence(va, rng.choice([None, *self.asids]))
            self.mem(level, place, (BASE >> 9 * level << 9 * level) << 10 | 0xDF)
        else:
            self.mem(level, place, self.word(level))
        self.hart.speculate()
        if rng.random() < 0.8:
            near = rng.choice([va, va, va ^ 1 << rng.choice([12, 13, 14, 15, 16, 21, 30])])
            asid = rng.choice([None, asid_of(self.hart.satp), rng.choice(self.asids)])
            if len(self.profile.modes) > 1 and rng.random() < 0.4:  # under another MODE, where it may be no address
                satp = self.hart.satp
                self.satp()
                self.fence(near, asid)
                self.write_satp(satp)
            else:
                self.fence(near, asid)
        self.access(va)

    def sfence(self):
        rng = self.rng
        va = rng.choice([*self.vas, *self.vas, rng.choice(self.vas) ^ 1 << rng.choice([12, 15, 16, 21, 30, 50])])
        va = None if rng.random() < 0.3 else va | rng.choice([0, 0, 8, 0xFFF])
        asid = rng.choice(self.asids) if rng.random() < 0.6 else None
        if va is None and asid is None and rng.random() < 0.6:
            asid = rng.choice(self.asids)
        self.fence(va, asid)

    def fence(self, va, asid):
        top = top_of(self.hart.satp)
        line = f"sfence {'-' if va is None else hex(va)}" + ("" if asid is None else f" {asid}")
        if va is not None and top is not None and not is_canonical(va, top):
            self.ok(line, f"no effect: {va:#x} is no address under the present MODE")
        else:
            self.ok(line)
        for hart in self.each():
            hart.fence(va, asid)

    def pmp(self):
        """An entry over some words of tables, or all; the last grants the rest."""
        rng = self.rng
        number, rights = rng.randrange(4), rng.choice([0, 1, 3, 4, 5, 7])
        _, place = rng.choice(self.slots)
        entries = [(0x18, place >> 2 | (1 << rng.randrange(10)) - 1), (0x10, place >> 2), (0x08, place + 8 >> 2), (0, place >> 2)]
        config, address = rng.choice(entries)
        if rng.random() < 0.3:
            config, address = 0x18, BASE << 10 | (1 << rng.choice([13, 14, 15])) - 1
        if rng.random() < 0.2:
            config, address = 0x18, BASE + rng.randrange(32) << 10 | 511
        config |= rights | (0x80 if rng.random() < 0.1 else 0)
        self.write_pmp(number, config, address)

    def write_pmp(self, number, config, address):
        locked = "locked" if is_locked(self.hart.pmp, number) else "address locked" if is_address_locked(self.hart.pmp, number) else "ok"
        self.ok(f"pmp {number} {config:#x} {address:#x}", locked)
        for hart in self.each():
            hart.write_pmp(number, config, address)

    def write_status(self):
        rng = self.rng
        status = Status(*(int(rng.random() < 0.5) for _ in range(3)), rng.choice("USM"))
        self.ok(f"status {status.sum} {status.mxr} {status.mprv} {status.mpp}")
        for hart in self.each():
            hart.status = status

    def access(self, va=None):
        rng = self.rng
        kind = rng.choice(["fetch", "load", "load", "store"])
        width = rng.choice([2, 4] if kind == "fetch" else [1, 2, 4, 8, 8])
        mode = rng.choice("UUUSSSM")
        va = rng.choice(self.vas if va is None else [va]) & ~0xFFF
        va += 0 if rng.random() < 0.5 else rng.randrange(512) * 8
        if rng.random() < 0.03:
            va ^= 1 << rng.choice([1, 2, 39, 48, 57, 63])
            if va & ~0xFFF not in self.vas and top_of(self.hart.satp) is not None and is_canonical(va, top_of(self.hart.satp)):
                return  # the harts keep PTEs for their own pages alone
        if (top_of(self.hart.satp) is None or effective(mode, kind, self.hart.status) == "M") and rng.random() < 0.8:
            va = rng.choice([BASE * 4096, (BASE + rng.randrange(32)) * 4096, OUTSIDE * 4096, 1 << 56]) + 8 * rng.randrange(512)
        self.ask(Access(kind, va, width, mode))

    def ask(self, access):
        """Lists the outcomes, then claims some."""
        rng, line = self.rng, f"{access.kind} {access.va:#x} {access.width} {access.mode}"
        permitted = frozenset(self.all.outcomes(access))
        plain = self.all.without_caches()
        seen = Seen(self.profile, plain.status, access, plain.satp, dict(plain.memory), plain.outcomes(access))
        self.say(line, Wanted("outcomes", None, permitted, seen))
        claimed = self.hart.outcome(access)
        self.reached["reached" if claimed in permitted else "outside"] += 1
        self.reached["outcomes"] += len(permitted)
        self.reached["ways"] += len(permitted) > 1
        partly = of_parts(self.all.outcomes, access)
        others = sorted(self.false_claims(access, permitted) - permitted - partly)
        for false in rng.sample(others, min(len(others), 2)):
            self.say(f"{line} => {false}", Wanted("refused", None, permitted, seen))
        quiet = sorted(it for it in permitted if " set " not in it and it != claimed)
        for it in rng.sample(quiet, min(len(quiet), 2)):
            self.say(f"{line} => {it}", Wanted("permitted", None, permitted, seen))
        self.say(f"{line} => {claimed}", Wanted("permitted", None, permitted, seen))
        for it in sorted(it for it in partly if " set " not in it):
            self.say(f"{line} => {it}", Wanted("permitted", None, partly, None))
        if " set " in claimed:
            place, word = (int(it, 16) for it in claimed.split(" set ")[1].split())
            for hart in self.each():
                hart.store(place, word)

    def false_claims(self, access, permitted):
        """Outcomes of a hart that heeds no fence, and of accesses and modes near by; some invented."""
        rng, found = self.rng, set()
        if top_of(self.hart.satp) is not None:
            found |= self.ghost.outcomes(access)
            found |= self.ghost.outcomes(access._replace(mode=rng.choice("USM"), kind=rng.choice(["fetch", "load", "store"])))
        if len(found - permitted) < 2:
            found |= {f"fault {rng.choice([MISALIGNED, ACCESS_FAULT, PAGE_FAULT])[access.kind]}"}
            found |= {f"pa {(BASE + rng.randrange(32)) * 4096 + access.va % 4096:#x}{rng.choice(['', '', ' io'])}"}
        # without a type, a claim is for each
        types = {it.replace(" nc", "").replace(" io", "") for it in permitted}
        return found - types

    # ---- a script

    def begin(self):
        profile = self.profile
        self.ok(words_of(profile))
        self.ok("status 0 0 0 U")
        self.mode = MODES[self.rng.choice(profile.modes)]
        run = BASE * 4096, self.rng.choice([16, 32, 600]) * 4096
        self.ok(f"ram {run[0]:#x} {run[1]:#x}")
        for hart in self.each():
            hart.runs.append((run[0], run[0] + run[1]))
        for hart in self.all, self.ghost:
            hart.fetch_all()
        if profile.pmps:
            self.write_pmp(profile.pmps - 1, 0x1F, (1 << 54) - 1)
        for level, place in self.slots:
            if place >> 12 != OUTSIDE and self.rng.random() < 0.9:
                self.mem(level, place, self.word(level))
        self.write_satp(self.mode << 60 | self.tables[TOPS[self.mode]][0])
        if self.rng.random() < 0.5:
            self.fence(None, None)

    def step(self):
        rng, draw = self.rng, self.rng.random()
        self.hart.speculate()
        if draw < 0.12:
            self.change()
        elif draw < 0.38:
            level, place = rng.choice(self.slots)
            self.mem(level, place, self.word(level))
        elif draw < 0.48:
            self.satp()
        elif draw < 0.63:
            self.sfence()
        elif draw < 0.69:
            self.write_status()
        elif draw < 0.76:
            if self.profile.pmps:
                self.pmp()
        elif draw < 0.8:
            self.age()
        else:
            self.access()

    def script(self, steps):
        self.begin()
        for _ in range(steps):
            self.step()
        self.access()
        return Script(self.name, self.lines, self.wanted)
