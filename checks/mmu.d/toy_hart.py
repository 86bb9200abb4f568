#!/usr/bin/env python3
"""A toy emulator of Sv39 with a TLB of pages and superpages, a cache of pointers and ASIDs, which sends its trace: toy_hart.py [CLASS[+CLASS] [SEED [ACCESSES]]]

Prints lines for `xv6lab mmu`: what the hart does, and each access with what came of it. None of them says when the hart caches, so
that is all that an emulator has to send. The classes at the end each have one error, of those that emulators have.
"""
import collections
import random
import sys

V, R, W, X, U, G, A, D = (1 << bit for bit in range(8))
ACCESS_FAULT = {"fetch": 1, "load": 5, "store": 7}
PAGE_FAULT = {"fetch": 12, "load": 13, "store": 15}
RAM, END = 0x80000000, 0x90000000
TLB_SIZE, POINTERS_SIZE = 32, 8

# A leaf or, in the cache of pointers, a pointer, for the page of an address at its level
Cached = collections.namedtuple("Cached", "level page asid is_global word")


def is_canonical(va):
    return va >> 38 in (0, (1 << 26) - 1)


def ppn_of(word):
    return word >> 10 & (1 << 44) - 1


class ToyHart:
    """The hart. `send` takes each line."""

    def __init__(self, send):
        self.send, self.memory, self.satp, self.sum = send, {}, 0, 0
        self.tlb, self.pointers = [], []
        send("profile sv39 svade")
        send(f"ram {RAM:#x} {END - RAM:#x}")
        send("status 0 0 0 U")

    # ---- instructions

    def store_word(self, pa, word):
        self.send(f"mem {pa:#x} {word:#x}")
        self.memory[pa] = word

    def write_satp(self, word):
        self.send(f"satp {word:#x}")
        self.satp = word

    def write_sum(self, bit):
        self.send(f"status {bit} 0 0 U")
        self.sum = bit

    def sfence(self, va, asid):
        self.send(f"sfence {'-' if va is None else hex(va)} {'-' if asid is None else asid}")
        if va is None or is_canonical(va):
            self.tlb = [it for it in self.tlb if not self.removes(it, va, asid)]
            self.pointers = [it for it in self.pointers if not self.removes_pointer(it, va, asid)]

    def access(self, kind, va, width, mode):
        outcome = self.outcome(kind, va, mode)
        self.send(f"{kind} {va:#x} {width} {mode} => {outcome}")

    # ---- the TLB

    def asid(self):
        return self.satp >> 44 & 0xFFFF

    def removes(self, entry, va, asid):
        if asid is not None and (entry.is_global or entry.asid != asid):
            return False
        return va is None or va >> 12 + 9 * entry.level == entry.page

    def removes_pointer(self, entry, va, asid):
        return va is None and (asid is None or (entry.asid == asid and not entry.is_global))

    def serves(self, entry, va):
        return entry.page == va >> 12 + 9 * entry.level and (entry.is_global or entry.asid == self.asid())

    def keep(self, entries, size, entry):
        entries.insert(0, entry)
        del entries[size:]

    # ---- translation

    def outcome(self, kind, va, mode):
        if not is_canonical(va):
            return f"fault {PAGE_FAULT[kind]}"
        entry = next((it for it in self.tlb if self.serves(it, va)), None)
        is_hit = entry is not None
        if not is_hit:
            entry = self.walk(va)
            if isinstance(entry, int):
                return f"fault {ACCESS_FAULT[kind] if entry == 1 else PAGE_FAULT[kind]}"
            self.keep(self.tlb, TLB_SIZE, entry)
        if not self.allows(entry.word, kind, mode, is_hit):
            return f"fault {PAGE_FAULT[kind]}"
        size = 1 << 12 + 9 * entry.level
        pa = (ppn_of(entry.word) << 12) + va % size
        return f"pa {pa:#x}" if RAM <= pa < END else f"fault {ACCESS_FAULT[kind]}"

    def allows(self, word, kind, mode, is_hit):
        """Whether a leaf allows an access; is_hit: it comes from the TLB."""
        needed = {"fetch": X | A, "load": R | A, "store": W | A | D}[kind]
        if word & needed != needed:
            return False
        if mode == "U":
            return bool(word & U)
        return not word & U or bool(self.sum and kind != "fetch")

    def walk(self, va):
        """The leaf; 1 for an access fault, 2 for a page fault."""
        level, table, is_global = 2, self.satp & (1 << 44) - 1, False
        cached = [it for it in self.pointers if self.serves(it, va)]
        if cached:
            nearest = min(cached, key=lambda it: it.level)
            level, table, is_global = nearest.level - 1, ppn_of(nearest.word), nearest.is_global
        while True:
            pa = table * 4096 + (va >> 12 + 9 * level) % 512 * 8
            if not RAM <= pa < END:
                return 1
            word = self.memory.get(pa, 0)
            if not word & V or word & (R | W) == W or word >> 54:
                return 2
            is_global = is_global or bool(word & G)
            entry = Cached(level, va >> 12 + 9 * level, self.asid(), is_global, word)
            if word & (R | X):
                return entry if ppn_of(word) % (1 << 9 * level) == 0 else 2
            if level == 0 or word & (U | A | D):
                return 2
            self.keep(self.pointers, POINTERS_SIZE, entry)
            level, table = level - 1, ppn_of(word)


# ---- errors


class LeavesSuperpages(ToyHart):
    """A fence for an address removes a superpage for its first 4 KiB alone."""

    def removes(self, entry, va, asid):
        if va is not None and va >> 12 != entry.page << 9 * entry.level:
            return False
        return super().removes(entry, va, asid)


class IgnoresAsids(ToyHart):
    """A TLB entry serves under each ASID."""

    def serves(self, entry, va):
        return entry.page == va >> 12 + 9 * entry.level


class LeavesPointers(ToyHart):
    """No fence removes cached pointers but that of all."""

    def removes_pointer(self, entry, va, asid):
        return va is None and asid is None


class IgnoresDirty(ToyHart):
    """A store by the TLB does not ask for D: a load brought the entry, and W is enough."""

    def allows(self, word, kind, mode, is_hit):
        return super().allows(word | D if is_hit else word, kind, mode, is_hit)


class IgnoresUser(ToyHart):
    """S-mode uses TLB entries of user pages without SUM."""

    def allows(self, word, kind, mode, is_hit):
        return super().allows(word & ~U if is_hit and mode == "S" else word, kind, mode, is_hit)


class FencesPresentAsid(ToyHart):
    """A fence of an ASID removes what is of the present one, whatever rs2 is."""

    def sfence(self, va, asid):
        self.send(f"sfence {'-' if va is None else hex(va)} {'-' if asid is None else asid}")
        asid = asid if asid is None else self.asid()
        self.tlb = [it for it in self.tlb if not self.removes(it, va, asid)]
        self.pointers = [it for it in self.pointers if not self.removes_pointer(it, va, asid)]


class CutsAddresses(ToyHart):
    """Bits 63 to 39 of an address are not looked at."""

    def outcome(self, kind, va, mode):
        low = va & (1 << 39) - 1
        return super().outcome(kind, low | (-(low >> 38) << 39) % (1 << 64), mode)


# Each error with what the answer must say of its cause, where a granted access is NOT permitted.
ERRORS = {
    LeavesSuperpages: r"the fence of line (\d+) \(sfence[^)]*\) excludes .*at level [12]",
    IgnoresAsids: r"of another ASID",
    LeavesPointers: r"the fence of line (\d+) \(sfence[^)]*\) excludes .*at level [12]",
    IgnoresDirty: r"D is 0",
    IgnoresUser: r"U is 1, in S-mode",
    FencesPresentAsid: r"the fence of line (\d+) \(sfence[^)]*\) excludes ",
    CutsAddresses: r"not canonical",
}


# ---- the program that it runs: three address spaces of user pages below one of a kernel


class ToyKernel:
    ROOTS = [0x80001, 0x80002, 0x80003]
    MIDDLES = {0x80001: [0x80011, 0x80012], 0x80002: [0x80021, 0x80022], 0x80003: [0x80031, 0x80032]}
    KERNEL_MIDDLE, KERNEL_LAST = 0x80041, 0x80042
    PAGES = [0x0, 0x1000, 0x2000, 0x200000, 0x201000, 0x3FF000, 0x40000000, 0x40001000]
    KERNEL_PAGES = [0xFFFFFFC000000000, 0xFFFFFFC000001000, 0xFFFFFFC000200000, 0xFFFFFFC0003FF000]

    def __init__(self, hart, rng):
        self.hart, self.rng, self.space = hart, rng, 0
        for root in self.ROOTS:
            middle, other = self.MIDDLES[root]
            hart.store_word(root * 4096, middle << 10 | V)
            hart.store_word(root * 4096 + 8, other << 10 | V)
            hart.store_word(root * 4096 + 256 * 8, self.KERNEL_MIDDLE << 10 | V | G)
            for va in self.PAGES:
                self.map_page(root, va)
        hart.store_word(self.KERNEL_MIDDLE * 4096, self.KERNEL_LAST << 10 | V)
        hart.store_word(self.KERNEL_MIDDLE * 4096 + 8, 0x80200 << 10 | V | R | W | G | A | D)
        for index in range(2):
            hart.store_word(self.KERNEL_LAST * 4096 + 8 * index, 0x80100 + index << 10 | V | R | W | X | A | D)
        self.switch()
        hart.sfence(None, None)

    def flags(self):
        return self.rng.choice([V | R | W | U | A | D, V | R | X | U | A, V | R | W | U | A, V | R | U | A | D, 0])

    def last_of(self, root, va):
        """The table of the last level: three for each middle one."""
        middle = self.MIDDLES[root][va >> 30]
        return 0x81000 + (middle - 0x80010) * 4 + (va >> 21) % 2 + 2 * self.rng.randrange(2)

    def map_page(self, root, va):
        """Stores a leaf, in a table that the middle one may be made to name, or a superpage in the middle one."""
        middle, rng = self.MIDDLES[root][va >> 30], self.rng
        place = middle * 4096 + (va >> 21) % 512 * 8
        if rng.random() < 0.25:
            self.hart.store_word(place, 0x80200 + 512 * rng.randrange(8) << 10 | (self.flags() or V))
            return
        last = self.last_of(root, va)
        self.hart.store_word(last * 4096 + (va >> 12) % 512 * 8, 0x82000 + rng.randrange(4096) << 10 | self.flags())
        if rng.random() < 0.4:
            self.hart.store_word(place, last << 10 | V)

    def switch(self):
        self.space = self.rng.randrange(3)
        self.hart.write_satp(8 << 60 | self.space + 1 << 44 | self.ROOTS[self.space])

    def step(self):
        """Does one thing; fences come often, and not always where they should."""
        rng, draw = self.rng, self.rng.random()
        if draw < 0.06:
            space = rng.randrange(3)
            va = rng.choice(self.PAGES)
            self.map_page(self.ROOTS[space], va)
            if rng.random() < 0.9:
                self.hart.sfence(*rng.choice([(va, None), (va, space + 1), (va ^ 0x1000, space + 1), (None, space + 1), (None, space + 1)]))
        elif draw < 0.09:
            self.switch()
        elif draw < 0.1:
            self.hart.write_sum(rng.randrange(2))
        elif draw < 0.105:
            self.hart.sfence(None, None)
        else:
            va = rng.choice(self.PAGES if rng.random() < 0.8 else self.KERNEL_PAGES) + 8 * rng.randrange(512)
            va ^= 1 << rng.choice([39, 45, 63]) if rng.random() < 0.02 else 0
            self.hart.access(rng.choice(["fetch", "load", "store"]), va, 4, rng.choice("UUS"))


def trace(kind, seed, accesses):
    """The lines of a hart of a class."""
    lines, count = [], 0

    def send(line):
        lines.append(line)

    kernel = ToyKernel(kind(send), random.Random(seed))
    while count < accesses:
        before = len(lines)
        kernel.step()
        count += sum("=>" in line for line in lines[before:])
    return lines


def kind_named(text):
    """The class of a name, or one with the errors of several, with + between their names."""
    named = {kind.__name__: kind for kind in [ToyHart, *ERRORS]}
    return type(text, tuple(named[name] for name in text.split("+")), {})


if __name__ == "__main__":
    given = sys.argv[1:] + ["ToyHart", "1", "1000"][len(sys.argv) - 1 :]
    print(*trace(kind_named(given[0]), int(given[1]), int(given[2])), sep="\n")
