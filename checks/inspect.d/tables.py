"""A second listing and a second search for what is suspicious, in Python, by which dumps of random tables are compared."""
import bisect
import dataclasses
import struct

PAGE = 4096
TOPS = {8: 2, 9: 3, 10: 4}
SCHEMES = {2: "sv39", 3: "sv48", 4: "sv57"}
V, R, W, X, U, G, A, D, C = (1 << i for i in range(9))
LETTERS = "VRWXUGADC"


@dataclasses.dataclass(frozen=True)
class Hart:
    """Which extensions the hart has, and whether a clear A or D is told."""

    svnapot: bool = False
    svpbmt: bool = False
    svade: bool = False

    def words(self):
        return [f"--{name}" for name in ("svnapot", "svpbmt", "svade") if getattr(self, name)]


@dataclasses.dataclass(frozen=True)
class Pte:
    """A PTE that a walk may read: the first virtual address that it maps or leads to, its level, its place and its word."""

    va: int
    level: int
    place: int
    word: int

    @property
    def ppn(self):
        return self.word >> 10 & (1 << 44) - 1

    @property
    def size(self):
        return PAGE << 9 * self.level

    @property
    def last(self):
        return self.va + self.size - 1 & (1 << 64) - 1

    def has(self, flags):
        return self.word & flags == flags


class Memory:
    """The bytes of physical memory from an address on."""

    def __init__(self, at, data):
        self.at, self.data = at, data

    def word(self, address):
        start = address - self.at
        if start < 0 or start + 8 > len(self.data):
            return None
        return struct.unpack_from("<Q", self.data, start)[0]

    def has(self, address, size):
        """Whether so many bytes are there, all in whole pages."""
        whole = len(self.data) // PAGE * PAGE
        return self.at <= address and address + size <= self.at + whole


def fault(hart, word, level):
    """Why a word with V is invalid to a walk; None if it is a leaf or a pointer."""
    leaf = bool(word & (R | X))
    n, pbmt = word >> 63, word >> 61 & 3
    if word & W and not word & R:
        return "W without R"
    if word >> 54 & 127:
        return "a bit of 60 to 54"
    if pbmt and (not hart.svpbmt or pbmt == 3 or not leaf):
        return "PBMT, bits 62 and 61"
    if n and not (hart.svnapot and leaf and level == 0 and word >> 10 & 15 == 8):
        return "N, bit 63"
    if not leaf and level == 0:
        return "a pointer of level 0"
    if not leaf and word & (U | A | D):
        return "U, A or D in a pointer"
    return None


class Space:
    """What the tables of a value of satp say."""

    def __init__(self, number, satp, hart, memory):
        self.number, self.satp, self.hart, self.memory = number, satp, hart, memory
        self.top, self.root = TOPS[satp >> 60], (satp & (1 << 44) - 1) * PAGE
        self.valid, self.invalid, self.tables = [], [], [(self.root, self.top, 0, None)]
        self.read(self.root, self.top, 0)

    def address(self, offset):
        """An address by its table indices alone, sign-extended."""
        bits = 21 + 9 * self.top
        return offset | (1 << 64) - (1 << bits) if offset >> bits - 1 & 1 else offset

    def read(self, table, level, first):
        for index in range(512):
            place = table + 8 * index
            word = self.memory.word(place)
            if word is None or not word & V:
                continue
            offset = first + (index << 12 + 9 * level)
            pte = Pte(self.address(offset), level, place, word)
            if fault(self.hart, word, level):
                self.invalid.append(pte)
                continue
            self.valid.append(pte)
            if not word & (R | X):
                self.tables.append((pte.ppn * PAGE, level - 1, self.address(offset), pte))
                self.read(pte.ppn * PAGE, level - 1, offset)

    @property
    def mappings(self):
        return [it for it in self.valid if it.word & (R | X)]

    def frame(self, pte):
        """The physical address to which a leaf leads: of a NAPOT leaf, the page's in its 64 KiB."""
        if pte.word >> 63:
            return (pte.ppn & ~15 | pte.va >> 12 & 15) * PAGE
        return pte.ppn * PAGE

    @property
    def trapframe(self):
        return (1 << 20 + 9 * self.top) - 2 * PAGE


def flags(word):
    return "".join(letter if word >> i & 1 else "-" for i, letter in enumerate(LETTERS))


def leaf_findings(space):
    """What is suspicious about a leaf by itself: its name and the leaf."""
    for pte in space.mappings:
        if pte.has(U | W | X):
            yield "writable and executable", pte
        if pte.has(U) and pte.va + pte.size > space.trapframe:
            yield "at or above TRAPFRAME", pte
        if pte.ppn * PAGE % pte.size:
            yield "misaligned superpage", pte
        if not space.memory.has(space.frame(pte), pte.size):
            yield "outside the memory", pte
        if space.hart.svade and (not pte.has(A) or (pte.has(W) and not pte.has(D))):
            yield "A or D clear", pte


def has_user_leaf(space, table, level):
    """Whether a table has a leaf for user mode itself."""
    words = [space.memory.word(table + 8 * i) or 0 for i in range(512)]
    return any(it & V and it & U and it & (R | X) and not fault(space.hart, it, level) for it in words)


def table_findings(spaces):
    """What is suspicious about tables: the name, the space and the pointer; None for the root."""
    seen = {}
    for space in spaces:
        for table, level, va, pte in space.tables:
            if not space.memory.has(table, PAGE):
                yield "table outside the memory", space, pte
            if table not in seen:
                seen[table] = (space, level, va)
                continue
            first, *place = seen[table]
            if first is space or [level, va] != place or has_user_leaf(space, table, level):
                yield "table of two places", space, pte


def overlapping(spaces):
    """Mappings for user mode, each with one of another space that has a frame of it."""
    held = sorted(((space.frame(pte), space.number, at, pte) for space in spaces for at, pte in enumerate(space.mappings) if pte.has(U)), key=lambda it: it[:3])
    open_ones = []
    for start, number, _, pte in held:
        open_ones = [it for it in open_ones if it[0] + it[2].size > start]
        for _, other, its in open_ones:
            if other != number:
                yield spaces[number], pte, spaces[other], its
                yield spaces[other], its, spaces[number], pte
        open_ones.append((start, number, pte))


def key(space, pte):
    """How a PTE of a space, or its root, is told."""
    return (space.number, pte.va, pte.level) if pte else (space.number, None, None)


def shared(spaces):
    """Mappings that user mode may write, with C clear, and of each the mappings for user mode of other spaces that have a frame of it."""
    found = {}
    for space, pte, other, its in overlapping(spaces):
        if pte.has(W) and not pte.has(C):
            found.setdefault(key(space, pte), set()).add(key(other, its))
    return found


def writable_tables(spaces):
    """Tables that user mode may write, and of each the mappings by which it may."""
    found = {}
    tables = sorted(((table, space, pointer) for space in spaces for table, _, _, pointer in space.tables), key=lambda it: it[0])
    places = [it[0] for it in tables]
    for space in spaces:
        for pte in (it for it in space.mappings if it.has(U | W)):
            start = space.frame(pte)
            for at in range(bisect.bisect_left(places, start), bisect.bisect_left(places, start + pte.size)):
                _, other, pointer = tables[at]
                found.setdefault(key(other, pointer), set()).add(key(space, pte))
    return found


def findings(spaces):
    """All that is suspicious by itself: its name and the PTE."""
    found = set()
    for space in spaces:
        found |= {(name, *key(space, pte)) for name, pte in leaf_findings(space)}
        found |= {("reserved", *key(space, pte)) for pte in space.invalid}
    return found | {(name, *key(space, pte)) for name, space, pte in table_findings(spaces)}
