"""What the writer of scripts knows of processes, files and images: where an access is granted, and how many frames it takes."""
import dataclasses

PAGE = 4096
PROT_READ, PROT_WRITE, PROT_EXEC = 1, 2, 4
MAP_SHARED, MAP_PRIVATE = 1, 2
# The right that each access needs.
RIGHTS = {"load": "r", "store": "w", "fetch": "x"}
RET = 0xC3


def up(size):
    """The number of pages of a size."""
    return (size + PAGE - 1) // PAGE


@dataclasses.dataclass
class File:
    """A file. `is_own`: it may be mapped shared to write, by one process at a time. `code`: its first bytes, with `ret` at multiples
    of 4. `stored`: offsets at which a process stored through a mapping."""

    length: int
    mode: str
    is_own: bool
    code: int
    stored: list = dataclasses.field(default_factory=list)


@dataclasses.dataclass
class Segment:
    page: int
    pages: int
    flags: str
    size: int
    data: bytes

    @property
    def end(self):
        return self.page + self.pages

    def field(self):
        return f"{self.page * PAGE:#x}:{self.size:#x}:{self.flags}:{self.data.hex() or '-'}"


@dataclasses.dataclass
class Mapping:
    """`first`: the page of the file where it begins. `is_frozen`: the other process of a fork uses it."""

    page: int
    pages: int
    prot: int
    flags: int
    file: int
    first: int = 0
    is_frozen: bool = False

    @property
    def end(self):
        return self.page + self.pages

    @property
    def rights(self):
        return "".join(letter for letter, bits in (("r", 3), ("w", 2), ("x", 4)) if self.prot & bits)

    @property
    def is_shared_to_write(self):
        return self.flags == MAP_SHARED and bool(self.prot & PROT_WRITE)

    def address_of(self, offset):
        """The address of an offset in the file; None if it is not mapped."""
        address = (self.page - self.first) * PAGE + offset
        return address if self.page * PAGE <= address < self.end * PAGE else None

    def offset_of(self, address):
        return address - (self.page - self.first) * PAGE


@dataclasses.dataclass
class Region:
    page: int
    pages: int
    rights: str
    mapping: Mapping = None
    code: int = 0

    @property
    def is_frozen(self):
        return self.mapping is not None and self.mapping.is_frozen


class Space:
    """A process. `settled`: its pages in memory. `paid`: the pages and page tables whose frames are counted in `cost`."""

    def __init__(self, levels, segments):
        self.levels = levels
        self.hart = None
        self.segments = [Region(it.page, it.pages, "r" + it.flags.strip("r-"), None, len(it.data)) for it in segments]
        self.guard = segments[-1].end
        self.segments.append(Region(self.guard + 1, 1, "rw"))
        self.base = self.size = (self.guard + 2) * PAGE
        self.mappings, self.recent = [], []
        self.settled, self.paid, self.cost = set(), set(), 6
        for it in segments:
            self.settle(range(it.page, it.end))
        self.settle((self.guard, self.guard + 1))

    def child(self):
        """The process that a fork makes."""
        child = Space.__new__(Space)
        child.__dict__.update(self.__dict__)
        child.hart = None
        child.settled, child.paid, child.recent = set(self.settled), set(self.paid), list(self.recent)
        child.mappings = [dataclasses.replace(it) for it in self.mappings]
        return child

    def settle(self, pages):
        for page in pages:
            keys = {(level, page >> 9 * level) for level in range(self.levels)}
            self.settled.add(page)
            self.cost += len(keys - self.paid)
            self.paid |= keys

    def release(self, page, pages):
        """Pages go. What comes there again is not settled; their frames stay counted."""
        self.settled = {it for it in self.settled if not page <= it < page + pages}

    def most_frames(self, pages):
        """How many frames pages take at most, with their tables."""
        return sum(1 if (0, page) in self.paid else self.levels + 1 for page in pages)

    def regions(self):
        heap = up(self.size) - self.base // PAGE
        yield from self.segments
        if heap > 0:
            yield Region(self.base // PAGE, heap, "rw")
        for it in self.mappings:
            yield Region(it.page, it.pages, it.rights, it)

    def region_at(self, address):
        page = address // PAGE
        return next((it for it in self.regions() if it.page <= page < it.page + it.pages), None)

    def mapping_at(self, address):
        region = self.region_at(address)
        return region.mapping if region else None

    def grants(self, kind, address):
        region = self.region_at(address)
        return region is not None and RIGHTS[kind] in region.rights

    def touches_frozen(self, address, count):
        return any(it.is_frozen and address < it.end * PAGE and address + count > it.page * PAGE for it in self.mappings)
