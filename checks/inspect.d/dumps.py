"""Dumps of random tables, made from seeds."""
import dataclasses
import random
import struct

from tables import A, C, D, G, PAGE, R, TOPS, U, V, W, X, Hart

LEAVES = [R, R | W, R | X, X, R | W | X, R | U, R | W | U, R | X | U, R | W | X | U, R | U | C, R | W | U | C]


@dataclasses.dataclass
class Dump:
    """The bytes of memory from an address on, the values of satp, and the hart."""

    at: int
    data: bytes
    satps: list
    hart: Hart


class Maker:
    """Makes a dump."""

    def __init__(self, seed):
        self.random = random.Random(seed)
        self.pages = self.random.randrange(6, 24)
        self.at = self.random.choice([0x80000000, 0x80000000, 0x40000000, 0])
        self.words = [[0] * 512 for _ in range(self.pages)]
        self.hart = Hart(*(self.random.random() < 0.3 for _ in range(3)))

    def page(self):
        """The physical page number of a page, mostly of one in the dump."""
        first = self.at // PAGE
        choice = self.random.random()
        if choice < 0.9:
            return first + self.random.randrange(self.pages)
        return self.random.choice([max(first - 1, 0), first + self.pages, first + self.pages + 512, self.random.getrandbits(44)])

    def extra(self):
        """Bits that are mostly clear: 8 to 10, and 54 to 63."""
        word = self.random.choice([0, 0, 0, C, 1 << 9])
        if self.random.random() < 0.1:
            word |= 1 << self.random.randrange(54, 64)
        if self.random.random() < 0.02:
            word |= 3 << 61
        return word

    def leaf(self, level):
        ad = self.random.choice([A | D, A | D, A, D, 0])
        ppn = self.page()
        if level and self.random.random() < 0.7:
            ppn = ppn >> 9 * level << 9 * level
        word = ppn << 10 | V | self.random.choice(LEAVES) | ad | self.random.choice([0, 0, G]) | self.extra()
        if self.random.random() < 0.1:
            word = word & ~(15 << 10) | 8 << 10 | 1 << 63
        return word

    def pointer(self):
        word = self.page() << 10 | V | self.random.choice([0, 0, 0, G])
        if self.random.random() < 0.1:
            word |= self.random.choice([U, A, D])
        return word | self.extra()

    def any(self):
        return self.random.choice([V | W, V | W | X, self.random.getrandbits(64), self.random.getrandbits(10), 0])

    def fill(self, page):
        """Puts some PTEs into a page. Which levels it serves is not known."""
        table = self.words[page]
        for index in self.random.sample([0, 1, 2, 3, 255, 256, 257, 510, 511], 3):
            table[index] = self.random.choices([self.pointer(), self.any()], [9, 1])[0]
        for _ in range(self.random.randrange(4)):
            start, word = self.random.randrange(500), self.leaf(self.random.randrange(3))
            for step in range(self.random.choice([1, 1, 2, 9])):
                table[start + step] = word + (step << 10)

    def made(self):
        for page in range(self.pages):
            if self.random.random() < 0.8:
                self.fill(page)
        mode = self.random.choice(list(TOPS))
        satps = [mode << 60 | self.random.getrandbits(16) << 44 | self.page() for _ in range(self.random.randrange(1, 4))]
        data = b"".join(struct.pack("<512Q", *table) for table in self.words)
        data = data[: len(data) - self.random.choice([0, 0, 0, 8, 4, 4000])]
        return Dump(self.at, data, satps, self.hart)
