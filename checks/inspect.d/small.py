"""Dumps in crates/xv6lab/data: ram.bin, which docs/KERNELS.md shows, a parent and its child after a fork by a kernel that leaves W set in the parent;
and middle.bin, leaves on both sides of the middle of the addresses, where no run goes on."""
import struct

from tables import A, C, D, R, U, V, W, X

FIRST = 0x80000
# Pages, by their place in the dump.
PARENT, CHILD, TEXT, DATA, STACKS = (1, 2, 3), (4, 5, 6), 7, 8, (9, 11)
COUNT = 13
SATPS = [8 << 60 | FIRST + it[0] for it in (PARENT, CHILD)]


def pte(page, flags):
    return FIRST + page << 10 | flags | V


def small():
    """The bytes of the dump."""
    words = [[0] * 512 for _ in range(COUNT)]
    for (root, middle, last), stack, data in zip((PARENT, CHILD), STACKS, (R | W | U | A | D, R | U | A | D | C)):
        words[root][0] = pte(middle, 0)
        words[middle][0] = pte(last, 0)
        words[last][0] = pte(TEXT, R | X | U | A)
        words[last][1] = pte(DATA, data)
        words[last][3] = pte(stack, R | W | U | A | D)
        words[last][4] = pte(stack + 1, R | W | U | A | D)
    return b"".join(struct.pack("<512Q", *it) for it in words)


def middle():
    """The bytes of middle.bin: one page, the root."""
    words = [0] * 512
    words[255], words[256] = ((page << 10) | V | R | W | A | D for page in (0x80000, 0xC0000))
    return struct.pack("<512Q", *words)
