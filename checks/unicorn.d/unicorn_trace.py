#!/usr/bin/python3
"""Has Unicorn make random accesses, and prints them as lines for `xv6lab mmu`: unicorn_trace.py SEED [ACCESSES]

A client of campaigns (docs/CAMPAIGNS.md). The accesses are those of checks/unicorn, by page tables of Sv39, Sv48 or Sv57, as the seed
has it. Unicorn tells no physical address: the word that was loaded, stored or fetched tells it, if just one place has it. Accesses of
which nothing tells the place are left out: they load one or two bytes, fetch from a table, or touch no memory.
"""
import pathlib
import sys

sys.dont_write_bytecode = True
HERE = pathlib.Path(__file__).resolve().parent
sys.path[:0] = [str(HERE.parent / "qemu.d"), str(HERE)]
from hart import UnicornHart
from machine import GRANTED, Profile
from memories import FRAMES, LEVELS, START, A, D, V
from questions import Questions
from walk import ILLEGAL_INSTRUCTION
from windows import LUI_A1, random_memory

ACCESSES = 1000
PROFILE = Profile("svadu", "none", True, False, None, [])


def place_of(memory, access, value):
    """The one place that has a value at the offset of an address; None if there is no such, or more."""
    offset, shift, mask = access.va % 4096 & ~7, access.va % 8 * 8, (1 << 8 * access.width) - 1
    index = (value & 0xFFFFF000) >> 13 if value & 0xFFF == LUI_A1 else None
    frames = set(memory.tables) | ({index // 512} if index is not None and index < 512 * FRAMES else set())
    found = [frame for frame in frames if memory.word(START + frame * 4096 + offset) >> shift & mask == value]
    # A value that is no filler is of a table; zeros are of the windows, or of nowhere.
    return START + found[0] * 4096 + access.va % 4096 if len(found) == 1 and value and access.width >= 4 else None


def update_in(memory, changes):
    """The PTE in which A or D was set, and its word: a tuple, empty if there is none. None if another word has changed."""
    if not changes:
        return ()
    (place, word), *others = changes.items()
    was = memory.word(place)
    return None if others or not was & V or word & ~(A | D) != was & ~(A | D) else (place, word)


def stored_at(memory, access, changes):
    """The place that a store has changed; None if there is no such, or more. A word that differs in A and D alone may be the PTE."""
    shift, mask = access.va % 8 * 8, (1 << 8 * access.width) - 1
    found = [pa for pa, word in changes.items() if pa % 4096 == access.va % 4096 & ~7 and word >> shift & mask == access.value & mask]
    return found[0] if len(found) == 1 and not update_in(memory, {found[0]: changes[found[0]]}) else None


def outcome_of(memory, access, got):
    """The outcome of an access as a line has it; None if nothing tells it."""
    changes, pa = dict(got.changes), None
    if got.cause == GRANTED and access.kind == "store":
        target = stored_at(memory, access, changes)
        if target is None:
            return None, ()
        del changes[target]
        pa = target + access.va % 8
    elif got.cause in (GRANTED, ILLEGAL_INSTRUCTION):
        pa = place_of(memory, access, got.value)
        if pa is None:
            return None, ()
    update = update_in(memory, changes)
    if update is None:
        return None, ()
    said = f"fault {got.cause}" if pa is None else f"pa {pa:#x}"
    return said + (" set {:#x} {:#x}".format(*update) if update else ""), update


def lines(memory, hart):
    """All lines of a memory. Unicorn fences before each access; a PTE that it changed is put back."""
    questions, satp, status = Questions(), 0, None
    questions.begin(PROFILE, memory)
    yield from questions.lines
    for access in memory.accesses:
        said, update = outcome_of(memory, access, hart.attempt(memory, access))
        if said is None:
            continue
        if access.satp != satp:
            satp = access.satp
            yield from (f"satp {satp:#x}", "sfence")
        if access.status != status:
            status = access.status
            yield "status " + " ".join(map(str, status))
        yield f"{access.kind} {access.va:#x} {access.width} {access.mode} => {said}"
        if update:
            yield from (f"mem {update[0]:#x} {memory.word(update[0]):#x}", "sfence")


def main():
    seed, accesses = int(sys.argv[1]), int(sys.argv[2]) if len(sys.argv) > 2 else ACCESSES
    hart, memory = UnicornHart(), random_memory(seed, list(LEVELS)[seed % len(LEVELS)], accesses)
    hart.lay_out(memory)
    for line in lines(memory, hart):
        print(line)


if __name__ == "__main__":
    main()
