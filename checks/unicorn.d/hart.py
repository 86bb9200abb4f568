"""Unicorn as an MMU: a hart that makes one access at a time by page tables, and what came of it.

Unicorn takes no trap: an exception ends the emulation, and a hook gets its cause. So every access starts anew in M-mode, from a
context that was saved at the start. A stub fences, and makes the access: data by MPRV, a fetch by MRET.
"""
import array
import ctypes
import mmap

import unicorn
from unicorn.riscv_const import UC_RISCV_REG_A0, UC_RISCV_REG_A1, UC_RISCV_REG_MSTATUS, UC_RISCV_REG_SATP
from unicorn.unicorn_const import UC_HOOK_INTR, UC_PROT_ALL

from machine import GRANTED, Outcome, mstatus_of
from memories import FRAMES, LENGTH, START
from walk import ILLEGAL_INSTRUCTION
from windows import LUI_A1, WINDOWS, filler

LEVELS, WORDS = 5, 512 * FRAMES
STUBS, STUB_BYTES = 0x10000000, 64
SFENCE, WRITE_MEPC, MRET, JUMP = 0x12000073, 0x34151073, 0x30200073, 0x00050067
# lbu, lhu, lwu, ld a1, 0(a0), and sb, sh, sw, sd.
DATA = {("load", 1): 0x00054583, ("load", 2): 0x00055583, ("load", 4): 0x00056583, ("load", 8): 0x00053583}
DATA |= {("store", 1): 0x00B50023, ("store", 2): 0x00B51023, ("store", 4): 0x00B52023, ("store", 8): 0x00B53023}
# In a1 before a fetch: no instruction of `filler` leaves it there.
UNTOUCHED = 1
MOST_INSTRUCTIONS = 4


class UnicornError(Exception):
    """Unicorn does what no access can come to."""


def stub_of(access):
    """The instructions that make an access."""
    if access.kind != "fetch":
        return SFENCE, DATA[access.kind, access.width]
    return (SFENCE, JUMP) if access.mode == "M" else (SFENCE, WRITE_MEPC, MRET)


class UnicornHart:
    """A hart, its memory as `view`, and `kept`: what the memory holds before each access."""

    def __init__(self):
        self.engine = unicorn.Uc(unicorn.UC_ARCH_RISCV, unicorn.UC_MODE_RISCV64)
        self.ram = mmap.mmap(-1, LENGTH)
        self.view = memoryview(self.ram).cast("Q")
        buffer = (ctypes.c_char * LENGTH).from_buffer(self.ram)
        self.engine.mem_map_ptr(START, LENGTH, UC_PROT_ALL, ctypes.addressof(buffer))
        for first, length in WINDOWS:
            self.engine.mem_map(first, length)
        self.engine.mem_map(STUBS, 4096)
        self.stubs, self.cause, self.kept = {}, None, None
        self.filler = array.array("Q", map(filler, range(WORDS)))
        self.engine.hook_add(UC_HOOK_INTR, self.trapped)
        self.fresh = self.engine.context_save()

    def trapped(self, engine, cause, _):
        self.cause = cause
        engine.emu_stop()

    def version(self):
        return f"Unicorn {unicorn.__version__}"

    def stub(self, access):
        """The addresses from which an access is made, and at which it is done."""
        words = stub_of(access)
        if words not in self.stubs:
            self.stubs[words] = STUBS + STUB_BYTES * len(self.stubs)
            self.engine.mem_write(self.stubs[words], b"".join(word.to_bytes(4, "little") for word in words))
        first = self.stubs[words]
        return first, access.va + 4 if access.kind == "fetch" else first + 4 * len(words)

    def lay_out(self, memory):
        self.kept = self.filler[:]
        for frame, table in memory.tables.items():
            self.kept[512 * frame : 512 * (frame + 1)] = array.array("Q", table)
        self.view[:] = memoryview(self.kept)

    def run(self, access):
        """Makes an access, and returns what a1 holds then."""
        self.engine.context_restore(self.fresh)
        self.engine.reg_write(UC_RISCV_REG_SATP, access.satp)
        self.engine.reg_write(UC_RISCV_REG_MSTATUS, mstatus_of(access))
        self.engine.reg_write(UC_RISCV_REG_A0, access.va)
        self.engine.reg_write(UC_RISCV_REG_A1, access.value if access.kind == "store" else UNTOUCHED)
        self.cause = None
        try:
            self.engine.emu_start(*self.stub(access), count=MOST_INSTRUCTIONS)
        except unicorn.UcError as error:
            raise UnicornError(f"{error}: {access}") from error
        return self.engine.reg_read(UC_RISCV_REG_A1)

    def attempt(self, memory, access):
        """Makes an access in a memory, and returns what came of it. Then memory is as before."""
        found = self.run(access)
        changes = self.settled(memory, access)
        if self.cause == ILLEGAL_INSTRUCTION:
            return Outcome(ILLEGAL_INSTRUCTION, 0, changes)
        if self.cause is not None:
            return Outcome(self.cause, access.va, changes)
        if access.kind != "fetch":
            return Outcome(GRANTED, found, changes)
        if found == UNTOUCHED:
            raise UnicornError(f"a fetch finds no filler: {access}")
        # What was fetched, and executed.
        return Outcome(ILLEGAL_INSTRUCTION, found & 0xFFFFF000 | LUI_A1, changes)

    def settled(self, memory, access):
        """The words that an access has changed, put back: in each table those at an index of the address; after a store, in each
        frame the one at its offset."""
        view, kept, va = self.view, self.kept, access.va
        at = {512 * frame + (va >> 12 + 9 * level & 511) for frame in memory.tables for level in range(LEVELS)}
        changed = [index for index in at if view[index] != kept[index]]
        first = va % 4096 // 8
        if access.kind == "store" and view[first::512] != memoryview(kept)[first::512]:
            changed += [index for index in range(first, WORDS, 512) if view[index] != kept[index] and index not in at]
        changes = {START + 8 * index: view[index] for index in changed}
        for index in changed:
            view[index] = kept[index]
        return changes

    def strays(self):
        """How many words stand changed that no access changes."""
        return sum(now != before for now, before in zip(self.view, self.kept)) if self.view != memoryview(self.kept) else 0
