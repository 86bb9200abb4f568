#!/usr/bin/env python3
"""Turns a log of Spike into lines for `xv6lab mmu`: from_spike_log.py LOG [WORD ..] > LINES

    spike -l --log-commits --log=LOG PROGRAM
    from_spike_log.py LOG > LINES
    xv6lab mmu LINES | grep -n NOT

The WORDs are those of the line `profile`, by default `svade pmp16`; with `svadu`, Spike sets A and D.

What the lines say: each store, write of satp, of a PMP register and of SUM, MXR, MPRV and MPP, each fence, each load and store with
its outcome, and each page fault and access fault. Spike logs virtual addresses alone. Of a granted access the physical one is that
to which memory leads as it is; if it leads nowhere, the access is sent without an outcome, after a comment. Words that the program
did not store are 0, so page tables must not be in its image. This was tried with a log that was written by hand, not by Spike.
"""
import re
import sys

from from_qemu_trace import FAULTS, MODES, Memory

COMMIT = re.compile(r"^core\s+\d+: (\d) 0x[0-9a-f]+ \(0x([0-9a-f]+)\)(.*)")
SHOWN = re.compile(r"^core\s+\d+: 0x[0-9a-f]+ \(0x([0-9a-f]+)\)")
TRAP = re.compile(r"^core\s+\d+: exception trap_(\w+)_(page|access)_fault")
TVAL = re.compile(r"^core\s+\d+:\s+tval 0x([0-9a-f]+)")
EFFECT = re.compile(r"\b(?:mem (0x[0-9a-f]+)(?: (0x[0-9a-f]+))?|x(\d+)\s+(0x[0-9a-f]+)|c\d+_(\w+)\s+(0x[0-9a-f]+))")
KINDS = {"instruction": "fetch", "load": "load", "store": "store"}
MRET, SRET, SFENCE = 0x30200073, 0x10200073, 0x12000073
RAM = ["ram 0 0x20000000", "ram 0x80000000 0x40000000"]


def width_of(word):
    """How many bytes a load or store accesses, by the instruction."""
    if word & 3 != 3:
        return 8 if word >> 13 & 1 else 4
    return 1 << (word >> 12 & 3)


class Converter:
    """Prints the lines of a log."""

    def __init__(self, words):
        self.memory, self.updates, self.registers = Memory(), "svadu" in words, [0] * 32
        self.mode, self.mstatus, self.pmp = "M", 0, {}
        self.shown, self.trap = 0, None
        print("profile", *words)
        print(*RAM, sep="\n")

    def convert(self, log):
        for line in log:
            if found := COMMIT.match(line):
                self.mode = MODES[int(found[1])]
                self.commit(int(found[2], 16), EFFECT.findall(found[3]))
            elif found := SHOWN.match(line):
                self.shown = int(found[1], 16)
            elif found := TRAP.match(line):
                self.trap = KINDS[found[1]], found[2] == "page"
            elif self.trap and (found := TVAL.match(line)):
                (kind, is_page), va = self.trap, int(found[1], 16)
                width = 2 if kind == "fetch" else width_of(self.shown)
                print(f"{kind} {va:#x} {width} {self.mode} => fault {FAULTS[kind][is_page]}")
                self.trap = None

    def commit(self, word, effects):
        """An instruction that was executed, with what it read and wrote."""
        if word & 0xFE007FFF == SFENCE:
            va, asid = word >> 15 & 31, word >> 20 & 31
            said = [f"{self.registers[va]:#x}" if va else "-", str(self.registers[asid] & 0xFFFF) if asid else "-"]
            print("sfence", *said)
        if word in (MRET, SRET):
            self.mode = MODES[self.mstatus >> 11 & 3 if word == MRET else self.mstatus >> 8 & 1]
        for va, stored, register, value, csr, written in effects:
            if va:
                self.access(word, int(va, 16), stored)
            elif register:
                self.registers[int(register)] = int(value, 16)
            else:
                self.write_csr(csr, int(written, 16))

    def access(self, word, va, stored):
        kind = "store" if stored else "load"
        width = (len(stored) - 2) // 2 if stored else width_of(word)
        mode = self.mode
        if mode == "M" and self.mstatus >> 17 & 1:
            mode = MODES[self.mstatus >> 11 & 3]
        pa, update = va, ""
        if mode != "M" and self.memory.satp:
            leaf = self.memory.leaf(va)
            if leaf is None:
                print("# granted, and memory leads nowhere:")
                print(f"{kind} {va:#x} {width} {self.mode}")
                return
            bits = 16 if leaf[1] >> 63 else 12 + 9 * leaf[2]
            pa = (leaf[1] >> 10 & (1 << 44) - 1) << 12 >> bits << bits | va % (1 << bits)
            update = self.memory.update(va, kind) if self.updates else ""
        if va % width == 0:
            print(f"{kind} {va:#x} {width} {self.mode} => pa {pa:#x}{update}")
        if stored:
            print(self.memory.line(pa, width, int(stored, 16)))

    def write_csr(self, name, value):
        if name == "satp":
            self.memory.satp = value
            print(f"satp {value:#x}")
        elif name in ("mstatus", "sstatus"):
            kept = 0 if name == "mstatus" else self.mstatus & ~0xC0122
            self.mstatus = kept | value & (~0 if name == "mstatus" else 0xC0122)
            mpp = MODES[self.mstatus >> 11 & 3]
            print("status", self.mstatus >> 18 & 1, self.mstatus >> 19 & 1, self.mstatus >> 17 & 1, mpp)
        elif name.startswith("pmp"):
            self.pmp[name] = value
            number = int(re.search(r"\d+$", name)[0])
            for it in [number] if name.startswith("pmpaddr") else range(4 * number, 4 * number + 8):
                config = self.pmp.get(f"pmpcfg{it // 8 * 2}", 0) >> it % 8 * 8 & 0x9F
                if config or name.startswith("pmpaddr"):
                    print(f"pmp {it} {config:#x} {self.pmp.get(f'pmpaddr{it}', 0):#x}")


if __name__ == "__main__":
    if len(sys.argv) < 2:
        sys.exit(__doc__)
    with open(sys.argv[1], encoding="utf-8", errors="replace") as file:
        Converter(sys.argv[2:] or ["svade", "pmp16"]).convert(file)
