#!/usr/bin/env python3
"""Turns a log of QEMU into lines for `xv6lab mmu`: from_qemu_trace.py LOG [WORD ..] > LINES

    qemu-system-riscv64 -machine virt -singlestep -d in_asm,exec,cpu,mmu,int,nochain -D LOG ..
    from_qemu_trace.py LOG > LINES
    xv6lab mmu LINES | grep -n NOT

Newer QEMUs have `-accel tcg,one-insn-per-tb=on` for -singlestep. The WORDs are those of the line `profile`; by default they are
`svadu pmp16`: QEMU 7.2 always sets A and D itself. An instruction takes about 3,000 bytes of LOG.

What the lines say: each store, write of satp, of a PMP register and of SUM, MXR, MPRV and MPP, each fence, and each load, store and
translated fetch with its outcome. QEMU logs a translation when it keeps it, and what it keeps it uses until it is dropped: an
access without one goes where the last one of its page went. It does not log that it sets A and D: that is seen by the leaf.
Left out: misaligned accesses, floats, and what is in pages without R, which QEMU does not disassemble. Words that the program did not
store are 0, so page tables must not be in its image.
"""
import re
import sys

TRACE = re.compile(r"Trace \d+: \S+ \[[0-9a-f]+/([0-9a-f]+)/([0-9a-f]+)/")
SHOWN = re.compile(r"^0x([0-9a-f]+):\s+[0-9a-f]+\s+(\S+)\s*(\S*)")
REGISTER = re.compile(r"x\d+/(\S+)\s+([0-9a-f]{16})")
CSR = re.compile(r"^ (satp|mstatus)\s+([0-9a-f]{16})")
FILL = re.compile(r"riscv_cpu_tlb_fill ad ([0-9a-f]+) rw (\d) mmu_idx (\d)")
FILLED = re.compile(r"riscv_cpu_tlb_fill address=\S+ ret (\d) physical ([0-9a-f]+)")
FAULT = re.compile(r"riscv_cpu_do_interrupt: .*async:0, cause:([0-9a-f]+), epc:0x([0-9a-f]+)")
OPERANDS = re.compile(r"(?:(\w+),)?(?:(\w+),)?(-?\d+)?\((\w+)\)$")
MODES, KINDS = "US-M", ["load", "store", "fetch"]
WIDTHS = {"b": 1, "h": 2, "w": 4, "d": 8}
FAULTS = {"fetch": (1, 12), "load": (5, 13), "store": (7, 15)}
RAM = ["ram 0 0x20000000", "ram 0x80000000 0x40000000"]  # the devices of `virt`, and its memory
AMO = {
    "swap": lambda old, new: new,
    "add": lambda old, new: old + new,
    "or": lambda old, new: old | new,
    "and": lambda old, new: old & new,
    "xor": lambda old, new: old ^ new,
}


class Memory:
    """The words that were stored, and the walk over them."""

    def __init__(self):
        self.words, self.satp = {}, 0

    def line(self, pa, width, value):
        """The line for a store."""
        place, shift = pa & ~7, pa % 8 * 8
        mask = (1 << 8 * width) - 1
        self.words[place] = self.words.get(place, 0) & ~(mask << shift) | (value & mask) << shift
        return f"mem {place:#x} {self.words[place]:#x}"

    def leaf(self, va):
        """The place of the leaf for an address, its word and its level; None if there is none."""
        level, table = self.satp >> 60, self.satp % (1 << 44)
        for level in reversed(range(level - 5 if level else 0)):
            place = table * 4096 + (va >> 12 + 9 * level) % 512 * 8
            word = self.words.get(place, 0)
            if word & 15 > 1 or not word & 1:
                return (place, word, level) if word & 1 else None
            table = word >> 10 & (1 << 44) - 1
        return None

    def update(self, va, kind):
        """What is told of A and D, if the hart sets them for an access."""
        place, word, _ = self.leaf(va) or (0, 0xFF, 0)
        new = word | 0x40 | (0x80 if kind == "store" else 0)
        if new == word:
            return ""
        self.words[place] = new
        return f" set {place:#x} {new:#x}"


class Step:
    """An instruction: where, the mode, the registers before it, and what QEMU did by it and for the fetch after it."""

    def __init__(self, pc, mode):
        self.pc, self.mode, self.registers, self.csrs = pc, mode, {}, {}
        self.fills, self.faults = [], []


def steps_of(log, shown):
    """Reads a log, and notes in `shown` the instruction at each address."""
    step, fill = None, None
    for line in log:
        if found := TRACE.search(line):
            if step:
                yield step
            step = Step(int(found[1], 16), MODES[int(found[2], 16) & 3])
        elif found := SHOWN.match(line):
            shown[int(found[1], 16)] = found[2], found[3]
        elif found := FILL.search(line):
            fill = int(found[1], 16), KINDS[int(found[2])], int(found[3])
        elif not step:
            continue
        elif found := FILLED.search(line):
            step.fills.append((*fill, None if int(found[1]) else int(found[2], 16)))
        elif found := FAULT.search(line):
            step.faults.append((int(found[2], 16), int(found[1], 16)))
        elif found := CSR.match(line):
            step.csrs[found[1]] = int(found[2], 16)
        else:
            step.registers.update((name, int(value, 16)) for name, value in REGISTER.findall(line))
    if step:
        yield step


class Converter:
    """Prints the lines of a log."""

    def __init__(self, words):
        self.memory, self.shown, self.pages, self.pmp, self.status = Memory(), {}, {}, {}, None
        print("profile", *words)
        print(*RAM, sep="\n")

    def convert(self, log):
        before = None
        for step in steps_of(log, self.shown):
            self.write_csrs(step)
            if before:
                self.fetches(before)
                self.reserved(before, step)
            self.instruction(step)
            before = step

    def write_csrs(self, step):
        """satp and mstatus, where they are others than before."""
        satp, mstatus = step.csrs.get("satp", 0), step.csrs.get("mstatus", 0)
        if satp != self.memory.satp:
            self.memory.satp = satp
            print(f"satp {satp:#x}")
        status = mstatus >> 18 & 1, mstatus >> 19 & 1, mstatus >> 17 & 1, MODES[mstatus >> 11 & 3]
        if status != self.status and status[3] != "-":
            self.status = status
            print("status", *status)

    def fetches(self, step):
        """The translated fetches after an instruction, and their faults."""
        faults = [cause for _, cause in step.faults if cause in FAULTS["fetch"]]
        for va, kind, index, pa in step.fills:
            if kind == "fetch":
                outcome = self.granted(va, kind, index, pa) if pa is not None else f"fault {faults.pop(0)}"
                print(f"fetch {va & ~1:#x} 2 {MODES[index]} => {outcome}")

    def granted(self, va, kind, index, pa):
        """The outcome of a translation, which is kept."""
        self.pages[va >> 12, index] = pa >> 12
        return f"pa {pa:#x}{self.memory.update(va, kind) if MODES[index] != 'M' else ''}"

    def instruction(self, step):
        name, text = self.shown.get(step.pc, ("", ""))
        register = lambda it: 0 if it == "zero" else step.registers.get(it, 0)
        operands = text.split(",")
        if name == "sfence.vma":
            va, asid = ("-" if it == "zero" else f"{register(it):#x}" for it in (operands + ["zero", "zero"])[:2])
            print(f"sfence {va} {asid if asid == '-' else int(asid, 16) & 0xFFFF}")
        elif name.startswith("csrr") and operands[1].startswith("pmp"):
            given = int(operands[2], 0) if name.endswith("i") else register(operands[2])
            self.write_pmp(name.rstrip("i")[-1], operands[1], given)
        elif found := OPERANDS.match(text):
            first, second, offset, base = found.groups()
            va = (register(base) + int(offset or 0)) % (1 << 64)
            kind, width, value = self.shape(name, first, second, register)
            if kind and va % width == 0:
                self.access(step, kind, va, width, value)

    def shape(self, name, first, second, register):
        """What an instruction does: its access, the width, and what is stored, by the old value; None for nothing or not yet known."""
        if found := re.fullmatch(r"l([bhwd])u?", name):
            return "load", WIDTHS[found[1]], None
        if found := re.fullmatch(r"s([bhwd])", name):
            return "store", WIDTHS[found[1]], lambda old: register(first)
        if found := re.fullmatch(r"(lr|sc|amo(\w+))\.([wd])\S*", name):
            change = AMO.get(found[2])
            return "load" if found[1] == "lr" else "store", WIDTHS[found[3]], change and (lambda old: change(old, register(second)))
        return None, 1, None

    def access(self, step, kind, va, width, value):
        """A load or store, with what came of it."""
        fault = next((cause for pc, cause in step.faults if pc == step.pc and cause in FAULTS[kind]), None)
        fill = next((it for it in step.fills if it[0] == va and it[1] == kind), None)
        index = fill[2] if fill else MODES.index(self.status[3] if step.mode == "M" and self.status[2] else step.mode)
        pa = None
        if fault is not None:
            outcome = f"fault {fault}"
        elif fill:
            pa, outcome = fill[3], self.granted(va, kind, index, fill[3])
        else:
            pa = (self.pages[va >> 12, index] << 12) + va % 4096 if (va >> 12, index) in self.pages else va
            outcome = f"pa {pa:#x}"
        print(f"{kind} {va:#x} {width} {step.mode} => {outcome}")
        if value and pa is not None:
            old = self.memory.words.get(pa & ~7, 0) >> pa % 8 * 8
            print(self.memory.line(pa, width, value(old)))

    def reserved(self, before, step):
        """What SC stored, as its result says that it did."""
        name, text = self.shown.get(before.pc, ("", ""))
        found = OPERANDS.match(text)
        if not name.startswith("sc.") or not found or before.faults or step.registers.get(found[1], 0):
            return
        va = before.registers.get(found[4], 0)
        index = MODES.index(before.mode)
        pa = (self.pages[va >> 12, index] << 12) + va % 4096 if (va >> 12, index) in self.pages else va
        print(self.memory.line(pa, WIDTHS[name[3]], 0 if found[2] == "zero" else before.registers.get(found[2], 0)))

    def write_pmp(self, how, name, given):
        """pmpcfg0, .., with eight entries each, and pmpaddr0, .."""
        old = self.pmp.get(name, 0)
        new = {"w": given, "s": old | given, "c": old & ~given}[how]
        if how != "w" and not given:
            return
        self.pmp[name] = new
        number = int(re.search(r"\d+$", name)[0])
        entries = [number] if name.startswith("pmpaddr") else range(4 * number, 4 * number + 8)
        for it in entries:
            config = self.pmp.get(f"pmpcfg{it // 8 * 2}", 0) >> it % 8 * 8 & 0x9F
            if not name.startswith("pmpcfg") or config != old >> it % 8 * 8 & 0x9F:
                print(f"pmp {it} {config:#x} {self.pmp.get(f'pmpaddr{it}', 0) % (1 << 54):#x}")


if __name__ == "__main__":
    if len(sys.argv) < 2:
        sys.exit(__doc__)
    with open(sys.argv[1], encoding="utf-8", errors="replace") as file:
        Converter(sys.argv[2:] or ["svadu", "pmp16"]).convert(file)
