"""The small kernel of checks/kernels.d, stopped while its processes run, and where its processes are."""
import pathlib
import subprocess
import sys

from qemu import Machine, MachineError

KERNELS = pathlib.Path(__file__).resolve().parent.parent / "kernels.d"
sys.path.append(str(KERNELS))

from machine import COMPILER, MARCH, PROGRAMS, archived, built_kernel, built_program

STOPS = pathlib.Path(__file__).resolve().parent / "stops.c"
NM = COMPILER.replace("gcc", "nm")
MEGABYTES = 128
# The numbers of `struct proc` that a dump is read by, as the compiler has them.
SOURCE = """
#include <stddef.h>
#include "defs.h"
char SIZE[sizeof(struct proc)], STATE[offsetof(struct proc, state)], TABLE[offsetof(struct proc, pagetable)], COUNT[NPROC];
"""


def symbols(path):
    """The symbols of an object file: name, address and size."""
    ran = subprocess.run([NM, "-S", path], capture_output=True, text=True, check=True)
    rows = [line.split() for line in ran.stdout.splitlines()]
    return {row[-1]: (int(row[0], 16), int(row[1], 16)) for row in rows if len(row) == 4}


def layout(folder):
    """The size of `struct proc`, where it has its state and its page table, and how many there are."""
    source, path = folder / "layout.c", folder / "layout.o"
    source.write_text(SOURCE, encoding="utf-8")
    words = [COMPILER, *MARCH, "-ffreestanding", "-I", KERNELS / "kernel", "-c", "-o", path, source]
    subprocess.run([str(it) for it in words], check=True, capture_output=True)
    return [symbols(path)[name][1] for name in ("SIZE", "STATE", "TABLE", "COUNT")]


def satps(folder, kernel, memory):
    """The value of satp of each process, and of the kernel itself."""
    size, state, table, count = layout(folder)
    first = symbols(kernel)["proc"][0]
    roots = [symbols(kernel)["kernel_pagetable"][0]]
    for at in range(first, first + count * size, size):
        if memory.word(at + state) & 0xFFFFFFFF in (1, 2, 3):
            roots.append(memory.word(at + table))
    return [8 << 60 | root >> 12 for root in roots]


def stopped(folder, bug=0, variant=0):
    """A machine with the small kernel, and the kernel's ELF file; stopped when all processes of the program are ready."""
    kernel = built_kernel(folder, bug, variant)
    programs = {"init": built_program(KERNELS / "user" / "init.c", folder / "init.elf"), "stops": built_program(STOPS, folder / "stops.elf")}
    archive = archived(folder / "programs.bin", programs)
    words = ["-bios", "none", "-kernel", kernel, "-device", f"loader,file={archive},addr={PROGRAMS:#x},force-raw=on"]
    return Machine(folder, words, MEGABYTES), kernel


def wait_until_ready(machine):
    machine.wait(lambda: "stops: ready" in machine.shown() or "kernel:" in machine.shown(), "a program that is ready")
    if "kernel:" in machine.shown():
        raise MachineError(machine.shown()[-300:])
    machine.monitor.ask("stop")
