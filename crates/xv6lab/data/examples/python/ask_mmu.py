#!/usr/bin/env python3
"""A toy MMU of Sv39 that lacks a step, and a client of `xv6lab mmu` that finds it: ask_mmu.py [PROGRAM]

PROGRAM is a built `xv6lab`. At the first access for which the toy's outcome is not permitted, the client prints the lines that show it
again, and ends with status 1. docs/MMU.md explains the lines.
"""
import random
import subprocess
import sys

ROOT, FIRST, END = 0x80001, 0x80000000, 0xC0000000


def toy_translate(memory, va, access, mode):
    """The MMU to be tested: returns the outcome as text."""
    page_fault = "fault " + {"fetch": "12", "load": "13", "store": "15"}[access]
    access_fault = "fault " + {"fetch": "1", "load": "5", "store": "7"}[access]
    if va >> 38 not in (0, 0x3FFFFFF):
        return page_fault
    table, level = ROOT, 2
    while True:
        place = table * 4096 + (va >> 12 + 9 * level) % 512 * 8
        if not FIRST <= place < END:
            return access_fault
        pte = memory.get(place, 0)
        if not pte & 1 or pte & 6 == 4 or pte >> 54 or not pte & 14 and (level == 0 or pte & 0xD0):
            return page_fault
        if pte & 14:
            break
        table, level = pte >> 10, level - 1
    needed = {"fetch": 0x48, "load": 0x42, "store": 0xC4}[access]
    if pte & needed != needed or (mode == "U" and not pte & 0x10) or (pte >> 10) % (1 << 9 * level):
        return page_fault
    pa = (pte >> 10 << 12) + va % (1 << 12 + 9 * level)
    return f"pa {pa:#x} by {pte:#x}" if FIRST <= pa < END else access_fault


# ---- the client

program = sys.argv[1] if len(sys.argv) > 1 else "crates/xv6lab/out/xv6lab"
mmu = subprocess.Popen([program, "mmu", "-"], stdin=subprocess.PIPE, stdout=subprocess.PIPE, text=True)


def ask(line):
    mmu.stdin.write(line + "\n")
    mmu.stdin.flush()
    return mmu.stdout.readline().strip()


for seed in range(1000):
    rng, memory = random.Random(seed), {}
    lines = ["reset", f"ram {FIRST:#x} {END - FIRST:#x}", f"satp {8 << 60 | ROOT:#x}"]
    for place in (table * 4096 + 8 * index for table in (ROOT, ROOT + 1, ROOT + 2) for index in range(4)):
        memory[place] = rng.choice([ROOT + 1, ROOT + 2, 0x80000, 0x7FFFF]) << 10 | rng.choice([1, 1, rng.randrange(256)])
        lines.append(f"mem {place:#x} {memory[place]:#x}")
    lines.append("sfence")
    for line in lines:
        ask(line)
    for _ in range(50):
        va = sum(rng.randrange(4) << shift for shift in (30, 21, 12)) + rng.randrange(512) * 8
        access, mode = rng.choice(["fetch", "load", "store"]), rng.choice("US")
        line = f"{access} {va:#x} 4 {mode} => {toy_translate(memory, va, access, mode)}"
        answer = ask(line)
        if not answer.startswith("permitted"):
            print(*lines, line, sep="\n")
            sys.exit(answer)
