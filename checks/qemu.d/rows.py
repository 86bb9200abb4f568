"""Rows of events for a hart with a TLB: stores to page tables, writes of satp, fences, and accesses. QEMU carries them out with
its TLB as it is, and the program judges what came of each access by the history before it.

QEMU's TLB ignores ASIDs: it is emptied when satp gets another value, and by each fence.
"""
import array
import collections
import random

from machine import GRANTED, QemuError, mstatus_of, run_probe
from memories import A, D, FIRST_PPN, G, LENGTH, LEVELS, N, R, START, U, V, W, X, Access, Status, extended, satp_of
from questions import ProgramError, asked
from walk import ILLEGAL_INSTRUCTION

EVENTS = "begin write write_satp fence_all fence_address fence_space fence_both access".split()
WIDTH = {"fetch": 4, "load": 8, "store": 8}
# Each kind of access as the probe numbers it: of 8 bytes, or a fetch in the mode of MPP.
ATTEMPT = {"fetch": 0, "load": 4, "store": 8}
ROW, HEADER, EVENT_WORDS = 300, 4, 6
# The tables of each level, and at which places of them PTEs are. Of a page of 512 GiB or more the memory is in the third GiB.
FIRST_TABLE, TABLES = 32, 3
PLACES = {0: [0, 1], 1: [0, 1], 2: [2, 3], 3: [0, 1], 4: [0, 1]}
FLAGS = [V | R | W | X | A | D, V | R | W | X | A | D | U, V | R | W | A | D | U, V | R | A, V | R | W | A, V | X | A | D | U]
FLAGS += [V | R | W | X | A | D | G, V | R | W | X | A | D | U | G, V | R | W | X, V | R | W | X | U, 0, 0]

# An event: its name, and what it is about. left_out: the hart does not carry it out.
Event = collections.namedtuple("Event", "name first second access left_out", defaults=(0, 0, None, False))
# What came of an access: a cause or GRANTED, the value or mtval, the address that a store changed, and a PTE with its new word.
Came = collections.namedtuple("Came", "cause value stored place word")


def table_frame(level, number):
    return FIRST_PPN + FIRST_TABLE + TABLES * level + number


class RowMaker:
    """Makes one random row. With `left_out` the hart leaves out fences that are not of all, though the history has them."""

    def __init__(self, rng, scheme, left_out):
        self.rng, self.scheme, self.levels, self.left_out = rng, scheme, LEVELS[scheme], left_out
        self.slots = [(level, table_frame(level, number) << 12 | 8 * place) for level in range(self.levels)
                      for number in range(TABLES) for place in PLACES[level]]
        self.pages = [self.page() for _ in range(4)]

    def page(self):
        va = sum(self.rng.choice(PLACES[level]) << 12 + 9 * level for level in range(self.levels))
        return extended(va, 12 + 9 * self.levels)

    def word(self, level):
        """A PTE of a level: mostly a pointer to one of the next level's tables; or a leaf, of level 0 some with N."""
        rng = self.rng
        if level and rng.random() < 0.85:
            return table_frame(level - 1, rng.randrange(TABLES)) << 10 | rng.choice([V] * 8 + [V | G, 0])
        flags = rng.choice(FLAGS)
        if level == 0 and rng.random() < 0.15:
            return FIRST_PPN + rng.randrange(64, 1024, 16) + 8 << 10 | flags | N
        return {0: FIRST_PPN + rng.randrange(64, 1024), 1: FIRST_PPN + 512, 2: FIRST_PPN}.get(level, 0) << 10 | flags

    def fence(self):
        rng = self.rng
        name = rng.choice(["fence_all", "fence_address", "fence_address", "fence_address", "fence_space", "fence_both"])
        va = rng.choice(self.pages) ^ (1 << 62 if rng.random() < 0.05 else 0)
        return Event(name, va, rng.randrange(3), None, self.left_out and name != "fence_all")

    def access(self):
        rng = self.rng
        kind, mode = rng.choice(["load", "load", "load", "store", "fetch"]), rng.choice("US")
        va = rng.choice(self.pages) + rng.randrange(0, 4096, 8) ^ (1 << 62 if rng.random() < 0.02 else 0)
        # A write of another MXR makes QEMU forget all.
        total, mxr = int(rng.random() < 0.1), int(rng.random() < 0.02)
        if kind == "fetch":
            return Access(kind, WIDTH[kind], mode, Status(total, mxr), 0, va, 0)
        return Access(kind, WIDTH[kind], "M", Status(total, mxr, 1, mode), 0, va, va)

    def write_satp(self):
        root = table_frame(self.levels - 1, self.rng.randrange(TABLES))
        return Event("write_satp", satp_of(self.scheme, self.rng.randrange(3), root))

    def write(self):
        level, place = self.rng.choice(self.slots)
        return Event("write", place, self.word(level))

    def row(self):
        yield Event("begin")
        for level, place in self.slots:
            yield Event("write", place, self.word(level))
        yield self.write_satp()
        yield Event("fence_all")
        for _ in range(ROW):
            chance = self.rng.random()
            if chance < 0.2:
                yield self.write()
            elif chance < 0.22:
                yield self.write_satp()
            elif chance < 0.26:
                yield self.fence()
            else:
                yield Event("access", access=self.access())


def random_rows(seed, scheme, count, left_out):
    return [event for number in range(count)
            for event in RowMaker(random.Random(f"{seed} {scheme} row {number}"), scheme, left_out).row()]


def laid_out(events):
    """The input of the probe, as rows.c describes it. A fence that is left out is a fence with number 255: nothing."""
    words = array.array("Q", [len(events), 0, 0, 0])
    for event in events:
        if event.name == "access":
            number = EVENTS.index("access") + 256 * ATTEMPT[event.access.kind]
            words.extend([number, mstatus_of(event.access), event.access.va, 0, 0, 0])
        else:
            words.extend([255 if event.left_out else EVENTS.index(event.name), event.first, event.second, 0, 0, 0])
    return words


def carried_out(qemu, probe, events, profile, folder):
    """Has QEMU carry out the events. Returns what came of each access, None for the other events."""
    words = run_probe(qemu.path, probe, laid_out(events), profile.cpu, folder)
    places = range(HEADER, len(words), EVENT_WORDS)
    return [Came(*words[at + 1 : at + 6]) if event.name == "access" else None for at, event in zip(places, events)]


def place_of(value):
    """Where the filler is that a load or a fetch has found: the other half of a word has bit 11 set."""
    index, half = value >> 12 & 0x7FFFF, value >> 11 & 1 if value < 1 << 32 else 0
    return START + 8 * index + 4 * half


def claim(access, came):
    """What came of an access, as the program takes it after `=>`."""
    if came.cause == GRANTED:
        outcome = f"pa {(came.stored or START) if access.kind == 'store' else place_of(came.value):#x}"
    elif access.kind == "fetch" and came.cause == ILLEGAL_INSTRUCTION:
        outcome = f"pa {place_of(came.value):#x}"
    elif came.value == access.va:
        outcome = f"fault {came.cause}"
    else:
        raise QemuError(f"QEMU reports {came} for {access}")
    return f"{outcome} set {came.place:#x} {came.word:#x}" if came.place else outcome


def fence_line(event):
    return {"fence_all": "sfence", "fence_address": f"sfence {event.first:#x}", "fence_space": f"sfence - {event.second}",
            "fence_both": f"sfence {event.first:#x} {event.second}"}[event.name]


def lines_of(events, came, profile):
    """The lines about the events, each with whether it judges an access."""
    status = Status()
    for event, it in zip(events, came):
        if event.name == "begin":
            yield f"profile {profile.words()} pmp0", False
            yield f"ram {START:#x} {LENGTH:#x}", False
            yield f"status {' '.join(map(str, status))}", False
        elif event.name == "write":
            yield f"mem {event.first:#x} {event.second:#x}", False
        elif event.name == "write_satp":
            yield f"satp {event.first:#x}", False
        elif event.name != "access":
            yield fence_line(event), False
        else:
            access = event.access
            if access.status != status:
                status = access.status
                yield f"status {' '.join(map(str, status))}", False
            yield f"{access.kind} {access.va:#x} {access.width} {access.mode} => {claim(access, it)}", True


class Judged:
    """How the accesses of rows were judged."""

    def __init__(self):
        self.counts, self.refused = collections.Counter(), []

    def add(self, program, lines, file):
        """Has a program judge the lines, which it gets as a file."""
        file.write_text("".join(f"{line}\n" for line, _ in lines))
        answers = asked(program, file, may_refuse=True).splitlines()
        if len(answers) != len(lines):
            raise ProgramError(f"the program gives {len(answers)} answers to {len(lines)} lines")
        for number, ((line, judges), answer) in enumerate(zip(lines, answers), 1):
            if judges:
                self.judge(number, line, answer)
            elif answer.startswith("error"):
                raise ProgramError(f"the program answers `{line}` with `{answer}`")

    def judge(self, number, line, answer):
        if answer.startswith("NOT permitted"):
            self.counts["not permitted"] += 1
            self.refused.append(f"line {number}: {line}\n  {answer}")
        elif not answer.startswith("permitted"):
            raise ProgramError(f"the program answers `{line}` with `{answer}`")
        else:
            older = "as before line" in answer or "ASID" in answer or "NAPOT" in answer
            self.counts["permitted by an older PTE or satp alone" if older else "permitted as memory is"] += 1
