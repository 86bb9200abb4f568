"""Asks the program about accesses, by the lines of `xv6lab mmu`."""
import re
import subprocess

from memories import START
from regions import OFF
from walk import Fault, Granted

SECONDS = 1200
# How an outcome is told: by what, and what it is; in brackets may follow why.
OUTCOME = re.compile(
    r"(?:walk|bare|not canonical) (?:pa (0x[0-9a-f]+)(?: level \d)?(?: (nc|io))?|fault (\d+))"
    r"(?: set (0x[0-9a-f]+) (0x[0-9a-f]+))?(?: \(.*\))?"
)
BETWEEN = re.compile(r"; (?=(?:walk|held|bare|misaligned|not canonical) )")


class ProgramError(Exception):
    """The program does not answer as its lines say."""


class Questions:
    """The lines for the program, and what it must answer: a text, or None if the answer is what we ask for."""

    def __init__(self):
        self.lines, self.wanted = [], []

    def tell(self, line, answer="ok"):
        self.lines.append(line)
        self.wanted.append(answer)

    def begin(self, profile, memory):
        """Begins anew with a memory. Frames that are no tables are zeros here: no walk reads them (`filler`). Then a full fence:
        what was before is past, so that an access has the outcomes of a walk alone."""
        self.tell(f"profile {profile.words()} pmp{len(memory.pmp)}")
        for first, length in memory.runs():
            self.tell(f"ram {first:#x} {length:#x}")
        for frame, table in memory.tables.items():
            first = START + (frame << 12)
            for index, word in enumerate(table):
                if word:
                    self.tell(f"mem {first + 8 * index:#x} {word:#x}")
        for number, entry in enumerate(memory.pmp):
            if entry != OFF:
                self.tell(f"pmp {number} {entry[0]:#x} {entry[1]:#x}")
        self.tell("sfence")

    def add(self, profile, memory):
        """Asks about each access of a memory. After a write of satp there is a full fence, as the probe has it."""
        self.begin(profile, memory)
        satp, status = 0, None
        for access in memory.accesses:
            if access.satp != satp:
                satp = access.satp
                self.tell(f"satp {satp:#x}", f"satp {satp:#x}")
                self.tell("sfence")
            if access.status != status:
                status = access.status
                self.tell("status " + " ".join(map(str, status)))
            self.tell(f"{access.kind} {access.va:#x} {access.width} {access.mode}", None)

    def text(self):
        return "\n".join([*self.lines, ""])

    def answers_in(self, text):
        """The answers that we ask for, in order; the others must be the wanted ones."""
        answers = text.split("\n")
        if answers.pop() or len(answers) != len(self.wanted):
            raise ProgramError(f"the program gives {len(answers)} answers to {len(self.wanted)} lines")
        for line, answer, wanted in zip(self.lines, answers, self.wanted):
            if wanted is not None and answer != wanted:
                raise ProgramError(f"the program answers `{line}` with `{answer}` in place of `{wanted}`")
        return iter([answer for answer, wanted in zip(answers, self.wanted) if wanted is None])


def asked(program, questions, may_refuse=False):
    """Runs the program on a file of lines, and returns what it prints. With two pipes, each side could wait for the other. The
    status may be 1 if an outcome that the lines tell may be refused."""
    try:
        with open(questions, "rb") as file:
            ran = subprocess.run([program, "mmu", "-"], stdin=file, capture_output=True, timeout=SECONDS)
    except subprocess.TimeoutExpired as slow:
        raise ProgramError(f"{program} does not end within {SECONDS} seconds") from slow
    if ran.returncode > int(may_refuse) or ran.returncode < 0 or ran.stderr:
        raise ProgramError(f"{program} ends with status {ran.returncode}: {ran.stderr.decode()[:2000]}")
    return ran.stdout.decode()


def outcomes_of(answer):
    """The outcomes by memory as it is that an answer lists, as a set. Others may be listed: that a hart holds another PTE of a
    NAPOT range (chapter 5). None: a wrong program may permit nothing."""
    return set() if answer == "none" else {outcome_of(part, answer) for part in BETWEEN.split(answer) if not part.startswith("held ")}


def outcome_of(part, answer):
    fields = OUTCOME.fullmatch(part)
    if fields is None:
        raise ProgramError(f"the program answers an access with `{answer}`")
    pa, type_, cause, place, word = fields.groups()
    update = (int(place, 16), int(word, 16)) if place else None
    return Fault(int(cause), update) if cause else Granted(int(pa, 16), type_ or "", update)
