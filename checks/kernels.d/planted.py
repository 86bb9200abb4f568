"""Changes of expected values in a generated program."""
import dataclasses
import re
from typing import Callable


@dataclasses.dataclass(frozen=True)
class Change:
    """A sort of step in programs of a kind: its call, of which group 1 is the step, and what comes in place of the last group."""

    name: str
    kind: str
    call: str
    replaced: Callable


def last_digit(number):
    """The same number but for its lowest bit."""
    return f"{int(number, 16) ^ 1:#x}"


def other_byte(digits):
    """Flips a bit of the last byte."""
    return digits[:-1] + f"{int(digits[-1], 16) ^ 1:x}"


CHANGES = [
    Change("the value of a load", "cow", r"ld\((\d+), .*?, \d, (0x\w+)\)", last_digit),
    Change("the value of a load in a mapping", "mmap", r"ld\((\d+), M.*?, \d, (0x\w+)\)", last_digit),
    Change("the value of a load in a child", "cow", r"peek\((\d+), .*?, \d, \d, 0x\w+, \d+, (0x\w+)\)", last_digit),
    Change("the old size of the heap", "lazy", r"grow\((\d+), -?\d+, (0x\w+)\)", last_digit),
    Change("an address that is denied", "mixed", r"denied\((\d+), \d, (.*?), \d\)", lambda _: "(uint64)buf"),
    Change("a byte that write() takes", "cow", r'in\((\d+), .*?"(\w+)"\)', other_byte),
    Change("how many bytes are copied", "lazy", r"out\((\d+), \d, .*?, (?P<n>\d+), \d+, ((?P=n))\)", lambda it: str(int(it) - 1)),
    Change("the status of a child", "cow", r"reap\((\d+), \d, (\d+)\)", lambda it: str(int(it) + 1)),
    Change("whether mmap succeeds", "mmap", r"map\((\d+), .*?, (1)\);", lambda _: "0"),
    Change("whether mmap fails", "mmap", r"map\((\d+), .*?, (0)\);", lambda _: "1"),
    Change("a byte of a file", "mmap", r'show\((\d+), .*?"(\w+)"\)', other_byte),
    Change("how many pages are in use", "lazy", r"used\((\d+), \d+, (\d+)\)", lambda _: "-1000"),
]


def changed(change, text):
    """The text with one change, the test in which it is, and its step; None if there is no such step."""
    found = list(re.finditer(r"(?<=^  )" + change.call, text, re.M))
    if not found:
        return None
    it = found[len(found) // 2]
    at = it.lastindex
    kind, seed = re.findall(r"^static void ([a-z]+)(\d+)_", text[: it.start()], re.M)[-1]
    return text[: it.start(at)] + change.replaced(it[at]) + text[it.end(at) :], f"{kind}-{seed}", it[1]
