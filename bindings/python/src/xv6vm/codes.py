"""The numbers of the C library as enums."""
import enum
from dataclasses import fields
from typing import Any, List


class Named(enum.IntEnum):
    """A number that is written by its name."""

    def __str__(self) -> str:
        return f"{type(self).__name__}.{self.name}"


class Access(Named):
    """The kind of an access."""

    FETCH = 0
    LOAD = 1
    STORE = 2


class Mode(Named):
    """A privilege mode. Machine mode is of a `Hart` and of an `Mmu` alone."""

    USER = 0
    SUPERVISOR = 1
    MACHINE = 3


class Status(Named):
    """How a walk or a call of a TLB ended."""

    LEAF = 0
    PAGE_FAULT = 1
    ACCESS_FAULT = 2
    BARE = 3
    NO_LEAF = 4
    NO_ENTRY = 5
    UNKNOWN = 6
    FULL = 7


class Step(Named):
    """The step of the standard's 4.3.2 at which an access faults."""

    NOT_CANONICAL = 0
    """No step: the address is not canonical (4.4.1, 4.5.1). A page fault."""
    TABLE_OUTSIDE = 2
    """The page table entry (PTE) is outside the memory. An access fault."""
    INVALID = 3
    """V is clear, or W is set without R, or a reserved bit is set. A page fault, as all below but the last."""
    NO_LEAF = 4
    """A pointer at level 0."""
    NOT_GRANTED = 5
    """R, W, X and U of the leaf do not grant the access."""
    MISALIGNED = 6
    """The leaf is a misaligned superpage."""
    NOT_MARKED = 7
    """A of the leaf is clear, or D at a store."""
    BYTE_OUTSIDE = 8
    """The byte is outside the memory. An access fault."""


class MemoryType(Named):
    """The memory type of an access, by Svpbmt: by the attributes of the physical address, non-cacheable, I/O."""

    PMA = 0
    NC = 1
    IO = 2


class ScriptFault(Named):
    """Why a line of a script is at fault."""

    TOO_LONG = 1
    NOT_ASCII = 2
    WORD = 3
    ORDER = 4
    COUNT = 5
    NUMBER = 6
    FIELD = 7
    LIMITS = 8
    TOO_MANY = 9


WORD = 1 << 64


def number(value: int, end: int, name: str) -> int:
    """A number below an end; ctypes would cut it off."""
    if not 0 <= value < end:
        raise ValueError(f"{name} is {value:#x}, and must be at least 0 and below {end:#x}")
    return value


def text_of(record: Any) -> str:
    """A dataclass as it is written, with addresses and words in hexadecimal digits, and without fields that have their default."""
    told: List[str] = []
    for it in fields(record):
        value = getattr(record, it.name)
        if value == it.default:
            continue
        name = "" if len(told) == fields(record).index(it) else f"{it.name}="
        shown = hex(value) if it.name in ("address", "word", "byte") else str(value) if isinstance(value, enum.Enum) else repr(value)
        told.append(name + shown)
    return f"{type(record).__name__}({', '.join(told)})"
