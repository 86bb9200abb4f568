"""What the standard permits, given what happened at a hart."""
import ctypes
from dataclasses import dataclass
from typing import Any, Callable, Optional, Set, Union

from ._library import RawAccess, RawEvent, RawHart, RawJudged, library
from .codes import WORD, Access, MemoryType, Mode, Status, number, text_of
from .memory import Memory, argument_pair

WIDTHS = (1, 2, 4, 8)
PMP_COUNTS = (0, 16, 64)
BITS = {"svnapot": 1, "svpbmt": 2, "svade": 4, "svadu": 8, "sv39": 256, "sv48": 512, "sv57": 1024}


@dataclass(frozen=True)
class Profile:
    """Which schemes and extensions a hart has. With both or none of `svade` and `svadu`, a leaf without A, or without D at a store, may be
    a page fault or be updated, at each access anew."""

    sv39: bool = True
    sv48: bool = True
    sv57: bool = True
    svnapot: bool = False
    svpbmt: bool = False
    svade: bool = True
    svadu: bool = False
    asid_bits: int = 16
    pmp_count: int = 0

    def __post_init__(self) -> None:
        number(self.asid_bits, 17, "asid_bits")
        if self.pmp_count not in PMP_COUNTS:
            raise ValueError(f"pmp_count is {self.pmp_count}, and must be 0, 16 or 64")

    def bits(self) -> int:
        return sum(bit for name, bit in BITS.items() if getattr(self, name))


def mstatus(sum: bool = False, mxr: bool = False, mprv: bool = False, mpp: Mode = Mode.USER) -> int:
    """mstatus with these fields, and all others 0.

    >>> hex(mstatus(sum=True, mpp=Mode.SUPERVISOR))
    '0x40800'
    """
    return bool(sum) << 18 | bool(mxr) << 19 | bool(mprv) << 17 | mpp << 11


@dataclass(frozen=True)
class Request:
    """An access: its virtual address, its width of 1, 2, 4 or 8 bytes, its kind, and the hart's own privilege mode."""

    address: int
    width: int
    access: Access
    mode: Mode

    __repr__ = text_of

    def __post_init__(self) -> None:
        number(self.address, WORD, "address")
        if self.width not in WIDTHS:
            raise ValueError(f"width is {self.width}, and must be 1, 2, 4 or 8")
        Access(self.access), Mode(self.mode)

    def _raw(self) -> RawAccess:
        return RawAccess(self.address, self.width, self.access, self.mode)


@dataclass(frozen=True)
class Update:
    """A page table entry that the hart writes to set A or D: its physical address, a multiple of 8, and the word that is written."""

    address: int
    word: int

    __repr__ = text_of

    def __post_init__(self) -> None:
        number(self.address, WORD, "address"), number(self.word, WORD, "word")
        if self.address % 8:
            raise ValueError(f"the address of an update is {self.address:#x}, and must be a multiple of 8")


@dataclass(frozen=True)
class Granted:
    """The access is made at this physical address."""

    address: int
    memory_type: MemoryType = MemoryType.PMA
    update: Optional[Update] = None

    __repr__ = text_of

    def __post_init__(self) -> None:
        number(self.address, WORD, "address"), MemoryType(self.memory_type)


@dataclass(frozen=True)
class Refused:
    """An exception, by its code, as in scause."""

    cause: int
    update: Optional[Update] = None

    __repr__ = text_of

    def __post_init__(self) -> None:
        number(self.cause, WORD, "cause")


Judged = Union[Granted, Refused]
GRANTED, REFUSED = 0, 1


def raw_of(outcome: Judged) -> RawJudged:
    raw = RawJudged()
    if isinstance(outcome, Granted):
        raw.status, raw.address, raw.memory_type = GRANTED, outcome.address, outcome.memory_type
    else:
        raw.status, raw.cause = REFUSED, outcome.cause
    if outcome.update is not None:
        raw.updates, raw.table, raw.index = 1, outcome.update.address >> 12, outcome.update.address % 4096 >> 3
        raw.word = outcome.update.word
    return raw


def judged_of(raw: RawJudged) -> Judged:
    update = Update(raw.table << 12 | raw.index << 3, raw.word) if raw.updates else None
    if raw.status == REFUSED:
        return Refused(raw.cause, update)
    return Granted(raw.address, MemoryType(raw.memory_type), update)


class Hart:
    """A hart's history: what happened to its page tables, satp and PMP since the last fence of everything.

    Its list of events grows as needed; a fence of everything empties it. A judgement takes time that grows with the square of the number
    of events. `memory` is as it is now: change it after `mem`.

    >>> memory, hart = Memory(0x80000, 3 * 512), Hart()
    >>> memory[0x80000000], memory[0x80001000], memory[0x80002000] = 0x20000401, 0x20000801, 0x200000D7
    >>> hart.satp(8 << 60 | 0x80000)
    True
    >>> hart.fence()
    >>> hart.mem(0x80002000, memory[0x80002000], 0x200004D7)
    >>> memory[0x80002000] = 0x200004D7
    >>> load = Request(0, 8, Access.LOAD, Mode.USER)
    >>> hart.judge(memory, load, Granted(0x80000000))
    True
    >>> hart.fence(0)
    >>> hart.judge(memory, load, Granted(0x80000000))
    False
    >>> hart.outcomes(memory, load)
    {Granted(0x80001000)}
    """

    def __init__(self, profile: Profile = Profile()) -> None:
        self._raw, self._events = RawHart(), (RawEvent * 0)()
        library().calls.xv6vm_hart_begin(self._raw, profile.bits(), profile.asid_bits, profile.pmp_count)

    @property
    def events(self) -> int:
        """The number of events since the last fence of everything."""
        return min(int(self._raw.count), len(self._events))

    def _tell(self, call: Callable[..., int], *arguments: int) -> int:
        """Calls until there is room for the event."""
        while True:
            status = call(self._raw, self._events, len(self._events), *arguments)
            if status != Status.FULL:
                return status
            more = (RawEvent * max(16, 2 * len(self._events)))()
            ctypes.memmove(more, self._events, ctypes.sizeof(self._events))
            self._events = more

    def status(self, mstatus: int) -> None:
        """mstatus from now on, as the register has it: SUM, MXR, MPRV and MPP count."""
        library().calls.xv6vm_hart_status(self._raw, number(mstatus, WORD, "mstatus"))

    def mem(self, address: int, before: int, word: int) -> None:
        """A word of memory changes, by whomever. Words of page tables matter, and those that were or will be."""
        number(address, WORD, "address"), number(before, WORD, "before"), number(word, WORD, "word")
        self._tell(library().calls.xv6vm_hart_mem, address, before, word)

    def satp(self, word: int) -> bool:
        """satp is written. False if the hart does not write the word, when nothing changes."""
        return self._tell(library().calls.xv6vm_hart_satp, number(word, WORD, "word")) == 0

    def pmp(self, entry: int, config: int, address: int) -> None:
        """The registers of a PMP entry become these. Locks are the caller's matter: tell what the registers have."""
        number(entry, WORD, "entry"), number(config, 256, "config"), number(address, WORD, "address")
        self._tell(library().calls.xv6vm_hart_pmp, entry, config, address)

    def fence(self, address: Optional[int] = None, asid: Optional[int] = None) -> None:
        """SFENCE.VMA. None is x0: every address, every ASID."""
        pair = (*argument_pair(address, WORD, "address"), *argument_pair(asid, 1 << 16, "asid"))
        self._tell(library().calls.xv6vm_hart_fence, *pair)

    def _asked(self, memory: Memory, request: Request) -> Any:
        events, words = self._events, memory.words
        return self._raw, events, len(events), words, len(words), memory.base_ppn, request._raw()

    def judge(self, memory: Memory, request: Request, outcome: Judged) -> bool:
        """Whether the standard permits the outcome of the access, given the history; or, if it is misaligned, that fault of its first or last byte."""
        return bool(library().calls.xv6vm_hart_judge(*self._asked(memory, request), raw_of(outcome)) == 1)

    def outcomes(self, memory: Memory, request: Request) -> Set[Judged]:
        """The outcomes that the standard permits."""
        places, listed = 8, ctypes.c_size_t(0)
        while True:
            found = (RawJudged * places)()
            library().calls.xv6vm_hart_outcomes(*self._asked(memory, request), found, places, listed)
            if listed.value <= places:
                return {judged_of(it) for it in found[: listed.value]}
            places *= 2
