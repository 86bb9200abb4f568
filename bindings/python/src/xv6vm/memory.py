"""Physical memory, walks over it, and a TLB of whole walks."""
import ctypes
from dataclasses import dataclass
from typing import Any, Iterable, List, Optional, Tuple, Union

from ._library import RawEntry, RawOutcome, library
from .codes import WORD, Access, Mode, Status, number, text_of


class NoAnswer(ValueError):
    """A call has no answer for these arguments. `status` says why."""

    def __init__(self, status: Status, text: str) -> None:
        super().__init__(text)
        self.status = status


@dataclass(frozen=True)
class Outcome:
    """The outcome of the translation of an access. What does not belong to its status is 0."""

    status: Status
    level: int = 0
    word: int = 0
    address: int = 0
    cause: int = 0

    __repr__ = text_of


@dataclass(frozen=True)
class Leaf:
    """The leaf that a walk finds: its level, its page table entry, the physical address, and whether it or a pointer on the way has G."""

    level: int
    word: int
    address: int
    is_global: bool

    __repr__ = text_of


UNKNOWN = {
    1: "the access is none of FETCH, LOAD and STORE",
    2: "the mode is neither USER nor SUPERVISOR",
    3: "satp has a MODE other than 0 (Bare), 8 (Sv39) and 9 (Sv48)",
}
NO_WALK = {
    Status.ACCESS_FAULT: "a word of a page table is outside the memory",
    Status.BARE: "satp has MODE 0, so there is no page table",
    Status.UNKNOWN: UNKNOWN[3],
}


def outcome_of(raw: RawOutcome) -> Outcome:
    status = Status(raw.status)
    if status == Status.UNKNOWN:
        raise NoAnswer(status, UNKNOWN.get(raw.cause, "an argument has no meaning"))
    return Outcome(status, raw.level, raw.word, raw.address, raw.cause)


def argument_pair(value: Optional[int], end: int, name: str) -> Tuple[int, int]:
    """What stands for a number beside a flag that says whether it counts."""
    return (0, 0) if value is None else (1, number(value, end, name))


class Memory:
    """Physical memory: one run of 64-bit words from page `base_ppn` on, 512 words a page. All else is outside it: `Regions` are several runs,
    and `translate_by` is for memory behind a call of yours. `words` is the number of words, all 0 at first, or the words. An item is the word
    at a physical address, of which the low 3 bits do not count.

    >>> memory = Memory(0x80000, 512)
    >>> memory[0x80000000] = 0x80000 << 10 | 0xDF
    >>> memory.translate(8 << 60 | 0x80000, 0x123, Access.LOAD, Mode.USER)
    Outcome(Status.LEAF, 2, 0x200000df, 0x80000123)
    >>> memory.lookup(8 << 60 | 0x80000, 1 << 30) is None
    True
    """

    def __init__(self, base_ppn: int, words: Union[int, Iterable[int]]) -> None:
        if isinstance(words, (bytes, bytearray, memoryview)):
            raise TypeError("these are bytes, and `words` is a number of words or the words: Memory.over(base_ppn, bytearray(..)) takes bytes")
        self.base_ppn = number(base_ppn, WORD, "base_ppn")
        given = [] if isinstance(words, int) else [number(it, WORD, "a word") for it in words]
        self.words = (ctypes.c_uint64 * (words if isinstance(words, int) else len(given)))(*given)

    @classmethod
    def over(cls, base_ppn: int, buffer: Any) -> "Memory":
        """Lends a buffer that can be written, as a bytearray or an array, without a copy: the words are those that it has now. Its length is
        a multiple of 8.

        >>> ram = bytearray(4096)
        >>> memory = Memory.over(0x80000, ram)
        >>> ram[8] = 0xFF
        >>> memory[0x80000008]
        255
        """
        bytes_ = memoryview(buffer).nbytes
        if bytes_ % 8:
            raise ValueError(f"the buffer has {bytes_} bytes, and must have a multiple of 8")
        memory = cls(base_ppn, 0)
        memory.words = (ctypes.c_uint64 * (bytes_ // 8)).from_buffer(buffer)
        if ctypes.addressof(memory.words) % 8:
            raise ValueError("the buffer does not begin at a multiple of 8 bytes in the host's memory")
        return memory

    def index(self, address: int) -> int:
        """The number of the word at a physical address, of which the low 3 bits do not count."""
        at = (address >> 3) - 512 * self.base_ppn
        if not 0 <= at < len(self.words):
            raise IndexError(f"{address:#x} is outside the memory")
        return at

    def __contains__(self, address: int) -> bool:
        return 0 <= (address >> 3) - 512 * self.base_ppn < len(self.words)

    def __getitem__(self, address: int) -> int:
        return int(self.words[self.index(address)])

    def __setitem__(self, address: int, word: int) -> None:
        self.words[self.index(address)] = number(word, WORD, "a word")

    def read(self, address: int) -> Optional[int]:
        """The word at a physical address, of which the low 3 bits do not count; None if it is outside the memory."""
        at = (address >> 3) - 512 * self.base_ppn
        return int(self.words[at]) if 0 <= at < len(self.words) else None

    def translate(self, satp: int, address: int, access: Access, mode: Mode) -> Outcome:
        """Translates the address of an access by the page table in `satp`, with SUM and MXR 0. One byte is looked for."""
        number(satp, WORD, "satp"), number(address, WORD, "address")
        raw = library().calls.xv6vm_translate(self.words, len(self.words), self.base_ppn, satp, address, access, mode)
        return outcome_of(raw)

    def lookup(self, satp: int, address: int) -> Optional[Leaf]:
        """Walks to an address, and returns the leaf, whatever its rights; None if there is none."""
        number(satp, WORD, "satp"), number(address, WORD, "address")
        raw = library().calls.xv6vm_lookup(self.words, len(self.words), self.base_ppn, satp, address)
        status = Status(raw.status)
        if status in NO_WALK:
            raise NoAnswer(status, NO_WALK[status])
        return Leaf(raw.level, raw.word, raw.address, raw.is_global != 0) if status == Status.LEAF else None


@dataclass(frozen=True)
class Question:
    """What `Tlb.permits_of` is asked of: an access, with its memory as it is now, and satp."""

    memory: Memory
    satp: int
    address: int
    access: Access
    mode: Mode


class Tlb:
    """A TLB of whole walks. It is a model of such a TLB, and judges none that caches pointers or superpages: that is for `Hart`.

    >>> memory, satp = Memory(0x80000, 512), 8 << 60 | 7 << 44 | 0x80000
    >>> memory[0x80000000] = 0x80000 << 10 | 0xDF
    >>> tlb = Tlb(4)
    >>> tlb.fill(memory, satp, 0)
    >>> memory[0x80000000] = 0
    >>> tlb.match(0, 0x123, 7)
    3
    >>> hex(tlb.use(3, 0x123, 7, Access.LOAD, Mode.USER).address)
    '0x80000123'
    >>> tlb.fence()
    >>> tlb.match(0, 0x123, 7) is None
    True
    """

    def __init__(self, places: int) -> None:
        self.places = (RawEntry * places)()

    def entries(self) -> List[RawEntry]:
        """The places, with the fields of the C struct; they may be written."""
        return list(self.places)

    def fill(self, memory: Memory, satp: int, address: int) -> None:
        """Walks to an address, and adds what the walk finds, a leaf or none, as the newest entry, in the last place."""
        number(satp, WORD, "satp"), number(address, WORD, "address")
        status = Status(
            library().calls.xv6vm_tlb_fill(
                self.places, len(self.places), memory.words, len(memory.words), memory.base_ppn, satp, address
            )
        )
        if status != Status.LEAF:
            raise NoAnswer(status, NO_WALK[status])

    def match(self, first: int, address: int, asid: int) -> Optional[int]:
        """The first place from `first` on whose entry serves an address under an ASID."""
        number(first, WORD, "first"), number(address, WORD, "address"), number(asid, 1 << 16, "asid")
        place = int(library().calls.xv6vm_tlb_match(self.places, len(self.places), first, address, asid))
        return place if place < len(self.places) else None

    def use(self, place: int, address: int, asid: int, access: Access, mode: Mode) -> Outcome:
        """Translates an access by the entry in a place, whose rights are judged now. The status is NO_ENTRY if it does not match."""
        number(place, WORD, "place"), number(address, WORD, "address"), number(asid, 1 << 16, "asid")
        return outcome_of(library().calls.xv6vm_tlb_use(self.places, len(self.places), place, address, asid, access, mode))

    def evict(self, place: int) -> None:
        """Empties a place, as hardware may at any time."""
        library().calls.xv6vm_tlb_evict(self.places, len(self.places), number(place, WORD, "place"))

    def fence(self, address: Optional[int] = None, asid: Optional[int] = None) -> None:
        """SFENCE.VMA. None is x0: every address, every ASID."""
        pair = (*argument_pair(address, WORD, "address"), *argument_pair(asid, 1 << 16, "asid"))
        library().calls.xv6vm_tlb_fence(self.places, len(self.places), *pair)

    def permits(self, memory: Memory, satp: int, address: int, access: Access, mode: Mode, outcome: Outcome) -> bool:
        """Whether an outcome is that of the walk over the memory now, or of an entry that matches. All its numbers count."""
        number(satp, WORD, "satp"), number(address, WORD, "address")
        raw = RawOutcome(outcome.status, outcome.level, outcome.word, outcome.address, outcome.cause)
        answer = library().calls.xv6vm_permits(
            self.places, len(self.places), memory.words, len(memory.words), memory.base_ppn, satp, address, access, mode, raw
        )
        return bool(answer == 1)

    def permits_of(self, question: Question, outcome: Outcome) -> bool:
        """`permits`, of a question.

        >>> memory = Memory(0x80000, [0x80000 << 10 | 0x53])
        >>> question = Question(memory, 8 << 60 | 0x80000, 0, Access.STORE, Mode.USER)
        >>> Tlb(4).permits_of(question, Outcome(Status.PAGE_FAULT, cause=15))
        True
        """
        it = question
        return self.permits(it.memory, it.satp, it.address, it.access, it.mode, outcome)
