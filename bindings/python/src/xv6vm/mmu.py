"""A reference MMU with a memory of its own, over the C library or over the program `xv6lab mmu`."""
import contextlib
import enum
import json
import subprocess
from dataclasses import dataclass, field
from types import TracebackType
from typing import Any, Dict, FrozenSet, Iterable, List, Optional, Set, Type, Union

from .codes import WORD, MemoryType, Mode, number
from .hart import Granted, Hart, Judged, Profile, Refused, Request, Update, mstatus
from .memory import Memory

MODES = {Mode.USER: "U", Mode.SUPERVISOR: "S", Mode.MACHINE: "M"}
TYPES = {MemoryType.PMA: "", MemoryType.NC: " nc", MemoryType.IO: " io"}
ASID = 0xFFFF << 44
PROTOCOL = 2


class PmpWrite(enum.Enum):
    """Which registers of a PMP entry a write changes; the others are locked."""

    WRITTEN = "ok"
    ADDRESS_LOCKED = "address locked"
    LOCKED = "locked"


class ProgramFailed(RuntimeError):
    """The program `xv6lab` cannot be run, or ended."""


class Refusal(ValueError):
    """`xv6lab mmu` answers that a line is at fault."""


@dataclass(frozen=True)
class Verdict:
    """Whether the standard permits an outcome. Over the program also the first reason why not, and then the outcomes that it permits;
    over the library the reason is None.

    >>> bool(Verdict(True)), bool(Verdict(False, "by another PTE alone"))
    (True, False)
    >>> print(Verdict(False, "by another PTE alone", frozenset([Refused(13)])))
    NOT permitted: by another PTE alone. Permitted: fault 13
    """

    permitted: bool
    reason: Optional[str] = None
    outcomes: FrozenSet[Judged] = field(default_factory=frozenset)

    def __bool__(self) -> bool:
        return self.permitted

    def __str__(self) -> str:
        if self.permitted:
            return "permitted"
        reason = f": {self.reason}" if self.reason else ""
        return f"NOT permitted{reason}. Permitted: {'; '.join(sorted(outcome_text(it) for it in self.outcomes))}"


# ---- lines of xv6lab mmu


def outcome_text(outcome: Judged) -> str:
    """An outcome as a line has it.

    >>> outcome_text(Granted(0x80010008, MemoryType.IO, Update(0x80003008, 0x200040D7)))
    'pa 0x80010008 io set 0x80003008 0x200040d7'
    """
    told = f"pa {outcome.address:#x}{TYPES[outcome.memory_type]}" if isinstance(outcome, Granted) else f"fault {outcome.cause}"
    return told if outcome.update is None else f"{told} set {outcome.update.address:#x} {outcome.update.word:#x}"


def request_text(request: Request) -> str:
    return f"{request.access.name.lower()} {request.address:#x} {request.width} {MODES[request.mode]}"


def profile_text(profile: Profile) -> str:
    """A profile as a line has it.

    >>> profile_text(Profile(sv48=False, sv57=False, svadu=True, pmp_count=16))
    'profile sv39 ad-either asid16 pmp16'
    """
    words = [it for it in ("sv39", "sv48", "sv57") if getattr(profile, it)]
    if not words:
        raise ValueError("xv6lab mmu needs a hart with one of Sv39, Sv48 and Sv57")
    words += [it for it in ("svnapot", "svpbmt") if getattr(profile, it)]
    words.append("ad-either" if profile.svade == profile.svadu else "svade" if profile.svade else "svadu")
    return " ".join(["profile", *words, f"asid{profile.asid_bits}", f"pmp{profile.pmp_count}"])


def outcome_of(told: Dict[str, Any]) -> Judged:
    """An outcome of an answer in JSON."""
    update = Update(int(told["set"]["place"], 16), int(told["set"]["word"], 16)) if "set" in told else None
    if "fault" in told:
        return Refused(told["fault"], update)
    return Granted(int(told["pa"], 16), MemoryType[told.get("type", "pma").upper()], update)


def outcomes_of(answer: Dict[str, Any]) -> Set[Judged]:
    return {outcome_of(it) for it in answer.get("outcomes", ())}


# ---- over the library


class OfLibrary:
    """A history and a memory, told by calls of the library."""

    def __init__(self, base: int, size: int, words: List[int], profile: Profile) -> None:
        self._hart, self._memory, self._profile = Hart(profile), Memory(base >> 12, size // 8), profile
        self._satp, self._pmp = 0, [(0, 0)] * profile.pmp_count
        for at, word in enumerate(words):
            self._memory.words[at] = word

    def mem(self, address: int, word: int) -> None:
        self._hart.mem(address, self._memory[address], word)
        self._memory[address] = word

    def satp(self, word: int) -> int:
        if self._hart.satp(word):
            self._satp = word & ~(ASID & ASID << self._profile.asid_bits)
        return self._satp

    def fence(self, address: Optional[int], asid: Optional[int]) -> None:
        self._hart.fence(address, asid)

    def status(self, sum: bool, mxr: bool, mprv: bool, mpp: Mode) -> None:
        self._hart.status(mstatus(sum, mxr, mprv, mpp))

    def pmp(self, entry: int, config: int, address: int) -> PmpWrite:
        """Locks are those of 3.7.1: an entry with L; and the address below a TOR entry with L."""
        held_config, held_address = self._pmp[entry]
        if held_config & 0x80:
            return PmpWrite.LOCKED
        above = self._pmp[entry + 1][0] if entry + 1 < len(self._pmp) else 0
        address_locked = above & 0x98 == 0x88
        self._pmp[entry] = (config, held_address if address_locked else address)
        self._hart.pmp(entry, *self._pmp[entry])
        return PmpWrite.ADDRESS_LOCKED if address_locked else PmpWrite.WRITTEN

    def outcomes(self, request: Request) -> Set[Judged]:
        return self._hart.outcomes(self._memory, request)

    def judge(self, request: Request, outcome: Judged) -> Verdict:
        if not self._hart.judge(self._memory, request, outcome):
            return Verdict(False, None, frozenset(self.outcomes(request)))
        if outcome.update is not None:
            self.mem(outcome.update.address, outcome.update.word)
        return Verdict(True, None, frozenset([outcome]))

    def close(self) -> None:
        pass


# ---- over the program


class OfProgram:
    """A program `xv6lab mmu`, told by lines."""

    def __init__(self, program: str, base: int, size: int, words: List[int], profile: Profile) -> None:
        try:
            self._process = subprocess.Popen(
                [program, "mmu", "--json", "-"], stdin=subprocess.PIPE, stdout=subprocess.PIPE, text=True, bufsize=1
            )
        except OSError as error:
            raise ProgramFailed(f"{program} cannot be run: {error.strerror}. `program` is the path of xv6lab.") from None
        self._satp = 0
        try:
            self._begin(base, size, words, profile)
        except BaseException:
            self.close()
            raise

    def _begin(self, base: int, size: int, words: List[int], profile: Profile) -> None:
        protocol = self.ask("version")["protocol"]
        if protocol != PROTOCOL:
            raise ProgramFailed(f"xv6lab mmu speaks protocol {protocol}, and this package {PROTOCOL}")
        self.ask(profile_text(profile))
        if size:
            self.ask(f"ram {base:#x} {size:#x}")
        for at, word in enumerate(words):
            if word:
                self.mem(base + 8 * at, word)
        self.fence(None, None)

    def ask(self, line: str) -> Dict[str, Any]:
        """Sends a line, and returns its answer."""
        told, heard = self._process.stdin, self._process.stdout
        assert told is not None and heard is not None
        try:
            told.write(line + "\n")
            told.flush()
            answer = heard.readline()
        except (OSError, ValueError):
            answer = ""
        if not answer:
            raise ProgramFailed(f"xv6lab mmu ended before it answered {line!r}")
        read: Dict[str, Any] = json.loads(answer)
        if read["answer"] == "error":
            raise Refusal(f"{line}: {read['error']['text']}")
        return read

    def mem(self, address: int, word: int) -> None:
        self.ask(f"mem {address & ~7:#x} {word:#x}")

    def satp(self, word: int) -> int:
        if word >> 60 or not word:
            self._satp = int(self.ask(f"satp {word:#x}")["satp"], 16)
        return self._satp

    def fence(self, address: Optional[int], asid: Optional[int]) -> None:
        self.ask(" ".join(["sfence", *("-" if it is None else f"{it:#x}" for it in (address, asid))]))

    def status(self, sum: bool, mxr: bool, mprv: bool, mpp: Mode) -> None:
        self.ask(f"status {int(sum)} {int(mxr)} {int(mprv)} {MODES[mpp]}")

    def pmp(self, entry: int, config: int, address: int) -> PmpWrite:
        return PmpWrite(self.ask(f"pmp {entry} {config:#x} {address:#x}")["answer"])

    def outcomes(self, request: Request) -> Set[Judged]:
        return outcomes_of(self.ask(request_text(request)))

    def judge(self, request: Request, outcome: Judged) -> Verdict:
        answer = self.ask(f"{request_text(request)} => {outcome_text(outcome)}")
        return Verdict(answer["verdict"] == "permitted", answer.get("reason"), frozenset(outcomes_of(answer)))

    def close(self) -> None:
        for stream in (self._process.stdin, self._process.stdout):
            if stream is not None:
                with contextlib.suppress(OSError):
                    stream.close()
        self._process.wait()


class Mmu:
    """A reference MMU: `size` bytes of memory from the physical address `base` on, and a hart that does what you tell. Both are multiples of
    4,096. `words` are the first words of the memory; the others are 0.

    Without `program` it asks the library, whose judgements take time that grows with the number of events since the last fence of
    everything. With the path of `xv6lab` it asks `xv6lab mmu`, which is for histories of any length, and says why an outcome is not
    permitted. Both answer the same. Close it, or use it in a `with` statement.

    >>> from xv6vm import Access
    >>> with Mmu(0x80000000, 0x1000, words=[0x80000 << 10 | 0xDF]) as mmu:
    ...     satp = mmu.satp(8 << 60 | 0x80000)
    ...     mmu.fence()
    ...     mmu.outcomes(Request(0x40000000, 4, Access.FETCH, Mode.USER))
    {Refused(12)}
    """

    def __init__(
        self, base: int, size: int, profile: Profile = Profile(), words: Iterable[int] = (), program: Optional[str] = None
    ) -> None:
        if base % 4096 or size % 4096:
            raise ValueError(f"the memory is {size:#x} bytes from {base:#x} on, and both must be multiples of 0x1000")
        given = [number(it, WORD, "a word") for it in words]
        if 8 * len(given) > size:
            raise ValueError(f"there are {len(given)} words, and the memory has {size // 8}")
        self._base, self._size, self._pmp_count = number(base, 1 << 56, "base"), size, profile.pmp_count
        self._way: Union[OfLibrary, OfProgram] = (
            OfProgram(program, base, size, given, profile) if program else OfLibrary(base, size, given, profile)
        )

    def __enter__(self) -> "Mmu":
        return self

    def __exit__(self, kind: Optional[Type[BaseException]], error: Optional[BaseException], trace: Optional[TracebackType]) -> None:
        self.close()

    def close(self) -> None:
        """Ends the program, if there is one."""
        self._way.close()

    def mem(self, address: int, word: int) -> None:
        """A word of memory becomes this, by a store of whomever. `address` is a multiple of 8."""
        if address % 8 or not self._base <= address < self._base + self._size:
            raise ValueError(f"{address:#x} is no multiple of 8 inside the memory")
        self._way.mem(address, number(word, WORD, "word"))

    def satp(self, word: int) -> int:
        """satp is written. Returns what it holds then: the old word, if the hart does not write this one."""
        return self._way.satp(number(word, WORD, "word"))

    def fence(self, address: Optional[int] = None, asid: Optional[int] = None) -> None:
        """SFENCE.VMA. None is x0: every address, every ASID."""
        for value, end, name in ((address, WORD, "address"), (asid, 1 << 16, "asid")):
            if value is not None:
                number(value, end, name)
        self._way.fence(address, asid)

    def status(self, sum: bool = False, mxr: bool = False, mprv: bool = False, mpp: Mode = Mode.USER) -> None:
        """The fields of mstatus from now on."""
        self._way.status(sum, mxr, mprv, mpp)

    def pmp(self, entry: int, config: int, address: int) -> PmpWrite:
        """The registers of a PMP entry are written, as far as they are not locked."""
        number(entry, self._pmp_count, "entry"), number(config, 256, "config"), number(address, WORD, "address")
        return self._way.pmp(entry, config, address)

    def outcomes(self, request: Request) -> Set[Judged]:
        """The outcomes of an access that the standard permits."""
        return self._way.outcomes(request)

    def judge(self, request: Request, outcome: Judged) -> Verdict:
        """Whether the standard permits the outcome of an access. If it does, and the hart sets A or D by it, the word is stored."""
        return self._way.judge(request, outcome)
