"""The shared library: where it is, its structs and its calls."""
import ctypes
import ctypes.util
import os
import pathlib
from ctypes import POINTER, Structure, c_char_p, c_size_t, c_uint8, c_uint16, c_uint32, c_uint64
from typing import Any, List, Optional, Tuple

VARIABLE, NAME = "XV6VM_LIBRARY", "libxv6vm.so"


class LibraryNotFound(OSError):
    """There is no libxv6vm.so, or it cannot be loaded, or it lacks a call."""


class RawOutcome(Structure):
    _fields_ = [("status", c_uint32), ("level", c_uint32), ("word", c_uint64), ("address", c_uint64), ("cause", c_uint64)]


class RawLeaf(Structure):
    _fields_ = [("status", c_uint32), ("level", c_uint32), ("word", c_uint64), ("address", c_uint64), ("is_global", c_uint64)]


class RawEntry(Structure):
    _fields_ = [
        ("address", c_uint64), ("word", c_uint64), ("level", c_uint32), ("asid", c_uint16), ("is_global", c_uint8), ("kind", c_uint8),
    ]


class RawReached(Structure):
    _fields_ = [
        ("status", c_uint32), ("level", c_uint32), ("table", c_uint64), ("index", c_uint64), ("place", c_uint64), ("word", c_uint64),
        ("cause", c_uint64), ("step", c_uint64),
    ]


class RawWalk(Structure):
    _fields_ = [("satp", c_uint64), ("address", c_uint64), ("access", c_uint32), ("mode", c_uint32), ("at", RawReached)]


class RawEvent(Structure):
    _fields_ = [("kind", c_uint64), ("key", c_uint64), ("value", c_uint64), ("other", c_uint64)]


class RawPmp(Structure):
    _fields_ = [("config", c_uint64), ("address", c_uint64)]


class RawHart(Structure):
    _fields_ = [
        ("profile", c_uint32), ("asid_bits", c_uint32), ("mstatus", c_uint64), ("satp", c_uint64), ("pmp_count", c_uint64),
        ("count", c_uint64), ("pmp", RawPmp * 64),
    ]


class RawAccess(Structure):
    _fields_ = [("address", c_uint64), ("width", c_uint64), ("access", c_uint32), ("mode", c_uint32)]


class RawJudged(Structure):
    _fields_ = [
        ("status", c_uint32), ("memory_type", c_uint32), ("address", c_uint64), ("cause", c_uint64), ("updates", c_uint64),
        ("table", c_uint64), ("index", c_uint64), ("word", c_uint64),
    ]


class RawPlayed(Structure):
    _fields_ = [("status", c_uint32), ("cause", c_uint32), ("line", c_uint64)]


MEMORY = [POINTER(c_uint64), c_size_t, c_uint64]
TLB = [POINTER(RawEntry), c_size_t]
EVENTS = [POINTER(RawHart), POINTER(RawEvent), c_size_t]

# A call: what it returns, and what it takes.
CALLS: List[Tuple[str, Any, List[Any]]] = [
    ("xv6vm_translate", RawOutcome, [*MEMORY, c_uint64, c_uint64, c_uint32, c_uint32]),
    ("xv6vm_lookup", RawLeaf, [*MEMORY, c_uint64, c_uint64]),
    ("xv6vm_tlb_fill", c_uint32, [*TLB, *MEMORY, c_uint64, c_uint64]),
    ("xv6vm_tlb_match", c_size_t, [*TLB, c_size_t, c_uint64, c_uint16]),
    ("xv6vm_tlb_use", RawOutcome, [*TLB, c_size_t, c_uint64, c_uint16, c_uint32, c_uint32]),
    ("xv6vm_tlb_evict", None, [*TLB, c_size_t]),
    ("xv6vm_tlb_fence", None, [*TLB, c_uint32, c_uint64, c_uint32, c_uint16]),
    ("xv6vm_permits", c_uint32, [*TLB, *MEMORY, c_uint64, c_uint64, c_uint32, c_uint32, RawOutcome]),
    ("xv6vm_walk_begin", None, [POINTER(RawWalk), c_uint64, c_uint64, c_uint32, c_uint32]),
    ("xv6vm_walk_next", None, [POINTER(RawWalk), c_uint32, c_uint64]),
    ("xv6vm_hart_begin", None, [POINTER(RawHart), c_uint32, c_uint32, c_uint32]),
    ("xv6vm_hart_status", None, [POINTER(RawHart), c_uint64]),
    ("xv6vm_hart_mem", c_uint32, [*EVENTS, c_uint64, c_uint64, c_uint64]),
    ("xv6vm_hart_satp", c_uint32, [*EVENTS, c_uint64]),
    ("xv6vm_hart_pmp", c_uint32, [*EVENTS, c_size_t, c_uint8, c_uint64]),
    ("xv6vm_hart_fence", c_uint32, [*EVENTS, c_uint32, c_uint64, c_uint32, c_uint16]),
    ("xv6vm_hart_judge", c_uint32, [*EVENTS, *MEMORY, POINTER(RawAccess), POINTER(RawJudged)]),
    ("xv6vm_hart_outcomes", c_uint32, [*EVENTS, *MEMORY, POINTER(RawAccess), POINTER(RawJudged), c_size_t, POINTER(c_size_t)]),
]
PLAY: Tuple[str, Any, List[Any]] = (
    "xv6vm_play", RawPlayed, [c_char_p, c_size_t, c_char_p, c_size_t, POINTER(c_size_t)],
)


def places() -> List[str]:
    """Where the library may be: where the variable says; if it is not set, in the package, and where the system looks."""
    given = os.environ.get(VARIABLE)
    if given:
        return [str(pathlib.Path(given) / NAME) if os.path.isdir(given) else given]
    packaged = pathlib.Path(__file__).parent / NAME
    system = ctypes.util.find_library("xv6vm")
    return [*([str(packaged)] if packaged.is_file() else []), *([system] if system else [])]


def has_call(library: Any, call: Tuple[str, Any, List[Any]]) -> bool:
    """Declares a call, and says whether the library has it."""
    name, result, arguments = call
    function = getattr(library, name, None)
    if function is None:
        return False
    function.restype, function.argtypes = result, arguments
    return True


class Library:
    """The calls. Those that take memory keep Python's lock, so that no other thread writes the memory meanwhile; `play` does not."""

    def __init__(self, path: str) -> None:
        try:
            self.path, self.calls, self._free = path, ctypes.PyDLL(path), ctypes.CDLL(path)
        except OSError as error:
            raise LibraryNotFound(f"{path} cannot be loaded: {error}. {VARIABLE} is the path of {NAME}, or of its folder.") from None
        for call in CALLS:
            if not has_call(self.calls, call):
                raise LibraryNotFound(f"{path} has no {call[0]}: it is no library of this package's version")
        self.has_play = has_call(self._free, PLAY)

    def play(self, *arguments: Any) -> Any:
        if not self.has_play:
            raise LibraryNotFound(f"{self.path} has no xv6vm_play: it was linked with --walks")
        return self._free.xv6vm_play(*arguments)


_loaded: Optional[Library] = None


def library() -> Library:
    """The library, which is loaded when it is first asked for."""
    global _loaded
    if _loaded is None:
        found = places()
        if not found:
            raise LibraryNotFound(
                f"there is no {NAME}: set {VARIABLE} to its path or to its folder, or install a wheel that contains it. "
                "release/shared_library makes it. Mmu(.., program=\"xv6lab\") needs no library."
            )
        _loaded = Library(found[0])
    return _loaded
