"""A proved reference for RISC-V MMUs: walks of Sv39 and Sv48, and a judge that says whether an outcome is one that the standard permits
after what happened at a hart. What the C library and the program `xv6lab` answer is proved, this package is tested.

`Mmu` is the judge with a memory of its own, over the library or over the program. `Memory`, `Tlb` and `Hart` are the calls of the library
over memory of yours; `Regions` are several runs of it, and `translate_by` asks a function of yours for each word. `Script` plays a script of xv6's virtual memory.

>>> from xv6vm import Access, Granted, Mmu, Mode, Request
>>> mmu = Mmu(0x80000000, 0x3000)
>>> for place, word in ((0x80000000, 0x20000401), (0x80001000, 0x20000801), (0x80002000, 0x200000D7)):
...     mmu.mem(place, word)
>>> hex(mmu.satp(8 << 60 | 0x80000))
'0x8000000000080000'
>>> mmu.fence()
>>> load = Request(0x8, 8, Access.LOAD, Mode.USER)
>>> mmu.outcomes(load) == {Granted(0x80000008)}
True
>>> bool(mmu.judge(load, Granted(0x80001008)))
False
"""
from ._library import LibraryNotFound
from .codes import Access, MemoryType, Mode, ScriptFault, Status, Step
from .hart import Granted, Hart, Judged, Profile, Refused, Request, Update, mstatus
from .memory import Leaf, Memory, NoAnswer, Outcome, Question, Tlb
from .mmu import Mmu, PmpWrite, ProgramFailed, Refusal, Verdict
from .script import Script, ScriptError
from .walk import Reason, Regions, Translation, Walk, translate_by

__version__ = "0.9.0"
__all__ = [
    "Access", "Granted", "Hart", "Judged", "Leaf", "LibraryNotFound", "Memory", "MemoryType", "Mmu", "Mode", "NoAnswer", "Outcome",
    "PmpWrite", "Profile", "ProgramFailed", "Question", "Reason", "Refusal", "Refused", "Regions", "Request", "Script", "ScriptError",
    "ScriptFault", "Status", "Step", "Tlb", "Translation", "Update", "Verdict", "Walk", "mstatus", "translate_by",
]
