"""Scripts of xv6's virtual memory."""
import ctypes
from typing import Union

from ._library import library
from .codes import ScriptFault

PLAYED, NO_MEMORY, FAULT, NO_ROOM = 0, 21, 23, 25


class ScriptError(ValueError):
    """A script is at fault: `line` is the first line at fault, from 1 (0 is the script as a whole), and `cause` says why."""

    def __init__(self, line: int, cause: ScriptFault) -> None:
        super().__init__(f"line {line} is at fault: {cause.name}")
        self.line, self.cause = line, cause


class Script:
    """A script: the lines that `xv6vm play` takes.

    >>> lines = ["image 0x1000:0x1000:rw:61", "boot 1 64 2 full", "start 0", "on 0 0", "load 0 0x1000 1"]
    >>> Script("\\n".join(lines) + "\\n").play().split("\\n")
    ['ok', 'slot 0', 'ok', 'value 0x61', '']
    """

    def __init__(self, text: Union[str, bytes]) -> None:
        self.text = text.encode() if isinstance(text, str) else bytes(text)

    def play(self) -> str:
        """Plays it on a machine that lives as long as the call, and returns its text, a line for each answer."""
        capacity, written = 4096, ctypes.c_size_t(0)
        while True:
            room = ctypes.create_string_buffer(capacity)
            played = library().play(self.text, len(self.text), room, capacity, written)
            if played.status == PLAYED:
                return room.raw[: written.value].decode("ascii")
            if played.status == NO_MEMORY:
                raise MemoryError("the host is out of memory")
            if played.status != NO_ROOM:
                raise ScriptError(played.line, ScriptFault(played.cause))
            capacity = written.value
