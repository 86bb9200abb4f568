"""A second model of the machine: what the program must print for a script.

The model was written from a description of the machine alone, without a look at the code or at the definitions that
the code is proved against. It has no page tables and no frames: a process is its runs of pages and, for each settled
page, its bytes, a copy number, a fork mark and a stored mark. Frames are counted by the tables that a set of pages needs
and by the copy numbers that are different.
`answer(bytes)` returns the standard output, standard error and status that the program must give for a script.
"""
import collections
import re

PAGE = 4096
WORD = 1 << 64

# ---------------------------------------------------------------- the limits

HARTS, SLOTS, BUFFER = 8, 64, 32
FEWEST_FRAMES, FRAMES = 16, 1024
SEGMENTS, MAPPINGS, FILES = 16, 16, 16
LONGEST_IMAGE, LONGEST_MAPPING, LONGEST_FILE, LONGEST_COPY = 1 << 20, 1 << 20, 1 << 16, 256
IMAGES, LINES = 64, 100000

# ---------------------------------------------------------------- the model: images

Page = collections.namedtuple("Page", "bytes number fork stored")
Segment = collections.namedtuple("Segment", "vaddr memsz flags bytes")
Mapping = collections.namedtuple("Mapping", "first count rights shared file offset")
REFUSALS = {"NoFrame": 9, "NoSlot": 10, "BadImage": 12, "BadSize": 13, "NoRoom": 14, "BadArgument": 15,
            "FileNotWritable": 16, "MappingsFull": 17, "HoleInMapping": 18, "Impossible": 19, "NoEntry": 20}
RULES = ("Misaligned", "BeyondMax", "KernelPage", "GuardPage", "NoRegion", "NoRead", "NoWrite", "NoExec", "NoFrame")
RIGHT = {"fetch": "x", "load": "r", "store": "w"}
FORBIDDEN = {"fetch": "NoExec", "load": "NoRead", "store": "NoWrite"}
CAUSE = {"fetch": 12, "load": 13, "store": 15}
MISALIGNED = {"fetch": 0, "load": 4, "store": 6}
USER_TABLE = ("user", "enter0", "enter1", "leave2")
NEXT = {"enter0": "enter1", "enter1": "enter2", "enter2": "kernel", "kernel": "leave1", "leave1": "leave2",
        "leave2": "user"}
PHASES = ("idle", "user", *NEXT)


class Refused(Exception):
    """A refused step; its text is the reply."""

    def __init__(self, name, part=None):
        super().__init__(f"refused {REFUSALS[name]} {name}" + (f" {part}" if part else ""))


def demand(good, name, part=None):
    """Refuses the step unless `good`."""
    if not good:
        raise Refused(name, part)


def up(size):
    """The number of pages that hold `size` bytes."""
    return -(-size // PAGE)


class Scheme:
    """A translation scheme: where its addresses end, and the levels of its page tables."""

    def __init__(self, name, bits, shifts, kernel_tables):
        self.name, self.shifts, self.kernel_tables = name, shifts, kernel_tables
        self.maxva = 1 << bits
        self.trampoline, self.trapframe = self.maxva - PAGE, self.maxva - 2 * PAGE

    def tables(self, pages):
        """The number of page tables that these pages need, with those for trampoline and trapframe, and the root."""
        pages = {*pages, self.trampoline // PAGE, self.trapframe // PAGE}
        return 1 + sum(len({page >> shift for page in pages}) for shift in self.shifts)

    def kernel_frames(self, frames, slots):
        """The number of frames that boot takes: the trampoline's, a stack for each slot, the kernel's page tables."""
        return 1 + slots + self.kernel_tables + (frames > 512)


SCHEMES = {"sv39": Scheme("sv39", 38, (18, 9), 5), "sv48": Scheme("sv48", 47, (27, 18, 9), 7)}


def elf_segments(data):
    """The LOAD headers of ELF bytes; each must lie in the bytes, which is checked before the next is read."""
    demand(len(data) <= LONGEST_IMAGE, "BadImage", "TooLong")
    demand(len(data) >= 64, "BadImage", "Header")
    demand(data[:4] == b"\x7fELF", "BadImage", "Magic")
    field = lambda at, size: int.from_bytes(data[at:at + size], "little")
    for k in range(field(56, 2)):
        at = field(32, 8) + 56 * k
        demand(at + 56 <= len(data), "BadImage", "ProgramHeader")
        if field(at, 4) == 1:
            flags = "".join(letter for bit, letter in ((1, "x"), (2, "w")) if field(at + 4, 4) & bit)
            yield field(at + 8, 8), field(at + 32, 8), Segment(field(at + 16, 8), field(at + 40, 8), flags, data)


def read_image(image, scheme):
    """The segments of an image that have pages; refused with BadImage by the first check that fails."""
    taken, end = [], 0
    segments = elf_segments(image) if isinstance(image, bytes) else ((0, len(s.bytes), s) for s in image)
    for off, filesz, (vaddr, memsz, flags, data) in segments:
        demand(memsz >= filesz, "BadImage", "Sizes")
        demand(vaddr + memsz < WORD, "BadImage", "Wraps")
        demand(vaddr % PAGE == 0, "BadImage", "Align")
        if memsz:
            demand(off + filesz <= len(data), "BadImage", "Contents")
            demand((up(vaddr + memsz) + 2) * PAGE <= scheme.trapframe, "BadImage", "TooHigh")
            demand(vaddr >= end, "BadImage", "Order")
            demand(len(taken) < SEGMENTS, "BadImage", "TooMany")
            end = up(vaddr + memsz) * PAGE
            taken.append(Segment(vaddr, memsz, flags, data[off:off + filesz]))
    demand(taken, "BadImage", "NoLoad")
    return taken


# ---------------------------------------------------------------- the model: processes

class Process:
    """A process as a value: its runs of pages, its settled pages, the pages that have tables, a pending access."""

    def __init__(self, segments, fresh):
        self.runs = [(s.vaddr // PAGE, up(s.vaddr + s.memsz), "segment", "r" + s.flags) for s in segments]
        end = self.runs[-1][1]
        self.runs += [(end, end + 1, "guard", ""), (end + 1, end + 2, "stack", "rw")]
        self.base = self.size = (end + 2) * PAGE
        self.maps, self.pending, self.settled = [], None, {}
        for (first, last, _, _), data in zip(self.runs, [s.bytes for s in segments] + [b"", b""]):
            for page in range(first, last):
                part = data[(page - first) * PAGE:(page - first + 1) * PAGE]
                self.settled[page] = Page(part.ljust(PAGE, b"\0"), fresh(), False, False)
        self.tabled = set(self.settled)

    def child(self):
        """The child of a fork, once the fork marks are set: nothing pending, no stored marks."""
        child = object.__new__(Process)
        child.runs, child.base, child.size, child.maps = self.runs, self.base, self.size, list(self.maps)
        child.settled = {page: held._replace(stored=False) for page, held in self.settled.items()}
        child.pending, child.tabled = None, set(self.settled)
        return child

    def mapping(self, page):
        """The mapping that has the page, or None."""
        return next((m for m in self.maps if m.first <= page < m.first + m.count), None)

    def run(self, page):
        """Kind and rights of the region that has the page; the kind is None if there is none."""
        for first, last, kind, rights in self.runs:
            if first <= page < last:
                return kind, rights
        if self.base <= page * PAGE < self.size:
            return "heap", "rw"
        mapping = self.mapping(page)
        return ("mapping", mapping.rights) if mapping else (None, "")

    def keeps_stores(self, page):
        """Whether the page is in a writable shared mapping."""
        mapping = self.mapping(page)
        return bool(mapping) and mapping.shared and "w" in mapping.rights

    def denied(self, scheme, access, va, width):
        """The first rule that denies the access, or None."""
        if va % width:
            return "Misaligned"
        if va >= scheme.maxva:
            return "BeyondMax"
        if va >= scheme.trapframe:
            return "KernelPage"
        kind, rights = self.run(va // PAGE)
        if kind in (None, "guard"):
            return "GuardPage" if kind else "NoRegion"
        return None if RIGHT[access] in rights else FORBIDDEN[access]

    def resident(self, access, page):
        """Whether a granted access to the page needs no service."""
        held = self.settled.get(page)
        if held is None or access != "store":
            return held is not None
        return not held.fork and (held.stored or not self.keeps_stores(page))


# ---------------------------------------------------------------- the model: the machine

class Hart:
    """A hart: its phase, the slot of its process, the keys of its buffer (page and ASID)."""

    def __init__(self):
        self.phase, self.slot, self.keys = "idle", None, []


class Machine:
    """The machine. Each step returns its reply, or raises Refused."""

    def __init__(self, harts, frames, slots, policy, scheme, files, images):
        self.harts, self.slots = [Hart() for _ in range(harts)], [None] * slots
        self.frames, self.policy, self.scheme = frames, policy, scheme
        self.files, self.images = [(writable, bytearray(data)) for writable, data in files], images
        self.kernel = scheme.kernel_frames(frames, slots)
        self.marked, self.numbers = set(), 0

    def fresh(self):
        """A copy number that was not given before."""
        self.numbers += 1
        return self.numbers

    def live(self):
        """The processes that are in slots."""
        return [process for process in self.slots if process]

    def free(self):
        """The number of free frames."""
        numbers = {held.number for process in self.live() for held in process.settled.values()}
        tables = sum(1 + self.scheme.tables(process.tabled) for process in self.live())
        return self.frames - self.kernel - len(numbers) - tables

    def audit(self):
        """The answer to `audit`."""
        copies = collections.Counter(held.number for process in self.live() for held in process.settled.values())
        shared = sum(count > 1 for count in copies.values()) + bool(self.live())
        references = self.kernel + sum(2 + self.scheme.tables(p.tabled) + len(p.settled) for p in self.live())
        return f"free {self.free()} held {self.frames - self.free()} shared {shared} references {references}"

    def show(self, file, offset, count):
        """The answer to `show`."""
        data = self.files[file][1]
        return f"file {len(data)} {data[offset:offset + count].hex() or '-'}"

    def mark(self, slot):
        """Marks the slot on every hart."""
        self.marked |= {(hart, slot) for hart in range(len(self.harts))}

    def hart(self, number, phases, unserved=False):
        """The hart; refused unless it is in one of these phases, and (without `unserved`) no fault waits for service."""
        demand(number < len(self.harts), "BadArgument")
        hart = self.harts[number]
        waits = hart.phase == "kernel" and self.slots[hart.slot].pending is not None
        demand(hart.phase in phases and (unserved or not waits), "Impossible", hart.phase)
        return hart

    def lowest_free(self):
        """The lowest free slot; refused with NoSlot if there is none."""
        demand(None in self.slots, "NoSlot")
        return self.slots.index(None)

    def built(self, image, more):
        """A new process of an image; refused with NoFrame unless its frames and `more` are free."""
        segments = read_image(self.images[image], self.scheme)
        count = 2 + sum(up(s.vaddr + s.memsz) - s.vaddr // PAGE for s in segments)
        demand(count <= self.free(), "NoFrame")
        process = Process(segments, self.fresh)
        demand(count + self.scheme.tables(process.settled) + more <= self.free(), "NoFrame")
        return process

    def start(self, image):
        """Starts a process of the image in the lowest free slot."""
        slot = self.lowest_free()
        self.slots[slot] = self.built(image, 1)
        self.mark(slot)
        return f"slot {slot}"

    def switch(self, number, slot):
        """Schedules another process on the hart, or none."""
        hart = self.hart(number, ("idle", "kernel"), unserved=True)
        if slot is not None:
            on_harts = [other.slot for other in self.harts]
            demand(slot < len(self.slots) and self.slots[slot] and slot not in on_harts, "Impossible", hart.phase)
        hart.phase, hart.slot = "idle" if slot is None else "kernel", slot
        return "ok"

    def trap(self, number):
        """The process traps voluntarily."""
        self.hart(number, ("user",)).phase = "enter0"
        return "ok"

    def next(self, number):
        """Executes one instruction of kernel entry or the return: a fence or a write of satp."""
        hart = self.hart(number, NEXT)
        if self.policy == "full" and hart.phase not in ("enter1", "leave1"):
            hart.keys = []
        if self.policy == "asid" and hart.phase == "leave2" and (number, hart.slot) in self.marked:
            self.marked.remove((number, hart.slot))
            hart.keys = [key for key in hart.keys if key[1] != hart.slot + 1]
        hart.phase = NEXT[hart.phase]
        return "ok"

    def key(self, hart, va):
        """The key, page and ASID, of an entry that is filled for this address now."""
        return va // PAGE, hart.slot + 1 if self.policy == "asid" and hart.phase in USER_TABLE else 0

    def fill(self, number, va):
        """Adds an entry to the buffer, as the newest."""
        hart = self.hart(number, PHASES, unserved=True)
        hart.keys = [*hart.keys, self.key(hart, va)][-BUFFER:]
        return f"entry {len(hart.keys) - 1}"

    def evict(self, number, entry):
        """Removes one entry from the buffer."""
        hart = self.hart(number, PHASES, unserved=True)
        demand(entry < len(hart.keys), "NoEntry")
        del hart.keys[entry]
        return "ok"

    def named(self, hart, va, entry):
        """Refuses a named entry that does not exist, or is for another page or ASID."""
        demand(entry is None or (entry < len(hart.keys) and hart.keys[entry] == self.key(hart, va)), "NoEntry")

    def access(self, number, access, va, width, value, entry):
        """A user access."""
        hart = self.hart(number, ("user",))
        self.named(hart, va, entry)
        process = self.slots[hart.slot]
        rule = process.denied(self.scheme, access, va, width)
        if rule or not process.resident(access, va // PAGE):
            process.pending, hart.phase = (access, va, width), "enter0"
            return f"fault {(MISALIGNED if rule == 'Misaligned' else CAUSE)[access]}"
        held, at = process.settled[va // PAGE], va % PAGE
        if access != "store":
            return f"value {int.from_bytes(held.bytes[at:at + width], 'little'):#x}"
        self.put(process, va, (value % (1 << 8 * width)).to_bytes(width, "little"))
        return "stored"

    def put(self, process, va, data):
        """Replaces bytes of one settled page."""
        held, at = process.settled[va // PAGE], va % PAGE
        process.settled[va // PAGE] = held._replace(bytes=held.bytes[:at] + data + held.bytes[at + len(data):])

    def tramp(self, number, offset, entry):
        """A fetch in the trampoline page, in kernel entry or the return."""
        demand(number < len(self.harts) and offset % 4 == 0 and offset < PAGE, "BadArgument")
        hart = self.hart(number, ("enter0", "enter1", "enter2", "leave1", "leave2"))
        self.named(hart, self.scheme.trampoline, entry)
        return "frame 0"

    def initial(self, process, page):
        """The bytes that a page has when it is settled."""
        mapping = process.mapping(page)
        if not mapping:
            return bytes(PAGE)
        at = mapping.offset + (page - mapping.first) * PAGE
        return bytes(self.files[mapping.file][1][at:at + PAGE]).ljust(PAGE, b"\0")

    def make_resident(self, slot, access, page):
        """Makes a page resident for a granted access; False if too few frames are free."""
        process, writes = self.slots[slot], access == "store"
        held, need = process.settled.get(page), 0
        if held is None:
            need = 1 + self.scheme.tables(process.tabled | {page}) - self.scheme.tables(process.tabled)
        elif writes and held.fork:
            need = any(held.number == other.number for process2 in self.live() if process2 is not process
                       for other in process2.settled.values())
        if need > self.free():
            return False
        new = held or Page(self.initial(process, page), self.fresh(), False, False)
        if writes:
            new = Page(new.bytes, self.fresh() if held and need else new.number, False,
                       new.stored or process.keeps_stores(page))
        if new != held:
            process.settled[page] = new
            process.tabled.add(page)
            self.mark(slot)
        return True

    def serve(self, number):
        """Serves the fault of the pending access."""
        hart = self.hart(number, ("kernel",), unserved=True)
        process = self.slots[hart.slot]
        demand(process.pending, "Impossible", hart.phase)
        access, va, width = process.pending
        rule = process.denied(self.scheme, access, va, width)
        if not rule and not self.make_resident(hart.slot, access, va // PAGE):
            rule = "NoFrame"
        process.pending = None
        if not rule:
            return "ready"
        self.end(hart)
        return f"ended {RULES.index(rule) + 1} {rule}"

    def end(self, hart):
        """Ends the process of the hart: writes back its mappings, and empties slot and hart."""
        process = self.slots[hart.slot]
        for mapping in process.maps:
            self.write_back(process, mapping, mapping.first, mapping.count)
        self.slots[hart.slot], hart.slot, hart.phase = None, None, "idle"

    def write_back(self, process, mapping, first, count):
        """Writes the stored pages of a part of a mapping to its file, up to the file's length."""
        data = self.files[mapping.file][1]
        for page in range(first, first + count):
            held, at = process.settled.get(page), mapping.offset + (page - mapping.first) * PAGE
            if held and held.stored and at < len(data):
                end = min(at + PAGE, len(data))
                data[at:end] = held.bytes[:end - at]

    def release(self, slot, first, last):
        """Releases the settled pages of a range."""
        process = self.slots[slot]
        gone = [page for page in process.settled if first <= page < last]
        for page in gone:
            del process.settled[page]
        if gone:
            self.mark(slot)

    def fork(self, number):
        """Starts a child in the lowest free slot. Each settled page whose region grants writing gets the fork mark in both."""
        hart = self.hart(number, ("kernel",))
        slot, parent = self.lowest_free(), self.slots[hart.slot]
        demand(1 + self.scheme.tables(parent.settled) <= self.free(), "NoFrame")
        for page, held in parent.settled.items():
            if "w" in parent.run(page)[1] and not held.fork:
                parent.settled[page] = held._replace(fork=True)
                self.mark(hart.slot)
        self.slots[slot] = parent.child()
        self.mark(slot)
        return f"slot {slot}"

    def exec(self, number, image):
        """Replaces the process by one of the image."""
        hart = self.hart(number, ("kernel",))
        process = self.built(image, 0)
        slot = hart.slot
        self.end(hart)
        self.slots[slot], hart.slot, hart.phase = process, slot, "kernel"
        self.mark(slot)
        return "ok"

    def sbrk(self, number, delta):
        """Grows or shrinks the heap."""
        hart = self.hart(number, ("kernel",))
        process = self.slots[hart.slot]
        old, size = process.size, process.size + delta
        demand(size >= process.base, "BadSize")
        demand(up(size) <= (process.maps[0].first if process.maps else self.scheme.trapframe // PAGE), "NoRoom")
        process.size = size
        self.release(hart.slot, up(size), up(old))
        return f"old {old:#x}"

    def mmap(self, number, length, prot, flags, file):
        """Maps a file at the greatest address that has room."""
        process = self.slots[self.hart(number, ("kernel",)).slot]
        demand(1 <= length <= LONGEST_MAPPING and 1 <= prot <= 7 and flags in (1, 2) and file < len(self.files), "BadArgument")
        demand(flags == 2 or not prot & 2 or self.files[file][0], "FileNotWritable")
        demand(len(process.maps) < MAPPINGS, "MappingsFull")
        end, count = self.scheme.trapframe // PAGE, up(length)
        for mapping in reversed(process.maps):
            if end - count >= mapping.first + mapping.count:
                break
            end = mapping.first
        demand(end - count >= up(process.size), "NoRoom")
        rights = ("r" if prot & 3 else "") + ("w" if prot & 2 else "") + ("x" if prot & 4 else "")
        process.maps = sorted([*process.maps, Mapping(end - count, count, rights, flags == 1, file, 0)])
        return f"at {(end - count) * PAGE:#x}"

    def munmap(self, number, va, length):
        """Unmaps the front, the back or the whole of a mapping."""
        hart = self.hart(number, ("kernel",))
        process, first, count = self.slots[hart.slot], va // PAGE, up(length)
        m = process.mapping(first)
        demand(va % PAGE == 0 and length and m and first + count <= m.first + m.count, "BadArgument")
        demand(first == m.first or first + count == m.first + m.count, "HoleInMapping")
        self.write_back(process, m, first, count)
        at = process.maps.index(m)
        if first == m.first:
            left = m._replace(first=first + count, count=m.count - count, offset=m.offset + count * PAGE)
        else:
            left = m._replace(count=m.count - count)
        process.maps[at:at + 1] = [left] if left.count else []
        self.release(hart.slot, first, first + count)
        return "ok"

    def copied(self, slot, access, va, count):
        """Makes the pages of a copy resident, one by one. Returns how many bytes it copies, and the rule that stops it."""
        process, done = self.slots[slot], 0
        while done < count:
            rule = process.denied(self.scheme, access, va + done, 1)
            if not rule and not self.make_resident(slot, access, (va + done) // PAGE):
                rule = "NoFrame"
            if rule:
                return done, rule
            done = min(count, done + PAGE - (va + done) % PAGE)
        return done, None

    def pieces(self, va, count):
        """The parts of a range that lie in one page each."""
        while count:
            part = min(count, PAGE - va % PAGE)
            yield va, part
            va, count = va + part, count - part

    def copyin(self, number, va, count):
        """The kernel copies bytes from the process."""
        slot = self.hart(number, ("kernel",)).slot
        done, rule = self.copied(slot, "load", va, count)
        settled = self.slots[slot].settled
        data = b"".join(settled[at // PAGE].bytes[at % PAGE:at % PAGE + n] for at, n in self.pieces(va, done))
        begin = f"short {RULES.index(rule) + 1} {rule} done" if rule else "copied"
        return f"{begin} {done} {data.hex() or '-'}"

    def copyout(self, number, va, data):
        """The kernel copies bytes to the process."""
        slot = self.hart(number, ("kernel",)).slot
        done, rule = self.copied(slot, "store", va, len(data))
        for at, n in self.pieces(va, done):
            self.put(self.slots[slot], at, data[at - va:at - va + n])
        return f"short {RULES.index(rule) + 1} {rule} done {done}" if rule else f"copied {done}"

    def exit(self, number, status):
        """Ends the process by exit."""
        self.end(self.hart(number, ("kernel",)))
        return f"exited {status}"

    def short(self, command, number, *slot):
        """Makes the steps of `on`, `enter`, `leave` or `fix`, up to the first that is refused."""
        if command in ("on", "enter"):
            self.switch(number, *slot) if command == "on" else self.trap(number)
        for _ in range(3):
            self.next(number)
        if command != "fix":
            return "ok"
        reply = self.serve(number)
        for _ in range(3 if reply == "ready" else 0):
            self.next(number)
        return reply

    def play(self, command, fields):
        """The answer to one line."""
        try:
            if command == "fetch":
                return self.access(fields[0], command, fields[1], 4, None, fields[2])
            if command == "load":
                return self.access(fields[0], command, *fields[1:3], None, fields[3])
            if command == "store":
                return self.access(fields[0], command, *fields[1:])
            if command in ("on", "enter", "leave", "fix"):
                return self.short(command, *fields)
            return getattr(self, command)(*fields)
        except Refused as refused:
            return str(refused)


# ---------------------------------------------------------------- the model: scripts

CAUSES = ("TooLong", "NotAscii", "Word", "Order", "Count", "Number", "Field", "Limits", "TooMany")
DECLARATIONS = ("file", "image", "elf")
FIELDS = {
    "file": "number mode hex", "image": "segment", "elf": "hex", "boot": "number number number policy ?scheme",
    "start": "image", "switch": "number slot", "trap": "number", "next": "number", "fill": "number number",
    "evict": "number number", "fetch": "number number ?entry", "load": "number number width ?entry",
    "store": "number number width number ?entry", "tramp": "number number ?entry", "serve": "number",
    "fork": "number", "exec": "number image", "sbrk": "number signed", "mmap": "number number number number number",
    "munmap": "number number number", "copyin": "number number few", "copyout": "number number fewbytes",
    "exit": "number status", "show": "shown number few", "audit": "", "on": "number number", "enter": "number",
    "leave": "number", "fix": "number"}


class Fault(Exception):
    """A refused line; its text is the cause."""


def need(good, cause):
    """Raises the cause unless `good`."""
    if not good:
        raise Fault(cause)


def read_number(text, cause="Number"):
    """A number below 2^64."""
    need(re.fullmatch(r"[0-9]+|0x[0-9a-fA-F]+", text), cause)
    digits = text[2:].lstrip("0") if text[:2] == "0x" else text.lstrip("0")
    need(len(digits) <= 20, cause)
    value = int(digits or "0", 16 if text[:2] == "0x" else 10)
    need(value < WORD, cause)
    return value


def read_signed(text):
    """A number that may begin with `-`."""
    value = -read_number(text[1:]) if text[:1] == "-" else read_number(text)
    need(-WORD // 2 <= value < WORD // 2, "Number")
    return value


def read_hex(text):
    """Bytes."""
    need(text == "-" or re.fullmatch(r"([0-9a-fA-F]{2})+", text), "Field")
    return b"" if text == "-" else bytes.fromhex(text)


def read_segment(text):
    """One segment of an `image` line."""
    parts = text.split(":")
    need(len(parts) == 4, "Field")
    need(parts[2] == "-" or re.fullmatch(r"[rwx]+", parts[2]) and len(set(parts[2])) == len(parts[2]), "Field")
    vaddr, memsz = (read_number(part, "Field") for part in parts[:2])
    return Segment(vaddr, memsz, parts[2].replace("r", "").replace("-", ""), read_hex(parts[3]))


class Script:
    """A script, read line by line: what was declared, the boot, the steps."""

    def __init__(self):
        self.files, self.images, self.boot, self.steps = [], [], None, []

    def field(self, kind, text):
        """The value of one field."""
        if kind in ("mode", "policy", "scheme"):
            words = {"mode": ("rw", "ro"), "policy": ("full", "asid"), "scheme": tuple(SCHEMES)}[kind]
            need(text in words, "Field")
            return text
        if kind == "slot" and text == "-":
            return None
        if kind == "entry":
            need(text[0] == "@", "Field")
            return read_number(text[1:], "Field")
        if kind in ("hex", "fewbytes"):
            value = read_hex(text)
            need(kind == "hex" or len(value) <= LONGEST_COPY, "Limits")
            return value
        if kind == "segment":
            return read_segment(text)
        value = read_signed(text) if kind in ("signed", "status") else read_number(text)
        good = {"width": value in (1, 2, 4, 8), "image": value < len(self.images), "shown": value < len(self.files),
                "few": value <= LONGEST_COPY, "status": -1 << 31 <= value < 1 << 31}
        need(good.get(kind, True), "Limits")
        return value

    def line(self, text):
        """Reads one line. Returns its command and values; None if it is skipped."""
        words = re.split(r"[ \t]+", text.strip(" \t"))
        if words[0] == "" or words[0][0] == "#":
            return None
        command, *words = words
        need(command in FIELDS, "Word")
        need((self.boot is None) == (command in (*DECLARATIONS, "boot")), "Order")
        kinds = FIELDS[command].replace("?", "").split()
        if command == "image":
            kinds = kinds * max(1, len(words))
        need(len(kinds) - FIELDS[command].count("?") <= len(words) <= len(kinds), "Count")
        values, faults = [], []
        for kind, word in zip(kinds, words):
            try:
                values.append(self.field(kind, word))
            except Fault as fault:
                faults.append(str(fault))
        need(not faults, min(faults, key=CAUSES.index, default=None))
        values += [None] * (len(kinds) - len(words))
        self.take(command, values)
        return command, values

    def take(self, command, values):
        """Checks what a line declares, and keeps it."""
        if command == "file":
            need(values[0] <= LONGEST_FILE and len(values[2]) <= values[0], "Limits")
            need(len(self.files) < FILES, "TooMany")
            self.files.append((values[1] == "rw", values[2].ljust(values[0], b"\0")))
        elif command in DECLARATIONS:
            need(len(self.images) < IMAGES, "TooMany")
            self.images.append(values if command == "image" else values[0])
        elif command == "boot":
            harts, frames, slots, policy, scheme = values
            scheme = SCHEMES[scheme or "sv39"]
            need(1 <= harts <= HARTS and FEWEST_FRAMES <= frames <= FRAMES and 1 <= slots <= SLOTS, "Limits")
            need(frames >= scheme.kernel_frames(frames, slots), "Limits")
            self.boot = (harts, frames, slots, policy, scheme)
        else:
            need(len(self.steps) < LINES, "TooMany")
            self.steps.append((command, values))

    def machine(self):
        """The machine after boot."""
        return Machine(*self.boot, self.files, self.images)


def read_script(data):
    """Reads the script of these bytes; raises Fault, with line and cause, if it is refused."""
    script, lines = Script(), data.split(b"\n")
    lines = lines[:-1] if lines[-1] == b"" else lines
    if len(data) > 16777216:
        raise Fault("line 0 TooLong")
    for number, line in enumerate(lines, 1):
        line = line[:-1] if line.endswith(b"\r") else line
        try:
            need(len(line) <= 2097664, "TooLong")
            need(line.isascii(), "NotAscii")
            script.line(line.decode())
        except Fault as fault:
            raise Fault(f"line {number} {fault}") from None
    if not script.boot:
        raise Fault(f"line {len(lines) + 1} Order")
    return script


def answer(data):
    """What the program must give for a script: standard output, standard error, status."""
    try:
        script = read_script(data)
    except Fault as fault:
        return "", f"xv6vm: refused 23 Script {fault}\n", 1
    machine = script.machine()
    replies = ["ok"] + [machine.play(*step) for step in script.steps]
    return "\n".join(replies) + "\n", "", 0
