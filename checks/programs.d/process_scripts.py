"""A script that starts a program and reads, writes and executes it, with the answers that it must have (checks/programs)."""
import dataclasses
import random

from elf_files import PAGE, counts, loads_of, up

WIDTHS = (1, 2, 4, 8)
FRAMES, SLOTS = 1024, 1
# Exception codes, by access: a page fault, and a misaligned address. The right that each access needs, and the rule without it.
PAGE_FAULT = {"fetch": 12, "load": 13, "store": 15}
MISALIGNED = {"fetch": 0, "load": 4, "store": 6}
NEEDED = {"load": "r", "store": "w", "fetch": "x"}
NO_RIGHT = {"load": "6 NoRead", "store": "7 NoWrite", "fetch": "8 NoExec"}


def kernel_frames(scheme):
    return scheme.kernel + SLOTS + (FRAMES > 512)


@dataclasses.dataclass(frozen=True)
class Region:
    start: int
    end: int
    rights: str


class Space:
    """The regions of a process of a program, and its first bytes by page."""

    def __init__(self, elf, contents, scheme):
        self.scheme = scheme
        self.segments = loads_of(elf)
        self.regions = []
        for it in self.segments:
            rights = "r" + ("w" if "W" in it.flags else "") + ("x" if "E" in it.flags else "")
            self.regions.append(Region(it.address, up(it.end), rights))
        guard = self.regions[-1].end
        self.guard, self.stack = Region(guard, guard + PAGE, ""), Region(guard + PAGE, guard + 2 * PAGE, "rw")
        self.regions += [self.guard, self.stack]
        self.first = {page: bytearray(PAGE) for it in self.regions for page in range(it.start // PAGE, it.end // PAGE)}
        for address, byte in contents.items():
            self.first[address // PAGE][address % PAGE] = byte

    def fresh(self):
        return {number: bytearray(page) for number, page in self.first.items()}

    def rule(self, kind, address, width):
        """The first rule that denies an access; None if it is granted."""
        if address % width:
            return "1 Misaligned"
        if address >= self.scheme.top:
            return "2 BeyondMax"
        if address >= self.scheme.trapframe:
            return "3 KernelPage"
        region = next((it for it in self.regions if it.start <= address < it.end), None)
        if region is None:
            return "5 NoRegion"
        if region is self.guard:
            return "4 GuardPage"
        return None if NEEDED[kind] in region.rights else NO_RIGHT[kind]

    def frames(self):
        """The frames of a process: its pages, the tables that lead to them and to trampoline and trapframe, and the trapframe."""
        last = self.scheme.top // PAGE - 1
        pages = set(self.first) | {last, last - 1}
        tables = sum(len({page >> 9 * level for page in pages}) for level in range(1, self.scheme.levels + 1))
        return len(self.first) + tables + 1


class Script:
    """Lines with their answers. A denied access ends the process; then all frames must be free again, and the next one starts."""

    def __init__(self, space, line):
        self.space = space
        self.lines, self.answers = [line], [None]
        self.kernel = kernel_frames(space.scheme)
        self.say(f"boot 1 {FRAMES} {SLOTS} {space.scheme.fields}", "ok")
        self.say("audit", self.audit())
        self.begin()
        self.say("audit", self.audit(space.frames()))

    def say(self, line, answer):
        self.lines.append(line)
        self.answers.append(answer)

    def audit(self, taken=0):
        """The accounts if a process has so many frames; it shares the frame of the trampoline with the kernel."""
        held, shared = self.kernel + taken, 1 if taken else 0
        return f"free {FRAMES - held} held {held} shared {shared} references {held + shared}"

    def begin(self):
        self.pages = self.space.fresh()
        self.say("start 0", "slot 0")
        self.say("on 0 0", "ok")
        counts["processes"] += 1

    def bytes_at(self, address, width):
        at = address % PAGE
        return bytes(self.pages[address // PAGE][at : at + width])

    def access(self, kind, address, width, value=0):
        words = {"fetch": "", "load": f" {width}", "store": f" {width} {value:#x}"}
        line = f"{kind} 0 {address:#x}{words[kind]}"
        rule = self.space.rule(kind, address, width)
        counts["accesses"] += 1
        if rule is None:
            self.say(line, self.granted(kind, address, width, value))
            return
        counts["of them denied"] += 1
        causes = MISALIGNED if rule == "1 Misaligned" else PAGE_FAULT
        self.say(line, f"fault {causes[kind]}")
        self.say("fix 0", f"ended {rule}")
        self.say("audit", self.audit())
        self.begin()

    def granted(self, kind, address, width, value):
        """The answer of a granted access. It is aligned, so it lies in one page."""
        if kind == "store":
            at = address % PAGE
            self.pages[address // PAGE][at : at + width] = value.to_bytes(8, "little")[:width]
            return "stored"
        counts["bytes compared"] += width
        return f"value {int.from_bytes(self.bytes_at(address, width), 'little'):#x}"

    def copy(self, address, count):
        """The kernel copies out of the process, up to the first byte that a rule denies."""
        copied, rule = b"", self.space.rule("load", address, 1)
        while len(copied) < count and rule is None:
            at = address + len(copied)
            copied += self.bytes_at(at, min(count - len(copied), PAGE - at % PAGE))
            rule = self.space.rule("load", address + len(copied), 1) if len(copied) < count else None
        counts["copies"] += 1
        counts["bytes compared"] += len(copied)
        text = copied.hex() or "-"
        answer = f"short {rule} done {len(copied)} {text}" if rule else f"copied {count} {text}"
        self.say(f"copyin 0 {address:#x} {count}", answer)


def places_in(load, rng):
    """Addresses in the pages of a segment: its ends, the ends of its bytes in the file and in memory, its middle, random ones."""
    start, end, bytes_end = load.address, up(load.end), load.address + load.file_size
    places = [start, end - 1, (start + end) // 2, bytes_end - 1, bytes_end, bytes_end + 8, load.end - 1, load.end, start + 1]
    places += [rng.randrange(start, end) for _ in range(12)]
    places += [rng.randrange(start, bytes_end) for _ in range(6 if load.file_size else 0)]
    return [it for it in dict.fromkeys(places) if start <= it < end]


def outside(space):
    """Addresses of no segment: between regions, in the guard page, in the stack and just past it, and at the top."""
    edge, top, trapframe = 0, space.scheme.top, space.scheme.trapframe
    for it in space.regions:
        if edge < it.start:
            yield from (edge, (edge + it.start) // 2 & ~7, it.start - 8)
        edge = it.end
    for it in (space.guard, space.stack):
        yield from (it.start, it.start + PAGE // 2, it.end - 8)
    yield from (edge, edge + PAGE, trapframe - 8, trapframe, top - PAGE, top - 8, top, (1 << 64) - 8)


def copy_all(script):
    """Each byte of each page that may be read, and copies over the ends of regions."""
    script.say("enter 0", "ok")
    for it in script.space.regions:
        if it.rights:
            for address in range(it.start, it.end, 256):
                script.copy(address, 256)
            script.copy(it.end - 5, 16)
            script.copy(max(it.start - 3, 0), 16)
    script.say("leave 0", "ok")


def granted_accesses(script, load, rng):
    places = places_in(load, rng)
    for place in places:
        for width in WIDTHS:
            script.access("load", place // width * width, width)
    if "E" in load.flags:
        for place in places:
            script.access("fetch", place // 4 * 4, 4)
    if "W" in load.flags:
        for place in places:
            for width in WIDTHS:
                script.access("store", place // width * width, width, rng.getrandbits(64))
                script.access("load", place // 8 * 8, 8)


def denied_accesses(script, load, rng):
    places = places_in(load, rng)
    for place in places[:8] + rng.sample(places, min(4, len(places))):
        if "W" not in load.flags:
            width = rng.choice(WIDTHS)
            script.access("store", place // width * width, width, rng.getrandbits(64))
        if "E" not in load.flags:
            script.access("fetch", place // 4 * 4, 4)
    for width in WIDTHS[1:]:
        for kind in ("load", "store"):
            script.access(kind, rng.choice(places) // width * width + rng.randrange(1, width), width)
    for odd in (1, 2, 3):
        script.access("fetch", rng.choice(places) // 4 * 4 + odd, 4)


def script_of(space, line, name):
    """The script of a program. Its random places are the same in each run."""
    rng = random.Random(f"{name} {space.scheme.fields}")
    script = Script(space, line)
    copy_all(script)
    for load in space.segments:
        granted_accesses(script, load, rng)
    for address in outside(space):
        for kind, width in (("load", rng.choice(WIDTHS)), ("store", rng.choice(WIDTHS)), ("fetch", 4)):
            script.access(kind, address, width, rng.getrandbits(64))
    for load in space.segments:
        denied_accesses(script, load, rng)
    # This process has frames of earlier ones, which stored to them; it must begin with the bytes of the file all the same.
    copy_all(script)
    return script
