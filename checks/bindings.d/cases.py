"""Random walks and random histories for checks/bindings, as lines for `xv6lab mmu` and as lines for the players of both bindings.

A case is a list of items. An item has a line for the players, a line for the program (either may be None), and how the program's answer says
what the players must answer.
"""
import collections

Item = collections.namedtuple("Item", "player program kind known", defaults=(None,))

BASE_PPN, FRAMES = 0x80000, 6
BASE, WORDS = BASE_PPN << 12, 512 * FRAMES
V, R, W, X, U, G, A, D = (1 << bit for bit in range(8))
LEVELS = {8: 3, 9: 4, 10: 5}
ACCESSES, MODES = ("fetch", "load", "store"), {0: "U", 1: "S", 3: "M"}
SAME = "the same"
BITS = {"svnapot": 1, "svpbmt": 2, "svade": 4, "svadu": 8, "sv39": 256, "sv48": 512, "sv57": 1024}
PAGE_FAULTS, ACCESS_FAULTS = (12, 13, 15), (1, 5, 7)


def told(value):
    return "-" if value is None else f"{value:x}"


# ---- walks


def random_entry(rng, frame, levels=3, noise=0.1):
    """An entry of a frame: a pointer to the next one, if a table is to be there, a leaf in the last table, or either at random; each bit may
    be wrong. `noise` says how often it is not as it should be."""
    ppn = BASE_PPN + rng.randrange(FRAMES + (rng.random() < 0.1))
    is_pointer = frame + 1 < levels
    if rng.random() < noise:
        is_pointer, ppn = rng.random() < 0.3, rng.choice([ppn, BASE_PPN])
    elif is_pointer:
        ppn = BASE_PPN + frame + 1
    flags = V if is_pointer else rng.choice([0xDF, 0xDF, 0xD7, 0xCF, 0xCF, 0xC7, 0xDB, 0x5F, 0x1F])
    if rng.random() < noise / 2:
        flags ^= 1 << rng.randrange(8)
    word = ppn << 10 | flags | rng.choice([0, 0, 0, G])
    return word | 1 << rng.randrange(54, 64) if rng.random() < noise / 8 else word


def random_address(rng, levels, indices):
    address = sum(rng.choice(indices) << 12 + 9 * level for level in range(levels)) | rng.randrange(512) << 3
    if address >> 11 + 9 * levels:
        address |= -1 << 12 + 9 * levels & (1 << 64) - 1
    return address ^ 1 << rng.randrange(38, 64) if rng.random() < 0.03 else address


def plain_lookup(words, satp, address):
    """Steps 1 to 4 and 6 of the standard's 4.3.2, and what the players must answer of them."""
    if not satp >> 60:
        return "error bare"
    levels = LEVELS[satp >> 60]
    if address >> 11 + 9 * levels not in (0, (1 << 53 - 9 * levels) - 1):
        return "none"
    table, has_g = satp & (1 << 44) - 1, 0
    for level in range(levels - 1, -1, -1):
        if not BASE_PPN <= table < BASE_PPN + FRAMES:
            return "error outside"
        word = words.get((table << 12) + (address >> 12 + 9 * level) % 512 * 8, 0)
        if not word & V or word & (R | W) == W or word >> 54:
            return "none"
        has_g |= bool(word & G)
        ppn = word >> 10 & (1 << 44) - 1
        if word & (R | X):
            inside = address % (1 << 12 + 9 * level)
            return "none" if ppn % (1 << 9 * level) else f"leaf {level} {word:x} {(ppn << 12) + inside:x} {has_g}"
        if word & (U | A | D):
            return "none"
        table = ppn
    return "none"


def fault_step(word, level, access, mode):
    """The step of the standard's 4.3.2 at which an entry is a page fault; None if it is none."""
    if not word & V or word & (R | W) == W or word >> 54 or (not word & (R | X) and word & (U | A | D)):
        return 3
    if not word & (R | X):
        return None if level else 4
    if bool(word & U) == bool(mode) or not word & (X, R, W)[access]:
        return 5
    if (word >> 10) % (1 << 9 * level):
        return 6
    return 7 if not word & A or access == 2 and not word & D else None


def plain_walk(words, frames, satp, address, access, mode):
    """The walk of the standard's 4.3.2 over some frames, and what the players must answer of it: the outcome, and of a fault its step, the level,
    address and word of the entry, and of step 8 the byte."""
    if not satp >> 60:
        return f"bare {address:x}"
    levels = LEVELS[satp >> 60]
    page_fault, access_fault = f"page-fault {PAGE_FAULTS[access]} step", f"access-fault {ACCESS_FAULTS[access]} step"
    if address >> 11 + 9 * levels not in (0, (1 << 53 - 9 * levels) - 1):
        return f"{page_fault} 0 0 0 0 0"
    table, word = satp & (1 << 44) - 1, 0
    for level in range(levels - 1, -1, -1):
        place = (table << 12) + (address >> 12 + 9 * level) % 512 * 8
        if table - BASE_PPN not in frames:
            return f"{access_fault} 2 {level} {place:x} {word:x} 0"
        word = words.get(place, 0)
        step, table = fault_step(word, level, access, mode), word >> 10 & (1 << 44) - 1
        if step is not None:
            return f"{page_fault} {step} {level} {place:x} {word:x} 0"
        if word & (R | X):
            physical = (table << 12) + address % (1 << 12 + 9 * level)
            is_there = (physical >> 12) - BASE_PPN in frames
            return f"leaf {level} {word:x} {physical:x}" if is_there else f"{access_fault} 8 {level} {place:x} {word:x} {physical:x}"
    raise AssertionError("level 0 has no pointer")


def regions_of(rng):
    """The memory in two regions, in any order, at times with a frame between that is in none: of each the first frame and their number."""
    cut = rng.randrange(FRAMES + 1)
    gap = rng.random() < 0.3 and cut < FRAMES
    regions = [(0, cut), (cut + gap, FRAMES - cut - gap)]
    rng.shuffle(regions)
    return regions


def reader_items(rng, words, satp, address, access, mode):
    """The same access by a reader, and over regions."""
    fields = f"{satp:x} {address:x} {access} {mode}"
    yield Item(f"by {fields}", None, "by", plain_walk(words, range(FRAMES), satp, address, access, mode))
    if rng.random() < 0.3:
        regions = regions_of(rng)
        frames = {it for first, count in regions for it in range(first, first + count)}
        told = " ".join(f"{first:x} {count:x}" for first, count in regions)
        kind = "by" if len(frames) == FRAMES else "gap"
        yield Item(f"regions {fields} {told}", None, kind, plain_walk(words, frames, satp, address, access, mode))


def walk_case(rng, accesses):
    """A memory, and walks over it."""
    mode = rng.choice([8, 8, 9, 9, 0]) if rng.random() < 0.2 else rng.choice([8, 9])
    satp = mode << 60 | rng.randrange(1 << 16) << 44 | BASE_PPN + (rng.random() < 0.2) if mode else 0
    indices = rng.sample([0, 1, 2, 255, 256, 511], 2)
    yield Item(f"memory {BASE_PPN:x} {WORDS:x}", "reset", "ok")
    yield Item(None, f"ram {BASE:#x} {8 * WORDS:#x}", "ok")
    words = {}
    for frame in range(FRAMES):
        for index in indices:
            place = BASE + 4096 * frame + 8 * index
            words[place] = random_entry(rng, frame, LEVELS.get(mode, 3))
            yield Item(f"word {place:x} {words[place]:x}", f"mem {place:#x} {words[place]:#x}", "ok")
    yield Item(None, f"satp {satp:#x}", "ok")
    yield Item(None, "sfence", "ok")
    for _ in range(accesses):
        address, access, user = random_address(rng, LEVELS.get(mode, 3), indices), rng.randrange(3), rng.randrange(2)
        if not mode:
            address = rng.choice([BASE, BASE + 8 * WORDS - 8, BASE + rng.randrange(WORDS) * 8])
        address += rng.randrange(4) * 2 if access == 0 else rng.randrange(8)
        program = f"{ACCESSES[access]} {address:#x} {2 if access == 0 else 1} {MODES[user]}"
        yield Item(f"translate {satp:x} {address:x} {access} {user}", program, "translate", ACCESSES[access])
        yield from reader_items(rng, words, satp, address, access, user)
        if rng.random() < 0.2:
            yield Item(f"lookup {satp:x} {address:x}", None, "known", plain_lookup(words, satp, address))


# ---- TLBs: only the players are compared


def tlb_case(rng, steps):
    yield Item(f"memory {BASE_PPN:x} {WORDS:x}", None, "ok")
    yield Item(f"tlb {rng.choice([0, 1, 4, 9]):x}", None, "ok")
    for frame in range(FRAMES):
        yield Item(f"word {BASE + 4096 * frame:x} {random_entry(rng, frame):x}", None, "ok")
    for _ in range(steps):
        asid, address, satp = rng.randrange(3), rng.randrange(4) << 12 | rng.randrange(512) << 3, rng.choice([8, 8, 9]) << 60 | BASE_PPN
        satp |= asid << 44
        access, mode = rng.randrange(3), rng.randrange(2)
        outcome = rng.choice([f"page-fault {PAGE_FAULTS[access]:x}", f"leaf 0 {random_entry(rng, 2):x} {BASE + address:x}", "access-fault 5"])
        line = rng.choice([
            f"fill {satp:x} {address:x}", f"fill {satp:x} {address:x}", f"match {rng.randrange(3):x} {address:x} {asid:x}",
            f"use {rng.randrange(9):x} {address:x} {asid:x} {access} {mode}", f"evict {rng.randrange(9):x}",
            f"tlbfence {told(rng.choice([None, address]))} {told(rng.choice([None, asid]))}",
            f"permits {satp:x} {address:x} {access} {mode} {outcome}", "entries",
        ])
        yield Item(line, None, "alike")
        if line.startswith("permits"):
            yield Item(line.replace("permits", "question"), None, "same")


# ---- histories


class History:
    """What happens at a hart, at random. Registers of PMP are followed, for their locks."""

    def __init__(self, rng):
        self.rng = rng
        self.schemes = [it for it in (8, 9, 10) if rng.random() < 0.6] or [8]
        self.scheme = rng.choice(self.schemes)
        self.levels = LEVELS[self.scheme]
        self.svnapot, self.svpbmt = rng.random() < 0.3, rng.random() < 0.3
        self.ad = rng.choice(["svade", "svadu", "ad-either"])
        self.asid_bits, self.pmp_count = rng.choice([0, 1, 9, 16]), rng.choice([0, 0, 16, 64])
        self.pmp = [(0, 0)] * self.pmp_count
        self.moded = rng.random() < 0.3

    def begin(self):
        names = [f"sv{39 + 9 * (it - 8)}" for it in self.schemes]
        names += [it for it in ("svnapot", "svpbmt") if getattr(self, it)]
        bits = sum(BITS[it] for it in names) | {"svade": 4, "svadu": 8, "ad-either": self.rng.choice([0, 12])}[self.ad]
        yield Item(None, " ".join(["profile", *names, self.ad, f"asid{self.asid_bits}", f"pmp{self.pmp_count}"]), "ok")
        yield Item(None, f"ram {BASE:#x} {8 * WORDS:#x}", "ok")
        yield Item(f"memory {BASE_PPN:x} {WORDS:x}", None, "ok")
        for frame in range(FRAMES):
            for index in (0, 1):
                place, word = BASE + 4096 * frame + 8 * index, self.entry(frame)
                yield Item(f"word {place:x} {word:x}", f"mem {place:#x} {word:#x}", "ok")
        yield Item(f"begin {bits:x} {self.asid_bits:x} {self.pmp_count:x}", "sfence", "ok")
        if self.pmp_count and self.rng.random() < 0.9:
            yield self.write_pmp(self.pmp_count - 1, 0x1F, (1 << 54) - 1)
        yield self.write_satp()

    def entry(self, frame):
        word = random_entry(self.rng, frame, self.levels, 0.05)
        if word & (R | X) and self.rng.random() < (0.1 if self.ad == "svade" else 0.4):
            word &= ~self.rng.choice([D, A | D])
        if self.svnapot and self.rng.random() < 0.2:
            word = word & ~(0xF << 10) | 1 << 63 | 8 << 10
        if self.svpbmt and self.rng.random() < 0.5 and word & (R | X):
            word |= self.rng.choice([1, 2, 3]) << 61
        return word

    def address(self):
        return random_address(self.rng, self.levels, (0, 1) if self.rng.random() < 0.3 else (0, 0, 0, 1))

    def asid(self):
        return self.rng.randrange(2)

    def write_satp(self):
        mode = self.rng.choice([self.scheme] * 9 + [0, 8, 9, 10])
        word = mode << 60 | self.asid() << 44 | BASE_PPN + (self.rng.random() < 0.3) if mode else 0
        if self.rng.random() < 0.02:
            return Item(f"satp {BASE_PPN:x}", None, "known", "kept")
        return Item(f"satp {word:x}", f"satp {word:#x}", "satp", (word, self.asid_bits))

    def write_pmp(self, entry, config, address):
        held_config, held_address = self.pmp[entry]
        above = self.pmp[entry + 1][0] if entry + 1 < self.pmp_count else 0
        answer = "locked" if held_config & 0x80 else "address locked" if above & 0x98 == 0x88 else "ok"
        if answer != "locked":
            self.pmp[entry] = (config, held_address if answer == "address locked" else address)
        has_config, has_address = self.pmp[entry]
        return Item(f"pmp {entry:x} {has_config:x} {has_address:x}", f"pmp {entry} {config:#x} {address:#x}", "pmp", answer)

    def random_pmp(self):
        entry = self.rng.randrange(4)
        area = (BASE >> 2) + 1024 * self.rng.randrange(FRAMES)
        config = self.rng.choice([0, 0x1F, 0x1F, 0x19, 0x1D, 0x0F, 0x17]) | (0x80 if self.rng.random() < 0.1 else 0)
        return self.write_pmp(entry, config, area | 0x1FF if config & 0x18 == 0x18 else area)

    def happen(self):
        choice = self.rng.random()
        if choice < 0.5:
            frame = self.rng.randrange(FRAMES)
            place, word = BASE + 4096 * frame + 8 * (self.rng.random() < 0.3), self.entry(frame)
            return Item(f"mem {place:x} {word:x}", f"mem {place:#x} {word:#x}", "ok")
        if choice < 0.65:
            return self.write_satp()
        if choice < 0.75 and self.pmp_count:
            return self.random_pmp()
        if choice < 0.85 and self.moded:
            fields = [self.rng.randrange(2) for _ in range(3)]
            mpp = self.rng.choice([0, 1, 3])
            words = " ".join(map(str, fields))
            return Item(f"status {words} {mpp}", f"status {words} {MODES[mpp]}", "ok")
        address = self.rng.choice([None, self.address(), self.address()])
        asid = self.rng.choice([None, self.asid()]) if address is not None or self.rng.random() < 0.9 else None
        words = " ".join("-" if it is None else f"{it:#x}" for it in (address, asid))
        return Item(f"fence {told(address)} {told(asid)}", f"sfence {words}", "fence")

    def ask(self):
        access = self.rng.randrange(3)
        width = self.rng.choice([2, 4]) if access == 0 else self.rng.choice([1, 2, 4, 8])
        address = self.address() + (self.rng.randrange(8) if self.rng.random() < 0.1 else 0) & (1 << 64) - 1
        if self.rng.random() < 0.1:
            address = BASE + 8 * self.rng.randrange(WORDS)
        mode = self.rng.choice([0, 0, 1, 1, 3] if self.moded else [0, 1])
        if address % width:
            # a fault of its first or last byte is permitted too: of a fetch that of the two bytes around it
            for byte in (address, address + width - 1 & (1 << 64) - 1):
                part = f"{byte & ~1:#x} 2" if access == 0 else f"{byte:#x} 1"
                yield Item(None, f"{ACCESSES[access]} {part} {MODES[mode]}", "part")
        program = f"{ACCESSES[access]} {address:#x} {width} {MODES[mode]}"
        yield Item(f"outcomes {address:x} {width} {access} {mode}", program, "outcomes")


def history_case(rng, events):
    history = History(rng)
    yield from history.begin()
    for at in range(events):
        yield history.happen()
        if at % 4 == 3:
            yield from history.ask()
    yield Item("events", None, "alike")


# ---- what the players must answer


def walk_answer(answer, access):
    """The answer to `translate`, by the one outcome of `xv6lab mmu`."""
    (it,) = answer["outcomes"]
    if "fault" in it:
        return f"{'page' if it['fault'] in PAGE_FAULTS else 'access'}-fault {it['fault']}"
    address = int(it["pa"], 16)
    return f"bare {address:x}" if it["by"] == "bare" else f"leaf {it['level']} {int(it['leaf'], 16):x} {address:x}"


def judged_texts(answer):
    texts = set()
    for it in answer["outcomes"]:
        text = f"fault {it['fault']}" if "fault" in it else f"pa {int(it['pa'], 16):x}" + (f" {it['type']}" if "type" in it else "")
        texts.add(text + (f" set {int(it['set']['place'], 16):x} {int(it['set']['word'], 16):x}" if "set" in it else ""))
    return sorted(texts)


def expected(item, answer):
    """What the players must answer to an item; None if they need only agree; SAME if it is what they answered before."""
    if item.kind == "translate":
        return walk_answer(answer, item.known)
    if item.kind == "outcomes":
        return "; ".join(judged_texts(answer))
    if item.kind == "satp":
        word, asid_bits = item.known
        legal = word & ~(0xFFFF << 44 & 0xFFFF << 44 + asid_bits)
        return "written" if int(answer["satp"], 16) == legal else "kept"
    if item.kind == "same":
        return SAME
    return item.known if item.kind in ("known", "by", "gap") else None if item.kind == "alike" else "ok"


def judge_lines(rng, item, texts, parts):
    """Questions about outcomes of an access: one that is permitted, one that mostly is not, and each of `parts`, the faults of a part of a
    misaligned access; with the answers."""
    first, *_ = item.player.split(maxsplit=1)[1:]
    for text in (rng.choice(texts), changed(rng, rng.choice(texts)), *sorted(parts)):
        yield f"judge {first} {fields_of(text)}", "yes" if text in texts or text in parts else "no"


def changed(rng, text):
    """Another outcome: one field of it is another, or it has one more or less."""
    words = text.split()
    place = words.index("set") if "set" in words else None
    if place is not None and rng.random() < 0.7:
        at, bit = rng.choice([(place + 1, rng.choice([3, 12, 13])), (place + 2, rng.choice([0, 7, 10]))])
        words[at] = f"{int(words[at], 16) ^ 1 << bit:x}"
    elif words[0] == "fault":
        words[1] = str(rng.choice([1, 5, 7, 12, 13, 15, int(words[1]) + 1]))
    elif rng.random() < 0.3 and place is None:
        words += ["set", f"{BASE + 8 * rng.randrange(2):x}", "cf"]
    elif rng.random() < 0.2:
        words[2:3] = ["io"] if words[2:3] == ["nc"] else ["nc"]
    else:
        words[1] = f"{int(words[1], 16) ^ rng.choice([0x1000, 0x2000, 8, 1 << 56]):x}"
    return " ".join(words)


def fields_of(text):
    """An outcome with all its fields, as a player's line has it; a cause in hexadecimal digits."""
    words = text.split()
    kind, value, *rest = words
    update = rest[rest.index("set") + 1 :] if "set" in rest else ["-", "-"]
    memory_type = 1 if "nc" in rest else 2 if "io" in rest else 0
    return f"{kind} {value if kind == 'pa' else format(int(value), 'x')} {memory_type} {' '.join(update)}"
