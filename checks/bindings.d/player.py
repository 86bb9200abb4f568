"""Answers lines of checks/bindings by the package xv6vm: one line of answer for each line of standard input. player/src/main.rs answers the
same by the crate xv6vm."""
import ctypes
import sys

from xv6vm import Access, Granted, Hart, Memory, MemoryType, Mode, NoAnswer, Outcome, Profile, Question, Refused, Regions, Request, Script
from xv6vm import ScriptError, Status, Tlb, Update, _library, mstatus, translate_by
from xv6vm.hart import BITS

ERRORS = {Status.UNKNOWN: "unknown", Status.BARE: "bare", Status.ACCESS_FAULT: "outside"}
KINDS = {"leaf": Status.LEAF, "bare": Status.BARE, "page-fault": Status.PAGE_FAULT, "access-fault": Status.ACCESS_FAULT}
NAMES = {status: name for name, status in KINDS.items()}
TYPES = {MemoryType.PMA: "", MemoryType.NC: " nc", MemoryType.IO: " io"}
STRUCTS = ("outcome", "leaf", "entry", "reached", "walk", "event", "pmp", "hart", "access", "judged", "played")


def optional(text):
    return None if text == "-" else int(text, 16)


def request(address, width, access, mode):
    return Request(int(address, 16), int(width, 16), Access(int(access)), Mode(int(mode)))


def judged(kind, value, memory_type, place, word):
    update = None if place == "-" else Update(int(place, 16), int(word, 16))
    return Granted(int(value, 16), MemoryType(int(memory_type)), update) if kind == "pa" else Refused(int(value, 16), update)


def judged_text(outcome):
    told = f"pa {outcome.address:x}{TYPES[outcome.memory_type]}" if isinstance(outcome, Granted) else f"fault {outcome.cause}"
    return told if outcome.update is None else f"{told} set {outcome.update.address:x} {outcome.update.word:x}"


def outcome(kind, *numbers):
    numbers = [int(it, 16) for it in numbers]
    if kind == "leaf":
        return Outcome(KINDS[kind], *numbers)
    return Outcome(KINDS[kind], address=numbers[0]) if kind == "bare" else Outcome(KINDS[kind], cause=numbers[0])


def outcome_text(it):
    if it.status == Status.NO_ENTRY:
        return "error no-entry"
    if it.status == Status.LEAF:
        return f"leaf {it.level} {it.word:x} {it.address:x}"
    return f"{NAMES[it.status]} {it.address:x}" if it.status == Status.BARE else f"{NAMES[it.status]} {it.cause}"


def translation_text(it):
    told, reason = outcome_text(it.outcome), it.reason
    return told if reason is None else f"{told} step {reason.step:d} {reason.level} {reason.address:x} {reason.word:x} {reason.byte:x}"


class Player:
    def __init__(self):
        self.memory, self.tlb, self.hart = Memory(0, 0), Tlb(0), Hart()

    def do_memory(self, base_ppn, count):
        self.memory = Memory(int(base_ppn, 16), int(count, 16))

    def do_word(self, address, word):
        self.memory[int(address, 16)] = int(word, 16)

    def do_translate(self, satp, address, access, mode):
        return outcome_text(self.memory.translate(int(satp, 16), int(address, 16), Access(int(access)), Mode(int(mode))))

    def do_by(self, satp, address, access, mode):
        words, first = self.memory.words, 512 * self.memory.base_ppn

        def read(place):
            assert place % 8 == 0
            return words[place // 8 - first] if 0 <= place // 8 - first < len(words) else None

        return translation_text(translate_by(read, int(satp, 16), int(address, 16), Access(int(access)), Mode(int(mode))))

    def do_regions(self, satp, address, access, mode, *told):
        numbers, lent = [int(it, 16) for it in told], memoryview(self.memory.words).cast("B")
        pairs = zip(numbers[::2], numbers[1::2])
        regions = Regions(*(Memory.over(self.memory.base_ppn + first, lent[4096 * first : 4096 * (first + count)]) for first, count in pairs))
        return translation_text(regions.translate(int(satp, 16), int(address, 16), Access(int(access)), Mode(int(mode))))

    def do_lookup(self, satp, address):
        it = self.memory.lookup(int(satp, 16), int(address, 16))
        return "none" if it is None else f"leaf {it.level} {it.word:x} {it.address:x} {int(it.is_global)}"

    def do_tlb(self, places):
        self.tlb = Tlb(int(places, 16))

    def do_fill(self, satp, address):
        self.tlb.fill(self.memory, int(satp, 16), int(address, 16))

    def do_match(self, first, address, asid):
        place = self.tlb.match(int(first, 16), int(address, 16), int(asid, 16))
        return "none" if place is None else f"place {place}"

    def do_use(self, place, address, asid, access, mode):
        return outcome_text(self.tlb.use(int(place, 16), int(address, 16), int(asid, 16), Access(int(access)), Mode(int(mode))))

    def do_evict(self, place):
        self.tlb.evict(int(place, 16))

    def do_tlbfence(self, address, asid):
        self.tlb.fence(optional(address), optional(asid))

    def do_permits(self, satp, address, access, mode, *told):
        is_so = self.tlb.permits(self.memory, int(satp, 16), int(address, 16), Access(int(access)), Mode(int(mode)), outcome(*told))
        return "yes" if is_so else "no"

    def do_question(self, satp, address, access, mode, *told):
        question = Question(self.memory, int(satp, 16), int(address, 16), Access(int(access)), Mode(int(mode)))
        return "yes" if self.tlb.permits_of(question, outcome(*told)) else "no"

    def do_entries(self):
        told = (f"{it.address:x} {it.word:x} {it.level} {it.asid:x} {it.is_global} {it.kind}" for it in self.tlb.entries())
        return "; ".join(told)

    def do_begin(self, bits, asid_bits, pmp_count):
        has = {name: bool(int(bits, 16) & bit) for name, bit in BITS.items()}
        self.hart = Hart(Profile(**has, asid_bits=int(asid_bits, 16), pmp_count=int(pmp_count, 16)))

    def do_status(self, sum_, mxr, mprv, mpp):
        self.hart.status(mstatus(sum_ == "1", mxr == "1", mprv == "1", Mode(int(mpp))))

    def do_mem(self, address, word):
        address, word = int(address, 16), int(word, 16)
        self.hart.mem(address, self.memory[address], word)
        self.memory[address] = word

    def do_satp(self, word):
        return "written" if self.hart.satp(int(word, 16)) else "kept"

    def do_pmp(self, entry, config, address):
        self.hart.pmp(int(entry, 16), int(config, 16), int(address, 16))

    def do_fence(self, address, asid):
        self.hart.fence(optional(address), optional(asid))

    def do_events(self):
        return f"events {self.hart.events}"

    def do_judge(self, *words):
        return "yes" if self.hart.judge(self.memory, request(*words[:4]), judged(*words[4:])) else "no"

    def do_outcomes(self, *words):
        return "; ".join(sorted(map(judged_text, self.hart.outcomes(self.memory, request(*words)))))

    def do_play(self, path):
        with open(path, "rb") as script:
            try:
                text = Script(script.read()).play()
            except ScriptError as error:
                return f"fault {error.line} {error.cause.name.lower().replace('_', '')}"
        told = text.replace("\n", "\\n")
        return f'played "{told}"'

    def do_layout(self):
        return "; ".join(layout(name) for name in STRUCTS)


def layout(name):
    raw = getattr(_library, f"Raw{name.capitalize()}")
    fields = ((it[0], getattr(raw, it[0])) for it in raw._fields_)
    told = " ".join(f"{field.replace('is_global', 'global')} {at.offset} {at.size}" for field, at in fields)
    return f"xv6vm_{name} {ctypes.sizeof(raw)} {told}"


def main():
    player = Player()
    for line in sys.stdin:
        word, *fields = line.split()
        try:
            answer = getattr(player, f"do_{word}")(*fields)
        except NoAnswer as error:
            answer = f"error {ERRORS[error.status]}"
        sys.stdout.write(f"{'ok' if answer is None else answer}\n")


if __name__ == "__main__":
    main()
