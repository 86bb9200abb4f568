"""The machine after each line of a script, as `xv6lab show` tells it between the lines: the words of all page tables, and the regions."""
import collections
import re
import subprocess

LETTERS = "VRWXUGADC"
LEVELS = {"sv39": 3, "sv48": 4}
ENTRY = re.compile(r"((?: \.\.)+)0x([0-9a-f]+): pte 0x([0-9a-f]+) pa 0x[0-9a-f]+")
FRAME = re.compile(r"  0x([0-9a-f]+) (\d+) references?")
REGION = re.compile(r"  ([a-z ]+) 0x([0-9a-f]+)\.\.0x([0-9a-f]+) ([r-][w-][x-])(?: of file (\d+) from byte (\d+) on)?")


def number_of(text):
    """The value of a number of a script: decimal digits or 0x and hexadecimal ones, with a sign or not."""
    return int(text, 16 if "0x" in text.lower() else 10)


def bit(word, letter):
    return word >> LETTERS.index(letter) & 1


def flags_of(word):
    return "".join(letter if bit(word, letter) else "-" for letter in LETTERS)


def ppn_of(word):
    return word >> 10 & (1 << 44) - 1


def kind_of(word):
    """What a word is to a walk (RISC-V Privileged Architecture 20211203, 4.3.2, steps 3 and 4)."""
    if not bit(word, "V") or (bit(word, "W") and not bit(word, "R")) or word >> 54:
        return "no leaf"
    return "leaf" if bit(word, "R") or bit(word, "X") else "table"


class Script:
    """The lines of a script by their fields, the answers that are expected of them, and the fields of its `boot`."""

    def __init__(self, path):
        self.path, self.name = path, path.name
        self.lines = path.read_text().split("\n")
        parts = [(line, "", "") if line.lstrip().startswith("#") else line.partition("=>") for line in self.lines]
        self.fields = [front.split() for front, _, _ in parts]
        self.expected = [back.strip() for _, _, back in parts]
        self.boot = next(number for number, it in enumerate(self.fields, 1) if it[:1] == ["boot"])
        harts, frames, slots, self.policy, *scheme = self.fields[self.boot - 1][1:]
        self.harts, self.frames, self.slots = number_of(harts), number_of(frames), number_of(slots)
        self.scheme = scheme[0] if scheme else "sv39"
        self.levels = LEVELS[self.scheme]
        if path.with_suffix(".expect").exists():
            answers = path.with_suffix(".expect").read_text().splitlines()
            answered = [number for number in range(1, len(self.lines) + 1) if self.is_answered(number)]
            for number, answer in zip(answered, answers, strict=True):
                self.expected[number - 1] = answer

    def is_answered(self, number):
        """Whether the line of this number is one that is answered."""
        fields = self.fields[number - 1]
        return number >= self.boot and bool(fields) and not fields[0].startswith("#")

    def questions(self, number):
        """What is asked after a line: the page tables of the slots that may have a process and, before an access, their regions."""
        slots = sum(it[:1] in (["start"], ["fork"]) for it in self.fields[:number])
        following = next((self.fields[it - 1][0] for it in range(number + 1, len(self.fields) + 1) if self.is_answered(it)), "")
        words = ["vmprint"] + ["regions"] * (following in ("fetch", "load", "store", "serve", "fix"))
        return [f"{word} {slot}" for slot in range(min(slots, self.slots)) for word in words] + ["frames"]

    def asked(self):
        """The script with the questions after each line that is answered."""
        lines = []
        for number, line in enumerate(self.lines, 1):
            lines += [line] + (self.questions(number) if self.is_answered(number) else [])
        return "\n".join(lines) + "\n"

    def states(self, program):
        """Returns the machine after each line that is answered, by its number."""
        ran = subprocess.run([program, "show", "-"], input=self.asked().encode(), capture_output=True, timeout=120)
        lines = collections.deque(ran.stdout.decode().split("\n"))
        states = {}
        for number in filter(self.is_answered, range(1, len(self.lines) + 1)):
            answers = {}
            for question in self.questions(number):
                while lines and lines[0] != question:
                    lines.popleft()
                if not lines:
                    return states
                lines.popleft()
                answers[question] = said = []
                while lines and lines[0].startswith((" ", "page table ")):
                    said.append(lines.popleft())
            states[number] = State(answers, self, states.get(self.boot))
        return states


class State:
    """The machine after a line. Page numbers and words are numbers; what is of a process is by its slot. `references` are how many leaves,
    pointers and roots name each frame: of the processes by the words, of the kernel by what `show` tells after `boot`."""

    def __init__(self, answers, script, booted):
        self.roots, self.tables, self.words, self.leaves, self.regions = {}, set(), {}, {}, {}
        self.names = collections.Counter()
        for slot in range(script.slots):
            self.read_tables(slot, answers.get(f"vmprint {slot}", []), script.levels)
            self.regions[slot] = list(filter(None, map(region_of, answers.get(f"regions {slot}", []))))
        found = filter(None, map(FRAME.fullmatch, answers["frames"]))
        said = {int(it[1], 16): int(it[2]) for it in found}
        self.kernel = booted.kernel if booted else collections.Counter(said)
        self.references = dict(self.kernel + self.names)
        self.is_said = said == self.references
        self.free, self.held = script.frames - len(self.references), len(self.references)
        self.shared = sum(count > 1 for count in self.references.values())

    def read_tables(self, slot, lines, levels):
        """Reads the page tables of a slot. Each root, pointer and leaf names a frame once."""
        path = []
        for line in lines:
            if line.startswith("page table "):
                path = [int(line.split()[2], 16) >> 12]
                self.roots[slot], self.leaves[slot] = path[0], {}
                self.tables.add(path[0])
                self.names[path[0]] += 1
            found = ENTRY.fullmatch(line)
            if found:
                depth = found[1].count("..")
                level, address, word = levels - depth, int(found[2], 16), int(found[3], 16)
                self.words[path[depth - 1], address >> 12 + 9 * level & 511] = word
                self.names[ppn_of(word)] += 1
                path[depth:] = [ppn_of(word)]
                if kind_of(word) == "leaf":
                    self.leaves[slot][address] = level, word
                elif level:
                    self.tables.add(ppn_of(word))

    def region(self, slot, address):
        """The region of a slot that holds an address, as a trace has it; None if there is none."""
        return next((it for it in self.regions[slot] if int(it["start"], 16) <= address < int(it["end"], 16)), None)


def region_of(line):
    found = REGION.fullmatch(line)
    if not found:
        return None
    region = {"kind": found[1], "start": hex(int(found[2], 16)), "end": hex(int(found[3], 16)), "rights": found[4]}
    return region | ({"file": int(found[5]), "offset": int(found[6])} if found[5] else {})
