"""Asks `xv6lab inspect` about a dump, as text and as JSON, and compares what it says with the second listing."""
import json
import pathlib
import re
import subprocess

from tables import PAGE, SCHEMES, Memory, Space, findings, flags, shared, writable_tables

SECONDS = 600
SIZES = ["4 KiB", "2 MiB", "1 GiB", "512 GiB", "256 TiB"]


class Failed(Exception):
    """The program does not answer."""


def asked(program, dump, file, words=()):
    """What the program prints about a dump that is in a file."""
    command = [program, "inspect", file, "--at", hex(dump.at), *dump.hart.words(), *words]
    command += [word for satp in dump.satps for word in ("--satp", hex(satp))]
    ran = subprocess.run([str(it) for it in command], capture_output=True, text=True, timeout=SECONDS)
    if ran.returncode or ran.stderr:
        raise Failed(f"status {ran.returncode}: {ran.stderr[:500]}")
    return ran.stdout


def validator():
    """Tests an object by the schema; None if there is no python3-jsonschema."""
    try:
        import jsonschema
    except ImportError:
        return None
    schema = pathlib.Path(__file__).resolve().parent.parent.parent / "docs" / "schema" / "inspect.json"
    return jsonschema.Draft202012Validator(json.loads(schema.read_text(encoding="utf-8"))).is_valid


class Told:
    """What the JSON objects say."""

    def __init__(self, text):
        objects = [json.loads(line) for line in text.splitlines()]
        self.objects = objects
        self.spaces = [it for it in objects if "satp" in it]
        self.suspicious = [it for it in objects if "suspicious" in it]

    def mappings(self, number):
        return [(int(it["va"], 16), int(it["pa"], 16), it["level"], int(it["pte"], 16), int(it["place"], 16)) for it in self.spaces[number]["mappings"]]

    def tables(self, number):
        return [(int(it["va"], 16), int(it["pa"], 16), it["level"], int(it["pte"], 16), int(it["place"], 16)) for it in self.spaces[number]["tables"]]

    def findings(self):
        """Each PTE of each finding: the name, the space, its first address and level, and the other PTE."""
        for it in self.suspicious:
            at, other = it["at"], it.get("with")
            for step in range(it["count"]):
                yield it["suspicious"], told_key(at, step, at), other and told_key(other, step, at)


def told_key(at, step, first):
    """A PTE of a finding: its space, address and level, by the first one and how many were before."""
    if "va" not in at:
        return at["space"], None, None
    size = PAGE << 9 * first["level"] if "level" in first else 0
    return at["space"], int(at["va"], 16) + step * size & (1 << 64) - 1, at["level"]


def expected_runs(space):
    """The runs of the mappings as lines."""
    runs = []
    for pte in space.mappings:
        bits, pa = pte.word & ~((1 << 44) - 1 << 10), space.frame(pte)
        if runs and runs[-1][1:5] == [(pte.va - 1) & (1 << 64) - 1, pa, pte.level, bits]:
            runs[-1][1:3] = [pte.last, pa + pte.size]
            runs[-1][-1] += 1
        else:
            runs.append([pte.va, pte.last, pa + pte.size, pte.level, bits, pa, flags(pte.word), 1])
    return [f"0x{va:016x}-0x{last:016x} pa 0x{pa:016x} {letters} {count} x {SIZES[level]}" for va, last, _, level, _, pa, letters, count in runs]


def expected_text(spaces):
    """The text before what is suspicious."""
    lines = []
    for space in spaces:
        scheme, asid, root = SCHEMES[space.top], space.satp >> 44 & 0xFFFF, space.root // PAGE
        lines += [f"space {space.number}: satp {space.satp:#x} ({scheme}, ASID {asid}, root {root:#x})", f"page table 0x{space.root:016x}"]
        for pte in space.valid:
            lines.append(f"{' ..' * (space.top - pte.level + 1)}0x{pte.va:016x}: pte 0x{pte.word:016x} pa 0x{pte.ppn * PAGE:016x}")
        runs = expected_runs(space)
        lines += [f"mappings: {len(space.mappings)}, in {len(runs)} runs", *runs, ""]
    return lines


def compared_spaces(told, spaces):
    """What differs between the listings."""
    if [it["space"] for it in told.spaces] != [it.number for it in spaces]:
        yield f"{len(told.spaces)} spaces, not {len(spaces)}"
        return
    for space in spaces:
        mappings = [(it.va, space.frame(it), it.level, it.word, it.place) for it in space.mappings]
        tables = [(va, table, level, pte.word, pte.place) for table, level, va, pte in space.tables if pte]
        for name, got, wanted in (("mappings", told.mappings(space.number), mappings), ("tables", told.tables(space.number), tables)):
            if got != wanted:
                odd = sorted(set(got) ^ set(wanted))[:1] or ["their order"]
                yield f"space {space.number}: {len(got)} {name}, not {len(wanted)}: {odd[0]}"


def compared_findings(told, spaces):
    """What differs between what is suspicious."""
    said = list(told.findings())
    pairs = {"shared and writable": shared(spaces), "table writable": writable_tables(spaces)}
    alone = {(name, *at) for name, at, other in said if name not in pairs}
    for odd in sorted(alone ^ findings(spaces), key=str)[:3]:
        yield f"{'told' if odd in alone else 'not told'}: {odd}"
    for name, wanted in pairs.items():
        found = [(at, other) if name == "shared and writable" else (other, at) for it, at, other in said if it == name]
        if {it for it, _ in found} != set(wanted) or len(found) != len(wanted):
            yield f"{name}: {sorted({it for it, _ in found} ^ set(wanted), key=str)[:3]}"
        for one, other in found:
            if other not in wanted.get(one, {other}):
                yield f"{name}: {one} has no part of {other}"


def compared(program, dump, file, valid, altered=lambda told: told):
    """Compares all that is said about a dump. `altered` plants errors. Returns what differs, and the second listing."""
    memory = Memory(dump.at, dump.data)
    spaces = [Space(number, satp, dump.hart, memory) for number, satp in enumerate(dump.satps)]
    told = altered(Told(asked(program, dump, file, ["--json"])))
    wrong = [*compared_spaces(told, spaces), *compared_findings(told, spaces)]
    if valid:
        wrong += [f"not as the schema has it: {it}"[:300] for it in told.objects if not valid(it)][:1]
    lines = asked(program, dump, file).split("\n")
    wanted = expected_text(spaces)
    wrong += [f"the text has {got!r}, not {line!r}" for got, line in zip(lines, wanted) if got != line][:1]
    tail = [f"suspicious: {len(told.suspicious)}", *(it["text"] for it in told.suspicious), ""]
    if lines[len(wanted):] != tail:
        wrong.append("what is suspicious differs between text and JSON")
    return wrong, spaces, told
