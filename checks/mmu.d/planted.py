#!/usr/bin/env python3
"""Plants errors, one at a time, and demands that the comparison with harts finds each.

First in a judge that stands in for the program, judge.py with rules.py: it searches as crates/access_judge does, and answers the same
lines. Then in the sources of the program, where nothing is proved: `rt try` builds them in a copy of the repository, which takes a
minute for each error. A text is replaced by another. As a script it answers lines by such a copy: planted.py FOLDER mmu -
"""
import pathlib
import shutil
import subprocess
import sys
import tempfile

HERE = pathlib.Path(__file__).resolve().parent
ROOT = HERE.parent.parent
sys.path.append(str(ROOT / "checks"))
from answers import differences
from planted_program import tried_in_copies

FILES = ("judge.py", "rules.py")
# The program of few crates that answers lines. Its name does not end in .rt, lest the gate look for a crate around it.
MAIN, CRATE, LIBRARIES = HERE / "planted_main.rt.txt", "planted_mmu", "mmu_lines"
# `rt try` takes 1 MiB of answers at most.
MOST_LINES, SECONDS = 5000, 300

# What each error is, its file, and pairs of a text and what stands in its place.
ERRORS = [
    (
        "a fence for an address removes pointers",
        "judge.py",
        (
            "if it.is_global or it.last >= stand.epoch]",
            "if (it.is_global or it.last >= stand.epoch) and not "
            '(kind_of(self.profile, it.word, it.level) == "pointer" and self.is_fenced(it, va))]',
        ),
        ('(kind == "leaf" or self.became', '(kind != "invalid" or self.became'),
    ),
    (
        "a PTE that is no leaf is kept over the fence that follows a store of a leaf",
        "judge.py",
        ('(kind == "leaf" or self.became_leaf(read, va, number))', 'kind == "leaf"'),
    ),
    (
        "a fence for an address removes each PTE that is no leaf",
        "judge.py",
        ('(kind == "leaf" or self.became_leaf(read, va, number))', "True"),
    ),
    ("a leaf is looked for after the fence too", "judge.py", ("self.place(read, va), number - 1)", "self.place(read, va), self.now)")),
    (
        "a PTE of a level that the present MODE has not does not serve",
        "judge.py",
        ("return is_translated(self.satp, va) and (read", "return is_translated(self.satp, va) and read.level <= top_of(self.satp) and (read"),
    ),
    ("an address need not be canonical now", "judge.py", ("        if not is_canonical(access.va, top):\n", "        if False:\n")),
    (
        "an address need not be canonical when a PTE was read",
        "judge.py",
        ("if top is not None and is_canonical(va, top):", "if top is not None:"),
    ),
    ("MXR stands for R at stores too", "rules.py", ('"store": word & W}[kind]', '"store": word & W or (status.mxr and word & X)}[kind]')),
    ("MXR is ignored", "rules.py", ("word & R or (status.mxr and word & X)", "word & R")),
    ("SUM lets S-mode fetch from user pages", "rules.py", ('(status.sum and kind != "fetch")', "status.sum")),
    ("MPRV counts for fetches", "rules.py", ('status.mprv and kind != "fetch"', "status.mprv")),
    (
        "the last PMP entry that matches decides",
        "rules.py",
        ("    below = 0\n    for config, address in entries:\n", "    below = 0\n    for config, address in reversed(entries):\n"),
    ),
    (
        "a PMP entry may match a part of an access",
        "rules.py",
        ("            if not (first <= pa and pa + width <= end):\n                return False\n", ""),
    ),
    ("L of a PMP entry does not bind M-mode", "rules.py", ('(privilege == "M" and not config & 0x80)', 'privilege == "M"')),
    (
        "the low bits of a NAPOT leaf's PPN are taken as they are",
        "rules.py",
        ("ppn_of(word) << 12 >> bits << bits | va", "ppn_of(word) << 12 | va"),
    ),
    ("N is sound with each PPN", "rules.py", ("(level or ppn_of(word) & 15 != 8)", "level")),
    ("a NAPOT leaf serves for its own page alone", "judge.py", ("if self.profile.svnapot and stand.level == 0:", "if False:")),
    (
        "a fence for an address removes a NAPOT leaf for all 16 pages",
        "judge.py",
        (
            "kind_of(self.profile, read.word, read.level), 12 + 9 * read.level\n",
            "kind_of(self.profile, read.word, read.level), 16 if is_napot(self.profile, read.word, read.level) else 12 + 9 * read.level\n",
        ),
    ),
    ("PBMT 3 is granted", "rules.py", (" or pbmt == 3:", ":")),
    ("PBMT is sound in pointers", "rules.py", ("napot or pbmt or word & (U | A | D)", "napot or word & (U | A | D)")),
    (
        "a fence of an ASID removes global PTEs",
        "judge.py",
        ("if not read.is_global and read.last < self.spaces[read.asid]:", "if read.last < self.spaces[read.asid]:"),
    ),
    (
        "a fence for an address and an ASID removes global PTEs",
        "judge.py",
        ("(read.is_global or asid != read.asid)", "(asid != read.asid)"),
    ),
    (
        "a fence for an address and an ASID covers each ASID",
        "judge.py",
        ("if asid is not None and (read.is_global or asid != read.asid):", "if asid is not None and read.is_global:"),
    ),
    (
        "a fence of an ASID covers each ASID",
        "judge.py",
        ("self.spaces[asid] = self.now + 1", "self.spaces = collections.Counter(dict.fromkeys(range(8), self.now + 1))"),
    ),
    ("each place has its newest word alone", "judge.py", ("return found[::-1]", "return found[::-1][:1]")),
    ("each place has its two newest words alone", "judge.py", ("return found[::-1]", "return found[::-1][:2]")),
    ("a word that was replaced right before a fence is kept", "judge.py", ("if read.last < number and", "if read.last < number - 2 and")),
    (
        "a pointer of before a fence of its ASID is kept",
        "judge.py",
        ("return [it for it in found if it.is_global or it.last >= stand.epoch]", "return found"),
    ),
    (
        "a fence of an ASID does not end its walks",
        "judge.py",
        ("self.ended.get((asid_of(satp), epoch), self.now)", "self.now"),
    ),
    (
        "a write of satp ends each walk",
        "judge.py",
        ("        self.used, self.ended", "        self.lasts = {(self.satp, 0): 0}\n        self.used, self.ended"),
        ("        if used not in self.used:", "        self.lasts[used] = self.now\n        if used not in self.used:"),
        ("self.ended.get((asid_of(satp), epoch), self.now)", "self.lasts[satp, epoch]"),
    ),
    ("no update of A and D reaches what is kept", "judge.py", ("if last >= read.last and updates(read.word, was, new):", "if False:")),
    ("each store reaches the leaves that are kept", "judge.py", ("if last >= read.last and updates(read.word, was, new):", "if last >= read.last:")),
    ("A and D are compared with what was read", "judge.py", ("and self.word(place) == read.word:", "and True:")),
    ("a PTE of another ASID serves", "judge.py", ("(read.is_global or read.asid == asid_of(self.satp)) and not", "not")),
    (
        "a pointer of another ASID is followed",
        "judge.py",
        ("ppn_of(read.word), read.asid, read.is_global", "ppn_of(read.word), asid_of(self.satp), read.is_global"),
    ),
    ("a walk goes on by each pointer until now", "judge.py", ("last = self.now if read.is_global else stand.last", "last = self.now")),
    ("a fence for an address that is not canonical covers", "judge.py", ("elif is_valid(va, self.satp):", "else:")),
    (
        "a fence for an address removes a superpage for its first page alone",
        "judge.py",
        ("address >> bits == va >> bits", "address >> 12 == va >> bits << bits - 12"),
    ),
    (
        "a write of satp forgets the roots before",
        "judge.py",
        (
            "        self.satp = word\n        self.tick()\n",
            "        self.satp = word\n        self.used = []\n        self.tick()\n",
        ),
    ),
    (
        "Bare forgets what was read before",
        "judge.py",
        (
            "        self.satp = word\n        self.tick()\n",
            "        self.satp = word\n        if not word:\n            self.restart()\n        self.tick()\n",
        ),
    ),
    ("an older table may be unreadable", "judge.py", ("elif it.last == self.now and (", "elif (")),
    ("no table is unreadable but the root", "judge.py", ("elif it.last == self.now and (", "elif it.last == self.now and it.level == top and (")),
    ("a table of another ASID may be unreadable", "judge.py", ("elif it.last == self.now and (it.is_global or", "elif it.last == self.now and (True or")),
    (
        "what is below a global pointer is not global",
        "judge.py",
        ("stand.is_global or is_global(word), last) for", "is_global(word), last) for"),
    ),
    ("G of a PTE with V = 0 counts", "rules.py", ("return word & (V | G) == V | G", "return bool(word & G)")),
    (
        "a fence of all leaves older PMP entries",
        "judge.py",
        (
            "{}, [(0, self.pmp)]",
            "{}, [(0, it) for _, it in getattr(self, 'pmps', [])] + [(0, self.pmp)]",
        ),
    ),
    ("no fence is needed after a write of PMP", "judge.py", ("for since, entries in self.pmps)", "for since, entries in self.pmps[-1:])")),
    (
        "an access that PMP refuses has always updated A and D",
        "judge.py",
        ("found |= {fault, fault + update}", "found |= {fault + update}"),
    ),
    (
        "superpages need not be aligned",
        "rules.py",
        ("return bool(right and mine and ppn_of(word) % (1 << 9 * level) == 0)", "return bool(right and mine)"),
    ),
    ("a pointer may have A, D and U", "rules.py", ("napot or pbmt or word & (U | A | D)", "napot or pbmt")),
    ("bits 60 to 54 are ignored", "rules.py", (" or word >> 54 & 0x7F:", ":")),
    (
        "Sv57 is canonical as Sv48 is",
        "rules.py",
        ("    return va >> 20 + 9 * top in", "    top = min(top, 3)\n    return va >> 20 + 9 * top in"),
    ),
]


# The same errors in the sources of the program, by what they are above: a file below crates/, and pairs of texts.
PROGRAM = {
    "a fence for an address removes pointers": (
        "access_judge/src/search.rt",
        (
            "    if is_pointer(question, step) {\n        search_below",
            "    if is_pointer(question, step) {\n        if step.last < log.address_fence(12 + 9 * step.level, question.request.va, "
            "None) {\n            return;\n        }\n        search_below",
        ),
    ),
    "a PTE that is no leaf is kept over the fence that follows a store of a leaf": (
        "access_judge/src/judge.rt",
        (
            "(is_leaf(question, step.entry, step.level) || became_leaf(log, question, step, number))",
            "is_leaf(question, step.entry, step.level)",
        ),
    ),
    "a fence for an address removes each PTE that is no leaf": (
        "access_judge/src/judge.rt",
        ("became_leaf(log, question, step, number))", "number > 0)"),
    ),
    "a leaf is looked for after the fence too": (
        "access_judge/src/judge.rt",
        ("let mut moment = number - 1;", "let mut moment = log.now();"),
    ),
    "a PTE of a level that the present MODE has not does not serve": (
        "access_judge/src/judge.rt",
        ("is_translated(satp, va) && (", "is_translated(satp, va) && (match walk_rules::top_level(satp) { None => false, Some(top) => step.level <= top }) && ("),
    ),
    "MXR stands for R at stores too": (
        "walk_rules/src/status.rt",
        (
            "Access::Store => entry.has(EntryFlags::WRITE),",
            "Access::Store => entry.has(EntryFlags::WRITE) || (self.mxr && entry.has(EntryFlags::EXECUTE)),",
        ),
    ),
    "the last PMP entry that matches decides": (
        "walk_rules/src/pmp.rt",
        ("    let mut below = 0;\n", "    let mut below = 0;\n    let mut verdict = None;\n"),
        (
            "            return region.contains(pa, width) && entry.grants(privilege, access);",
            "            verdict = Some(region.contains(pa, width) && entry.grants(privilege, access));",
        ),
        (
            "    privilege == Privilege::Machine || entries.is_empty()\n",
            "    match verdict {\n        Some(it) => it,\n        None => privilege == Privilege::Machine || entries.is_empty(),\n    }\n",
        ),
    ),
    "a PMP entry may match a part of an access": ("walk_rules/src/pmp.rt", ("region.contains(pa, width) && entry", "entry")),
    "the low bits of a NAPOT leaf's PPN are taken as they are": (
        "walk_rules/src/addresses.rt",
        ("((entry.ppn() << 12 >> bits) << bits) + va.0 % (1 << bits)", "(entry.ppn() << 12) + va.0 % (1 << bits)"),
    ),
    "N is sound with each PPN": (
        "walk_rules/src/extensions.rt",
        ("if entry.to_word() >= NAPOT && !is_napot(entry, level) {", "if entry.to_word() >= NAPOT && level > 0 {"),
    ),
    "a NAPOT leaf serves for its own page alone": (
        "access_judge/src/search.rt",
        ("question.extensions.svnapot && table.level == 0", "question.extensions.svnapot && table.level == 5"),
    ),
    "PBMT 3 is granted": ("walk_rules/src/extensions.rt", ("(pbmt != 0 && (!self.svpbmt || pbmt == 3))", "(pbmt != 0 && !self.svpbmt)")),
    "a fence of an ASID removes global PTEs": (
        "access_judge/src/judge.rt",
        ("!step.global && step.last < log.space_fence(step.asid)", "step.last < log.space_fence(step.asid)"),
    ),
    "a fence for an address and an ASID removes global PTEs": (
        "access_judge/src/judge.rt",
        ("if step.global { None } else { Some(step.asid) }", "Some(step.asid)"),
    ),
    "each place has its newest word alone": (
        "access_judge/src/search.rt",
        ("        if version.since == 0 {\n            return;", "        if version.since < 1_000_000_000 {\n            return;"),
    ),
    "a table counts as searched if it was for another ASID": (
        "access_judge/src/seen.rt",
        ("as_slice().contains(table)", "as_slice().iter().any(|other| other.ppn == table.ppn && other.level == table.level)"),
    ),
    "a pointer of before a fence of its ASID is kept": (
        "access_judge/src/search.rt",
        ("(step.global || table.epoch <= step.last)", "(step.global || table.epoch < 1_000_000_000)"),
    ),
    "a fence of an ASID does not end its walks": (
        "mmu/src/history.rt",
        ("last: end.unwrap_or(self.events.len()),", "last: end.unwrap_or(0).max(self.events.len()),"),
    ),
    "A and D are compared with what was read": (
        "access_judge/src/saying.rt",
        ("Some(word) => word == step.entry.to_word(),", "Some(_) => true,"),
    ),
    "a PTE of another ASID serves": ("access_judge/src/judge.rt", ("(step.asid == satp.asid() || step.global)", "step.level < 5")),
    "a fence for an address that is not canonical covers": (
        "mmu_lines/src/player.rt",
        ("Some(top) => is_canonical(top, va),", "Some(_) => true,"),
    ),
    "a fence for an address removes a superpage for its first page alone": (
        "mmu/src/fences.rt",
        (
            "        self.put(21, va, asid, number);\n",
            "        if va.0 % (1 << 21) < 4096 {\n            self.put(21, va, asid, number);\n        }\n",
        ),
    ),
    "a write of satp forgets the roots before": (
        "mmu/src/uses.rt",
        (
            "        // there is room for it\n        let word",
            "        self.past.clear();\n        self.places.clear();\n        let place = 0;\n        let word",
        ),
    ),
    "an older table may be unreadable": ("access_judge/src/search.rt", ("table.last == log.now() && (", "(")),
    "no table is unreadable but the root": (
        "access_judge/src/search.rt",
        ("table.last == log.now() && (", "table.last == log.now() && table.level > 1 && ("),
    ),
    "what is below a global pointer is not global": (
        "access_judge/src/search.rt",
        ("global: table.global || has_global(entry),", "global: has_global(entry),"),
    ),
    "G of a PTE with V = 0 counts": (
        "access_judge/src/search.rt",
        ("entry.has(EntryFlags::VALID) && entry.has(EntryFlags::GLOBAL)", "entry.has(EntryFlags::GLOBAL)"),
    ),
    "no fence is needed after a write of PMP": (
        "mmu/src/protection.rt",
        (
            "        self.writes.push(PmpWrite { number, entries })?;\n        self.present = entries;",
            "        self.writes.push(PmpWrite { number, entries })?;\n        self.writes.clear();\n        self.first = "
            "entries;\n        self.present = entries;",
        ),
    ),
}


def replaced(file, pairs):
    """Replaces texts in a file. Returns what it had."""
    old_text = text = file.read_text()
    for old, new in pairs:
        if old not in text:
            raise ValueError(f"{file.name} has no {old!r}")
        text = text.replace(old, new)
    file.write_text(text)
    return old_text


def judge_with(folder, name, pairs):
    """A judge in a folder, with texts of a file replaced."""
    for file in FILES:
        shutil.copy2(HERE / file, folder / file)
    replaced(folder / name, pairs)
    return [sys.executable, "-B", str(folder / "judge.py")]


def plant_in_judge(groups):
    """Tries the judge without an error, and with each, on groups of scripts. Returns how many are not judged as they must be, and for
    each error the scripts that find it."""
    failed, finding = 0, {}
    with tempfile.TemporaryDirectory(prefix="planted-") as scratch:
        folder = pathlib.Path(scratch)
        found = [it for group in groups for it in differences(judge_with(folder, "judge.py", []), group)]
        print(f"{len(found)} of {sum(map(len, groups))} scripts differ with no error planted", flush=True)
        failed += bool(found)
        for what, name, *pairs in ERRORS:
            program, asked = judge_with(folder, name, pairs), 0
            for group in groups:
                asked += len(group)
                found = differences(program, group)
                if any(name == "all" for name, _, _ in found):
                    raise ValueError(f"{what}: {found[0][2]}")
                names = {name for name, _, _ in found}
                finding[what] = [it for it in group if it.name in names]
                if names:
                    break
            print(f"{len(finding[what]):>4} of {asked:>5} scripts differ if {what}", flush=True)
            failed += not finding[what]
    print(f"{failed} of {1 + len(ERRORS)} judges are not judged as they must be")
    return failed, finding


# ---- the program


def few(scripts):
    """As many of the scripts as `rt try` takes."""
    taken, lines = [], 0
    for it in scripts:
        lines += len(it.lines)
        if lines > MOST_LINES:
            break
        taken.append(it)
    return taken


def try_program(scratch, scripts, file, pairs):
    """The differences of the program of a copy on scripts, with texts of a file replaced."""
    file = scratch / "crates" / file
    old_text = replaced(file, pairs)
    found = differences([sys.executable, "-B", str(HERE / "planted.py"), str(scratch)], few(scripts))
    file.write_text(old_text)
    return found


def plant_in_program(groups, finding):
    """Tries the program without an error, and with each, on scripts that find the same error in the judge, if it has it. Returns how
    many are not judged as they must be."""
    failed, tries = 0, {None: ("mmu/src/lib.rt",), **PROGRAM}

    def attempt(scratch, what):
        name, *pairs = tries[what]
        return try_program(scratch, finding.get(what, []) + groups[0], name, pairs)

    for what, found in zip(tries, tried_in_copies(ROOT, (CRATE, LIBRARIES, MAIN), tries, attempt)):
        built = not any(it[0] == "all" for it in found)
        planted = f"if {what} (crates/{tries[what][0]})" if what else "with no error planted in the program"
        print(f"{len(found):>4} scripts differ {planted}" + ("" if built else f": {found[0][2]}"), flush=True)
        failed += bool(found) != bool(what) or not built
    print(f"{failed} of {len(tries)} programs are not judged as they must be")
    return failed


def plant(groups, with_program):
    groups = list(groups)
    failed, finding = plant_in_judge(groups)
    return failed + (plant_in_program(groups, finding) if with_program else 0)


def main():
    """Answers lines by a copy of the repository."""
    with tempfile.TemporaryFile() as lines:
        lines.write(sys.stdin.buffer.read())
        lines.seek(0)
        command = ["rt", "try", "--steps", str(10**12), "--seconds", str(SECONDS)]
        ran = subprocess.run(command, cwd=pathlib.Path(sys.argv[1]) / "crates" / CRATE, stdin=lines, capture_output=True, text=True)
    print(ran.stdout, end="")
    if ran.returncode:
        print(f"rt try ends with status {ran.returncode}: {ran.stderr[-2000:]}", file=sys.stderr)
    return int(any(line.startswith(("error", "NOT permitted")) for line in ran.stdout.splitlines()))


if __name__ == "__main__":
    sys.exit(main())
