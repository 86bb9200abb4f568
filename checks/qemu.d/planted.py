"""Plants errors, one at a time, and demands that the comparison with QEMU finds each.

The errors in walks are wrong bodies of crates/walk_rules/edits, which the prover refuses. Here nothing is proved: `rt try` builds
the sources as they are, in a copy of the repository, with a program of few crates around the walk. QEMU is asked once. The errors
in rows are fences that QEMU's hart leaves out.
"""
import pathlib
import re
import subprocess

from planted_program import tried_in_copies
from trial import unexplained

# Its name does not end in .rt, lest the gate look for a crate around it.
MAIN = pathlib.Path(__file__).resolve().parent / "planted_main.rt.txt"
CRATE, LIBRARIES = "planted_mmu", "mmu_lines"
# What each error is, and its file in crates/walk_rules/edits.
EDITS = {
    "MXR makes what can be read writable": "mxr_for_stores",
    "SUM lets S-mode fetch from pages with U": "sum_for_fetches",
    "MPRV counts for fetches": "mprv_for_fetches",
    "M-mode is translated": "machine_is_translated",
    "a NAPOT leaf may end in 0000": "napot_of_other_sizes",
    "a NAPOT leaf maps 4 KiB": "napot_reaches_a_page",
    "PBMT 3 is granted": "pbmt_three_granted",
    "a pointer may have PBMT": "pointer_with_pbmt",
    "Sv57 has four levels": "sv57_of_four_levels",
    "the highest bit of an address may be any": "sign_bit_left_out",
    "a superpage is aligned to 8 bits a level": "superpage_of_eight_bits",
    "the offset in a superpage has 12 bits": "offset_of_a_page",
    "a store sets D alone": "store_sets_dirty_alone",
    "a clear A does not matter to a store": "store_without_accessed",
    "Svade sets A and D, too": "svade_updates",
    "the last PMP entry decides": "last_entry_decides",
    "a PMP entry may match a part of an access": "one_byte_in_reach",
    "a region of TOR has its upper end": "tor_with_its_upper_end",
    "a region of TOR lacks its lower end": "tor_without_its_lower_end",
    "a region of NA4 has 8 bytes": "na4_of_eight_bytes",
    "a region of NAPOT has half of its size": "napot_of_half_the_size",
    "a locked PMP entry does not bind M-mode": "locked_entry_frees_machine",
    "a PTE is read as by M-mode": "read_of_machine",
    "A and D are set if PMP grants a load": "update_is_a_load",
}
SECONDS = 300
# One memory for each scheme and profile of one QEMU, with so many accesses: `rt try` takes 1 MiB of answers at most.
MEMORIES, ACCESSES = 1, 700


class EditError(Exception):
    """An edit cannot be applied, or the program with it not be run."""


def edited(scratch, name):
    """Applies an edit, and returns the changed file with the text that it had."""
    crate = scratch / "crates" / "walk_rules"
    edit = crate / "edits" / f"{name}.edit"
    if not edit.is_file():
        raise EditError(f"there is no edit {name} of walk_rules")
    said = edit.read_text(encoding="utf-8")
    file = crate / re.search(r"^file: (.*)$", said, re.MULTILINE)[1]
    old = text = file.read_text(encoding="utf-8")
    for before, after in re.findall(r"^old: (.*)\nnew: (.*)$", said, re.MULTILINE):
        if text.count(before) != 1:
            raise EditError(f"{name}: `{before}` is not once in {file.name}")
        text = text.replace(before, after)
    file.write_text(text, encoding="utf-8")
    return file, old


def tried(scratch, made):
    """The answers of the program of the copy to the questions of all trials, but for those that are `ok`."""
    questions = scratch / "questions"
    questions.write_text("".join(it.file.read_text() for it in made))
    command = ["rt", "try", "--seconds", str(SECONDS)]
    with open(questions, "rb") as file:
        ran = subprocess.run(command, cwd=scratch / "crates" / CRATE, stdin=file, capture_output=True, text=True)
    if ran.returncode:
        raise EditError(f"rt try ends with status {ran.returncode}: {ran.stdout[-500:]}{ran.stderr[-2000:]}")
    return iter(ran.stdout.splitlines())


def count_unexplained(made, answers):
    """How many of the answers differ from QEMU without explanation, and how many there are."""
    wrong = accesses = 0
    for it in made:
        text = "".join(f"{wanted if wanted == 'ok' else next(answers)}\n" for wanted in it.questions.wanted)
        wrong += unexplained(it, text)
        accesses += sum(len(memory.accesses) for memory in it.memories)
    return wrong, accesses


def try_edits(root, trials, schemes, seed):
    """Tries the program without an error, then with each, by what the last QEMU did. Returns how many do not give what they
    must."""
    failed, trial = 0, trials[-1]
    profiles = trial.qemu.profiles
    made = [trial.made(seed, scheme, profile, False, MEMORIES, ACCESSES) for scheme in schemes for profile in profiles]
    tries = {None: None, **EDITS}

    def attempt(scratch, what):
        if what is None:
            return count_unexplained(made, tried(scratch, made))
        file, old = edited(scratch, tries[what])
        counted = count_unexplained(made, tried(scratch, made))
        file.write_text(old, encoding="utf-8")
        return counted

    for what, (wrong, accesses) in zip(tries, tried_in_copies(root, (CRATE, LIBRARIES, MAIN), tries, attempt)):
        planted = f"if {what} ({tries[what]})" if what else "with no error planted"
        print(f"{wrong:>7,} of {accesses:,} accesses differ without explanation {planted}", flush=True)
        failed += (wrong != 0) != bool(what)
    print(f"{failed} of {1 + len(EDITS)} programs are not judged as they must be")
    return failed


def try_left_out(judged):
    """Whether no outcome of rows in which fences are left out is refused, in the judgements of any QEMU."""
    refused = sum(len(it.refused) for it in judged)
    accesses = sum(it.counts.total() for it in judged)
    print(f"{refused:>7,} of {accesses:,} outcomes are not permitted if the hart leaves out its fences for an address or an ASID")
    return refused == 0
