"""Compares what the program says, what the plain walk says, and what QEMU did.

The program lists the outcomes that the standard permits: a physical address, or a fault. What QEMU must report follows: the value
that is there, the word that a store leaves there, the instruction that a fetch finds there, and the PTE in which A and D are set.
If QEMU reports anything else, the plain walk (walk.py), which must say the same as the program, is changed in one of the ways in
which this QEMU deviates, or in some together, and must then say what QEMU did, to the bit.
"""
import collections
import itertools

from machine import GRANTED, MANY_CHANGES, SATP_NOT_HELD, Outcome, QemuError
from walk import ILLEGAL_INSTRUCTION, AtMret, Fault, Granted, Hart, Nowhere

MOST_TOGETHER = 4
# The instruction MRET, which QEMU 7.2 reports.
MRET_WORD = 0x30200073

# An access and what came of it. walked: what the plain walk says. said: the outcomes by the program. got: what QEMU did. why: ""
# if all agree, the names of the deviations by which QEMU differs, or None if nothing explains the difference. same: whether QEMU
# did what the program says.
Verdict = collections.namedtuple("Verdict", "memory access walked said got why same")


def predicted(memory, access, outcome):
    """What QEMU must report of an outcome; None if the address is outside of the memory."""
    updated = {} if outcome.update is None else {outcome.update[0]: outcome.update[1]}
    if isinstance(outcome, Fault):
        return Outcome(outcome.cause, access.va, updated)
    if isinstance(outcome, Nowhere):
        cause = GRANTED if access.kind != "fetch" else ILLEGAL_INSTRUCTION
        return Outcome(cause, access.value if access.kind == "store" else 0, updated)
    address, shift, mask = outcome.pa & ~7, outcome.pa % 8 * 8, (1 << 8 * access.width) - 1
    held = updated.get(address, memory.word(outcome.pa))
    if held is None:
        return None
    if access.kind != "store":
        return Outcome(GRANTED if access.kind == "load" else ILLEGAL_INSTRUCTION, held >> shift & mask, updated)
    changes = {**updated, address: held & ~(mask << shift) | (access.value & mask) << shift}
    return Outcome(GRANTED, access.value, {at: word for at, word in changes.items() if word != memory.word(at)})


def agrees(memory, access, outcome, got):
    if isinstance(outcome, AtMret):
        return not got.changes and (got.cause == 1 or got[:2] == (ILLEGAL_INSTRUCTION, MRET_WORD))
    return predicted(memory, access, outcome) == got


def is_one_of(memory, access, outcomes, got):
    return any(agrees(memory, access, outcome, got) for outcome in outcomes)


def explained(memory, access, profile, got):
    """The names of the fewest deviations with which the plain walk says what QEMU did; None if there are none."""
    for count in range(1, MOST_TOGETHER + 1):
        for names in itertools.combinations(profile.deviations, count):
            walked = Hart(memory, profile, frozenset(names)).walked(access)
            if is_one_of(memory, access, walked.outcomes, got):
                return " and ".join(names)
    return None


def verdict(memory, access, profile, said, got):
    """Judges one access by the outcomes that the program lists, and by what QEMU did."""
    if got.cause in (SATP_NOT_HELD, MANY_CHANGES):
        raise QemuError(f"QEMU does not hold satp {access.satp:#x}, or changed more than two words: {access}")
    walked, same = Hart(memory, profile).walked(access), is_one_of(memory, access, said, got)
    if walked.outcomes != said:
        why = None
    else:
        why = "" if same else explained(memory, access, profile, got)
    return Verdict(memory, access, walked, said, got, why, same)


def told(outcome):
    """An outcome in words, as the program has them."""
    if isinstance(outcome, AtMret):
        return "trap at MRET"
    if isinstance(outcome, Nowhere):
        return "an access to nowhere"
    text = f"fault {outcome.cause}" if isinstance(outcome, Fault) else f"pa {outcome.pa:#x} {outcome.type}".rstrip()
    return text if outcome.update is None else f"{text} set {outcome.update[0]:#x} {outcome.update[1]:#x}"


def told_all(outcomes):
    return " or ".join(sorted(map(told, outcomes)))


def told_by_qemu(got):
    """An outcome of QEMU in words."""
    if got.cause == GRANTED:
        what = f"granted, value {got.value:#x}"
    elif got.cause == ILLEGAL_INSTRUCTION:
        what = f"illegal instruction {got.value:#010x}"
    else:
        what = f"fault {got.cause} at {got.value:#x}"
    return what + "".join(f", word at {pa:#x} now {word:#x}" for pa, word in got.changes.items())


def is_granted(said):
    return any(isinstance(outcome, Granted) for outcome in said)
