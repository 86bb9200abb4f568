"""Tells random histories to the class Mmu over the library and over the program, and compares all that they return: mmus.py PROGRAM COUNT"""
import collections
import random
import sys

from cases import BASE, FRAMES, History
from xv6vm import Access, Granted, MemoryType, Mmu, Mode, Profile, Refused, Request, Update

ACCESSES, MODES = list(Access), list(Mode)


def profile_of(history):
    schemes = {f"sv{39 + 9 * (it - 8)}": it in history.schemes for it in (8, 9, 10)}
    svade, svadu = {"svade": (True, False), "svadu": (False, True), "ad-either": (True, True)}[history.ad]
    sizes = {"asid_bits": history.asid_bits, "pmp_count": history.pmp_count}
    return Profile(**schemes, **sizes, svnapot=history.svnapot, svpbmt=history.svpbmt, svade=svade, svadu=svadu)


def event(rng, history):
    """A call of both, with its arguments."""
    choice = rng.random()
    if choice < 0.4:
        frame = rng.randrange(FRAMES)
        return "mem", (BASE + 4096 * frame + 8 * rng.randrange(2), history.entry(frame))
    if choice < 0.6:
        mode = rng.choice([0, 1, *history.schemes * 3])
        return "satp", (rng.choice([mode << 60 | rng.randrange(2) << rng.choice([44, 59]) | BASE >> 12, 0]),)
    if choice < 0.75 and history.pmp_count:
        config = rng.choice([0, 0x1F, 0x1F, 0x0F, 0x19, 0x9F, 0x8F])
        return "pmp", (rng.randrange(3), config, rng.choice([(1 << 54) - 1, BASE + 0x3000 >> 2, (BASE >> 2) + 0x1FF]))
    if choice < 0.85 and history.moded:
        return "status", (rng.random() < 0.5, rng.random() < 0.5, rng.random() < 0.5, rng.choice(MODES))
    return "fence", (rng.choice([None, history.address()]), rng.choice([None, history.asid()]))


def other(rng, outcome):
    """An outcome that mostly is not permitted."""
    if isinstance(outcome, Refused):
        return rng.choice([Refused(outcome.cause ^ 1), Refused(outcome.cause, Update(BASE, 1)), Granted(BASE)])
    return rng.choice([
        Granted(outcome.address ^ 0x1000, outcome.memory_type, outcome.update),
        Granted(outcome.address, outcome.memory_type, Update(BASE, 0xDF)),
        Granted(outcome.address, MemoryType.IO, outcome.update),
        Refused(13),
    ])


class Pair:
    """Two MMUs that must return the same."""

    def __init__(self, mmus, counts):
        self.mmus, self.counts, self.told, self.differences = mmus, counts, [], 0

    def call(self, name, *arguments):
        """What both return; the first difference is printed with the calls before it."""
        self.told.append(f"{name}{arguments}")
        first, second = (getattr(it, name)(*arguments) for it in self.mmus)
        if name == "judge":
            self.counts["verdicts of Mmu, " + ("permitted" if second else "not permitted")] += 1
            self.differs(bool(second) != (second.reason is None) or first.reason is not None, f"the reasons are {first.reason}, {second.reason}")
            first, second = (bool(first), first.outcomes), (bool(second), second.outcomes)
        self.differs(first != second, f"{first}, over the program {second}")
        return second

    def differs(self, is_so, text):
        if is_so and not self.differences:
            print("differs: over the library", text, *self.told, sep="\n    ")
        self.differences += is_so


def tell(rng, counts, program):
    """A history. Returns how many differences there were."""
    history = History(rng)
    words = [0] * (512 * FRAMES)
    for frame in range(FRAMES):
        words[512 * frame], words[512 * frame + 1] = history.entry(frame), history.entry(frame)
    given = {"words": words, "profile": profile_of(history)}
    with Mmu(BASE, 8 * len(words), **given) as library, Mmu(BASE, 8 * len(words), program=program, **given) as asked:
        pair = Pair((library, asked), counts)
        if history.pmp_count:
            pair.call("pmp", history.pmp_count - 1, 0x1F, (1 << 54) - 1)
        pair.call("satp", history.schemes[0] << 60 | BASE >> 12)
        for _ in range(12):
            name, arguments = event(rng, history)
            pair.call(name, *arguments)
            request = Request(history.address(), rng.choice([2, 4]), rng.choice(ACCESSES), rng.choice(MODES if history.moded else MODES[:2]))
            outcomes = sorted(pair.call("outcomes", request), key=repr)
            counts["accesses of Mmu"] += 1
            if outcomes:
                pair.call("judge", request, other(rng, rng.choice(outcomes)))
                pair.call("judge", request, rng.choice(outcomes))
    return pair.differences


def main():
    program, count = sys.argv[1], int(sys.argv[2])
    counts, differences = collections.Counter(), 0
    for seed in range(count):
        differences += tell(random.Random(seed), counts, program)
    for name, number in counts.items():
        print(name, number)
    return 1 if differences else 0


if __name__ == "__main__":
    sys.exit(main())
