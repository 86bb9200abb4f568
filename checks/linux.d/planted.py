"""Plants errors in the player, one at a time, and demands that the comparison with the model finds each."""
import itertools

from compare import tried
from player import alterations_of


def scripts_needed(program, player, abilities, seed, most, altered):
    """How many scripts were played until one differed, and its trial; no trial if none of them did."""
    for count in range(1, most + 1):
        trial = tried(program, player, abilities, seed + count - 1, altered)
        if trial.differences:
            return count, trial
    return most, None


def try_alterations(program, player, abilities, seed, most):
    """Plays scripts by each altered player. Returns how many of them were not found."""
    missed = 0
    for altered, name in zip(itertools.count(1), alterations_of(player)):
        count, trial = scripts_needed(program, player, abilities, seed, most, altered)
        missed += trial is None
        print(f"not found by {count} scripts: {name}" if trial is None else f"found by script {count:>3}: {name}", flush=True)
        for it in trial.differences[:1] if trial else ():
            print(f"    `{it.line[:50]}`: Linux {' or '.join(it.expected)[:60]}, the model {it.answer[:60]}", flush=True)
    return missed
