"""Plays a script through the program too, compares each answer with what Linux did, and counts."""
import collections
import os
import re
import subprocess
import tempfile
import time

from player import Player, PlayerError, Told, replayed
from writer import Writer

SECONDS, SHORTENING = 60, 60
PROCESSORS = sorted(os.sched_getaffinity(0))
DECIDERS = {
    "asked": "decided by Linux",
    "again": "services of faults and second tries",
    "own": "by the player's own accounts, not asked of Linux",
    "scheduling": "scheduling",
    "explained": "explained",
}
AUDIT = "audit by Linux's frames"
NO_LINE = Told("own", "more answers than lines", [])

# A line of a script whose answer differs from all that Linux permits.
Difference = collections.namedtuple("Difference", "number line kind expected answer")
# A script that was played both ways. `error`: the player or the program failed.
Trial = collections.namedtuple("Trial", "seed lines differences counts error")


def matched(expected, answer, way):
    """How an answer is one of those expected: `now`, `later` or `wrong`, and the reason if it is explained. None if it is none of them. If
    a way is given, it must be this one."""
    for text in expected:
        form, _, exact = text.partition("=")
        reason, _, pattern = text.partition("~")
        if form == "wrong":
            return None
        if form in ("now", "later"):
            if exact == answer and way in (None, form):
                return form, None
        elif re.fullmatch(pattern, answer):
            return "now", reason
    return None


def compared(told, answers, lines):
    """The differences, and the counts of what agrees."""
    counts, differences, way = collections.Counter(), [], None
    for (number, it), answer in zip(told, answers):
        found = matched(it.expected, answer, way if it.kind.startswith("fix") else None)
        way, reason = found or (None, None)
        if found is None:
            differences.append(Difference(number, lines[number - 1] if number else "", it.kind, it.expected, answer))
            continue
        counts["decider", "explained" if reason else it.decider] += 1
        counts[("reason", reason) if reason else ("kind", it.kind)] += 1
        counts["frames", AUDIT] += frames_of(it) if it.kind == AUDIT else 0
    return differences, counts


def frames_of(told):
    """The frames that an audit of Linux's frames counts."""
    return int(re.match(r"now=free -?\d+ held (\d+)", told.expected[0])[1])


def answers_of(program, lines):
    """What the program answers, and its error if it fails."""
    with tempfile.NamedTemporaryFile(mode="w", suffix=".script") as file:
        file.write("\n".join(lines) + "\n")
        file.flush()
        try:
            ran = subprocess.run([program, "play", file.name], capture_output=True, text=True, timeout=SECONDS)
        except subprocess.TimeoutExpired:
            return [], f"the program does not end within {SECONDS} seconds"
    error = f"the program ends with status {ran.returncode}: {ran.stderr.strip()}" if ran.returncode or ran.stderr else None
    return ran.stdout.splitlines(), error


def judged(program, seed, lines, told):
    """The trial of a script that Linux played."""
    answers, error = answers_of(program, lines)
    missing = len(told) - len(answers)
    told = told + [(0, NO_LINE)] * -missing
    differences, counts = compared(told, answers + ["nothing"] * missing, lines)
    counts["scheme", "Sv48" if any(re.match("boot .*sv48", line) for line in lines) else "Sv39"] += 1
    return Trial(seed, lines, differences, counts, error)


def tried(program, player, abilities, seed, altered=0):
    """Writes the script of a seed, and plays it both ways. The player and its processes take turns, which is faster on one processor."""
    os.sched_setaffinity(0, {PROCESSORS[seed % len(PROCESSORS)]})
    writer = Writer(seed, abilities)
    with Player(player, writer.options, altered) as playing:
        playing.declare(f"# seed {seed}, player: {' '.join(writer.options)}")
        try:
            writer.write(playing)
        except PlayerError as error:
            return Trial(seed, playing.lines, [], collections.Counter(), str(error))
    return judged(program, seed, playing.lines, playing.told)


def tried_again(program, player, lines):
    """Plays a kept script both ways. Its first line has the words of the player."""
    options = lines[0].partition("player:")[2].split()
    try:
        told = replayed(player, options, lines)
    except PlayerError as error:
        return Trial(None, lines, [], collections.Counter(), str(error))
    return judged(program, None, lines, told)


# ---- shorter scripts

# What decides which process maps a file. If a file is mapped shared to write, a script without such a line could differ by design.
SHARING = ("start", "fork", "exec", "exit", "mmap", "munmap")
KEPT = ("file", "image", "boot", "#")


def shares_to_write(lines):
    return any(re.match(r"mmap \d+ \d+ [2367] 1 ", line) for line in lines)


def removable(lines):
    kept = KEPT + SHARING if shares_to_write(lines) else KEPT
    return [number for number, line in enumerate(lines) if line.split()[0] not in kept]


def first_difference(trial):
    """What the first difference is about: the line, what is counted, and the kind of the model's answer. None if there is none."""
    if trial.error or not trial.differences:
        return None
    first = trial.differences[0]
    return first.line, first.kind, re.match(r"(?:refused|fault|ended|short) \S+|\S*", first.answer)[0]


def shorter(program, player, trial):
    """The script up to its first difference, without lines that this difference does not need, as far as there is time."""
    lines, end = trial.lines[: trial.differences[0].number], time.monotonic() + SHORTENING

    def differs(fewer):
        return first_difference(tried_again(program, player, fewer)) == first_difference(trial)

    if not lines or not differs(lines):
        return trial.lines
    size = 32
    while size:
        numbers = removable(lines[:-1])
        for start in range(len(numbers) - size, -1, -size):
            left_out = set(numbers[start : start + size])
            fewer = [line for number, line in enumerate(lines) if number not in left_out]
            if time.monotonic() < end and differs(fewer):
                lines = fewer
        size //= 2
    return lines
