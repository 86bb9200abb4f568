#!/usr/bin/python3
"""Compares a client with the reference on some seeds, and prints what it finds as one line of JSON: piece.py JSON

Its argument says what to do (`Settings.tasks` of journal.py). It keeps nothing and needs no file of the campaign, so an engine may
run it anywhere, and again.
"""
import collections
import json
import os
import pathlib
import resource
import sys
import tempfile

sys.dont_write_bytecode = True
sys.path.insert(0, str(pathlib.Path(__file__).resolve().parent))
from limits import ran
from reasons import ACCESS, DENIED, OTHERS, changes_nothing, number, questions, reason_of

MOST_BYTES, MOST_ANSWERS = 1 << 24, 1 << 28
# The reference may be slow where the client is not.
REFERENCE_TIMES = 10
# What `timeout` says of a program that is not there, or cannot be run.
NOT_RUN = ("crashes with status 126", "crashes with status 127")


class TaskError(Exception):
    """The task cannot be done here: it is left undone."""


class Clock:
    """Processor seconds of the programs that ran, by name."""

    def __init__(self):
        self.seconds, self.last = collections.Counter(), self.now()

    def now(self):
        used = resource.getrusage(resource.RUSAGE_CHILDREN)
        return used.ru_utime + used.ru_stime

    def add(self, name):
        now = self.now()
        self.seconds[name] += now - self.last
        self.last = now


def lines_of(client):
    """The lines of a client that have an answer. Of one that was ended, the last may be a part of a line."""
    lines = client.out.decode(errors="replace").split("\n")
    whole = lines[:-1] if client.trouble else lines
    return [line for line in map(str.strip, whole) if line and not line.startswith("#")]


def garbage(lines, answers, end):
    """What of a client's lines cannot be judged, in words; "" if nothing. At `end` is the first faulty one."""
    if end < len(lines):
        return f"prints garbage: {lines[end][:200]!r} is answered with {answers[end][:300]!r}"
    return next((f"prints an access without an outcome: {it!r}" for it in lines if it.startswith(ACCESS) and "=>" not in it), "")


def reasons_in(lines, answers):
    """The reason of each access that is not permitted, by its number. If it sets A or D, the client goes on with a word in memory that
    the reference has not: until a line `mem` writes that word, no more is counted."""
    found, differing = {}, set()
    for at, (line, answer) in enumerate(zip(lines, answers)):
        if differing and line.startswith("mem "):
            differing.discard(number(line.split()[1]))
        if answer.startswith(DENIED) and not differing:
            found[at] = reason_of(answer)
            if " set " in line:
                differing.add(number(line.split(" set ")[1].split()[0]))
    return found


class Piece:
    """The work on some seeds, and what came of it."""

    def __init__(self, task, scratch):
        self.task, self.file, self.clock = task, pathlib.Path(scratch, "lines"), Clock()
        self.accesses, self.lines, self.differences, self.troubles = 0, 0, [], []
        self.shrunk = collections.Counter()

    def trouble(self, seed, text, err):
        self.troubles.append({"client": self.task["client"], "seed": seed, "trouble": text, "stderr": err.decode(errors="replace")})

    def reference(self, lines, words=()):
        """The answers of the reference to lines, and what went wrong. Its status is 1 if an outcome is not permitted."""
        self.file.write_bytes("\n".join([*lines, ""]).encode())
        done = ran([self.task["reference"], "mmu", str(self.file), *words], REFERENCE_TIMES * self.task["seconds"], MOST_ANSWERS)
        if done.trouble in NOT_RUN:
            raise TaskError(f"{self.task['reference']} cannot be run: {done.err.decode(errors='replace')}")
        trouble = "" if done.trouble == "crashes with status 1" and not done.err else done.trouble
        return done.out.decode(errors="replace").split("\n")[:-1], trouble

    def run_seed(self, seed):
        command = self.task["command"].replace("{seed}", str(seed))
        client = ran(["sh", "-c", command], self.task["seconds"], MOST_BYTES)
        self.clock.add("client")
        lines = lines_of(client)
        answers, wrong = self.reference(lines) if lines else ([], "")
        self.clock.add("reference")
        if wrong or len(answers) != len(lines):
            self.trouble(seed, f"the reference {wrong or f'gives {len(answers)} answers to {len(lines)} lines'}", b"")
            return
        end = next((at for at, answer in enumerate(answers) if answer.startswith("error")), len(lines))
        judged = sum("=>" in line for line in lines[:end])
        self.accesses, self.lines = self.accesses + judged, self.lines + end
        self.compare(seed, lines[:end], answers[:end])
        wrong = client.trouble or garbage(lines, answers, end) or ("" if judged else "prints no access")
        if wrong:
            self.trouble(seed, f"the client {wrong}", client.err)

    def compare(self, seed, lines, answers):
        """Collects the differences of a seed: of each reason, with what else may be the cause, the first, and how many there are."""
        reasons = reasons_in(lines, answers)
        also = self.other_causes(lines, reasons)
        counts = collections.Counter((reason, also[at]) for at, reason in reasons.items())
        first = {(reason, also[at]): at for at, reason in reversed(reasons.items())}
        for (reason, causes), at in sorted(first.items(), key=lambda it: it[1]):
            found = {"client": self.task["client"], "seed": seed, "reason": reason, "also": list(causes), "count": counts[reason, causes]}
            found |= {"access": lines[at], "answer": answers[at]}
            if self.shrunk[reason] < self.task["shrink"]:
                self.shrunk[reason] += 1
                found["transcript"] = self.transcript(lines, answers, at)
            self.differences.append(found)

    def other_causes(self, lines, reasons):
        """What else may be the cause of each access that is not permitted."""
        found = {at: () for at in reasons}
        for cause in OTHERS:
            asked, places = questions(cause, lines, reasons)
            answers = self.reference(asked)[0] if places else []
            for at in sorted({places[n] for n, answer in enumerate(answers) if n in places and answer.startswith("permitted")}):
                found[at] += (cause,)
        self.clock.add("reference")
        return found

    def transcript(self, lines, answers, at):
        """The fewest lines by which a line is not permitted, and the answer as a comment."""
        before = [line for n, line in enumerate(lines[:at]) if not answers[n].startswith(DENIED) and not changes_nothing(line)]
        shrunk, wrong = self.reference([*before, lines[at]], ["--shrink"])
        self.clock.add("shrink")
        return [*before, lines[at]] if wrong or lines[at] not in shrunk else shrunk

    def result(self):
        task, (first, last) = self.task, self.task["seeds"]
        for seed in range(first, last + 1):
            self.run_seed(seed)
        own = resource.getrusage(resource.RUSAGE_SELF)
        self.clock.seconds["worker"] = own.ru_utime + own.ru_stime
        seconds = {name: round(self.clock.seconds[name], 3) for name in ("client", "reference", "shrink", "worker")}
        return {"piece": task["piece"], "seeds": task["seeds"], "lines": self.lines, "accesses": self.accesses, "seconds": seconds,
                "differences": self.differences, "troubles": self.troubles}


def main():
    task = json.loads(sys.argv[1])
    os.chdir(task["folder"])
    with tempfile.TemporaryDirectory(prefix="campaign-") as scratch:
        print(json.dumps(Piece(task, scratch).result()))


if __name__ == "__main__":
    try:
        main()
    except (TaskError, OSError) as error:
        sys.exit(f"piece {json.loads(sys.argv[1])['piece']}: {error}")
    except KeyboardInterrupt:
        sys.exit(130)
