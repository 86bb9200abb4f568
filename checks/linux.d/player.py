"""The player of checks/linux: how it is built, what it can do on this machine, and how it is asked."""
import collections
import re
import subprocess

SOURCES = ("driver.c", "accesses.c", "calls.c", "ledger.c", "frames.c", "process.c", "access.c")
# Its own memory must lie below that of the processes, and the stack must be free below what is pushed (access.c).
FLAGS = "-O1 -Wall -Wextra -Werror -static -no-pie -mno-red-zone -fno-stack-protector".split()
SECONDS = 20

# What is missing on a machine, by the word of `player --abilities`, and what is then not compared.
NEEDED = {
    "room": "a process may not have 256 GiB without frames (vm.overcommit_memory is 2, or there is a limit): nothing can be compared",
    "keys": "no protection keys (PKU): memory that may only be executed is not mapped, so `6 NoRead` is not compared",
    "heap": "PR_SET_MM_MAP is refused: sbrk is played by mmap and munmap alone, not by brk",
    "scan": "no PAGEMAP_SCAN (Linux 6.7): frames are not compared",
    "numbers": "/proc/PID/pagemap has no frame numbers (they need root): frames are not compared",
}

# What Linux did at a line: what decides the answer, what is counted, and what the model may answer (driver.h).
Told = collections.namedtuple("Told", "decider kind expected")


class PlayerError(Exception):
    """The player cannot be built, or ended before the script did."""


def built_player(compiler, sources, folder):
    """Compiles the player into a folder, and returns its path."""
    player = folder / "player"
    words = [compiler, *FLAGS, *(sources / name for name in SOURCES), "-o", player]
    ran = subprocess.run(words, capture_output=True, text=True)
    if ran.returncode:
        raise PlayerError(f"the player does not compile (it needs a static C library):\n{ran.stderr}")
    return player


def abilities_of(player):
    """Which of the needed abilities this machine has."""
    said = subprocess.run([player, "--abilities"], capture_output=True, text=True, timeout=SECONDS)
    has = dict(line.split() for line in said.stdout.splitlines())
    if set(has) != set(NEEDED):
        raise PlayerError(f"`player --abilities` ends with status {said.returncode}: {said.stdout}{said.stderr}")
    if has["room"] == "0":
        raise PlayerError(NEEDED["room"])
    return {name for name, number in has.items() if number == "1"}


def alterations_of(player):
    """The errors that can be planted in the player, from number 1 on."""
    return subprocess.run([player, "--alterations"], capture_output=True, text=True, check=True).stdout.splitlines()


class Player:
    """A player of one script. `told` has what it said, by the number of the line."""

    def __init__(self, player, options, altered=0):
        words = [player, *options] + ([f"altered={altered}"] if altered else [])
        self.process = subprocess.Popen(words, stdin=subprocess.PIPE, stdout=subprocess.PIPE, stderr=subprocess.PIPE)
        self.lines, self.told = [], []

    def __enter__(self):
        return self

    def __exit__(self, *_):
        self.process.kill()
        self.process.communicate()

    def declare(self, line):
        """Adds a line that is not answered."""
        self.lines.append(line)
        self.process.stdin.write(line.encode() + b"\n")

    def say(self, line):
        """Adds a line, and returns what Linux did."""
        try:
            self.declare(line)
            self.process.stdin.flush()
            words = self.process.stdout.readline().decode().rstrip("\n").split("\t")
        except BrokenPipeError:
            words = []
        if len(words) < 3:
            raise PlayerError(f"the player ended at `{line}`: {self.process.stderr.read().decode().strip()}")
        told = Told(words[0], words[1], words[2:])
        self.told.append((len(self.lines), told))
        return told

    def end(self):
        """Ends the script."""
        try:
            _, errors = self.process.communicate(timeout=SECONDS)
        except subprocess.TimeoutExpired as slow:
            raise PlayerError(f"the player does not end within {SECONDS} seconds") from slow
        if self.process.returncode:
            raise PlayerError(f"the player ends with status {self.process.returncode}: {errors.decode().strip()}")


def replayed(player, options, lines):
    """Plays the lines of a whole script. Returns what the player said."""
    with Player(player, options) as playing:
        for line in lines:
            if re.match(r"\s*(#|$|file\s|image\s)", line):
                playing.declare(line)
            else:
                playing.say(line)
        playing.end()
    return playing.told
