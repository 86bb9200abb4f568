"""What is kept of a campaign in its folder: its settings, and a line for each piece of work that is done.

`pieces.jsonl` is only ever appended to, by one driver, a whole line at a time. So after a kill a piece is either there or not; a
line that was cut is taken away, and its piece is done again.
"""
import collections
import fcntl
import hashlib
import json
import os
import pathlib
import sys

SETTINGS = "campaign.json"
WORKER = pathlib.Path(__file__).resolve().parent / "piece.py"


# What a setting is if no option says it.
DEFAULTS = {"seeds": [1, 100], "piece": 10, "seconds": 60, "shrink": 1}


class CampaignError(Exception):
    """The campaign cannot go on; the text says why."""


class Settings(collections.namedtuple("Settings", "clients seeds piece seconds shrink reference sum folder")):
    """What makes the results what they are. clients: commands by name. seeds: the first and the last. piece: how many seeds a piece
    has. sum: of the reference's bytes. folder: where clients run."""

    def tasks(self):
        """All pieces of work by name. Those of the clients take turns, so that each is seen early."""
        first, last = self.seeds
        found = {}
        for start in range(first, last + 1, self.piece):
            end = min(start + self.piece - 1, last)
            for client, command in self.clients.items():
                name = f"{client} {start}-{end}"
                found[name] = {"piece": name, "client": client, "command": command, "seeds": [start, end], "seconds": self.seconds,
                               "shrink": self.shrink, "reference": self.reference, "folder": self.folder}
        return found

    def command(self, task):
        return [sys.executable, str(WORKER), json.dumps(task)]


def sum_of(program):
    return hashlib.sha256(pathlib.Path(program).read_bytes()).hexdigest()


class Journal:
    """The folder of a campaign, which one driver at a time may have."""

    def __init__(self, folder):
        self.folder = pathlib.Path(folder)
        self.folder.mkdir(parents=True, exist_ok=True)
        self.lock = open(self.folder / "lock", "w")
        try:
            fcntl.flock(self.lock, fcntl.LOCK_EX | fcntl.LOCK_NB)
        except BlockingIOError:
            raise CampaignError(f"{folder}: another driver works here") from None
        self.file, self.results = self.folder / "pieces.jsonl", {}

    def settings(self, wanted):
        """The settings of the campaign: those that are kept, or else the wanted ones, from now on. A setting that is None is not
        asked for."""
        file = self.folder / SETTINGS
        if file.exists():
            kept = Settings(**json.loads(file.read_text()))
            return self.agreed(kept, wanted)
        settings = Settings(**{**DEFAULTS, **{name: value for name, value in wanted.items() if value is not None}})
        write(file, json.dumps(settings._asdict(), indent=1) + "\n")
        return settings

    def agreed(self, kept, wanted):
        for name in ("clients", "seeds", "piece", "seconds", "shrink", "reference"):
            if wanted[name] is not None and wanted[name] != getattr(kept, name):
                raise CampaignError(f"{self.folder} has a campaign with {name} {getattr(kept, name)!r}, not {wanted[name]!r}: leave the option "
                                    "out to go on, or take another folder")
        if not os.path.exists(kept.reference) or sum_of(kept.reference) != kept.sum:
            raise CampaignError(f"{kept.reference} is not there or has changed since the campaign began: take another folder")
        return kept

    def read(self, tasks):
        """Reads the pieces that are done, and takes away a line that was cut."""
        if not self.file.exists():
            return
        with open(self.file, "rb+") as file:
            whole = 0
            for line in file:
                result = result_in(line, tasks)
                if result is None:
                    break
                whole += len(line)
                self.results.setdefault(result["piece"], result)
            file.truncate(whole)

    def add(self, line, tasks):
        """Keeps a line that a worker printed, if its piece is not done yet. Returns whether it is a piece's."""
        result = result_in(line if line.endswith(b"\n") else line + b"\n", tasks)
        if result is None:
            return False
        if result["piece"] not in self.results:
            with open(self.file, "ab") as file:
                file.write(json.dumps(result).encode() + b"\n")
                file.flush()
                os.fsync(file.fileno())
            self.results[result["piece"]] = result
        return True


def result_in(line, tasks):
    """The result of a piece that a whole line says; None if it says none."""
    try:
        result = json.loads(line) if line.endswith(b"\n") else None
    except ValueError:
        return None
    is_one = isinstance(result, dict) and result.get("seeds") == tasks.get(result.get("piece"), {}).get("seeds", 0)
    return result if is_one else None


def write(file, text):
    """Writes a file whole or not at all."""
    beside = file.with_name(file.name + ".new")
    beside.write_text(text)
    os.replace(beside, file)
