"""Makes the report of a campaign from its results: differences.jsonl, bugs.jsonl and report.txt."""
import collections
import json

from journal import write
from reasons import bugs, cause_of

MOST_SEEDS = 10
PARTS = ("client", "reference", "shrink", "worker")


def shortest(differences):
    """The difference with the shortest transcript; of several the one of the lowest seed."""
    with_one = [it for it in differences if "transcript" in it]
    return min(with_one, key=lambda it: (len(it["transcript"]), it["seed"])) if with_one else differences[0]


def variant(reason, differences):
    """The differences of one reason: how many, in which seeds, and the shortest transcript."""
    best = shortest(differences)
    seeds = sorted({it["seed"] for it in differences})
    return {"reason": reason, "count": sum(it["count"] for it in differences), "seeds": seeds, "seed": best["seed"],
            "access": best["access"], "answer": best["answer"], "transcript": best.get("transcript", [])}


def bug_of(client, differences):
    """A bug with its reasons, the most frequent first."""
    by_reason = collections.defaultdict(list)
    for it in differences:
        by_reason[it["reason"]].append(it)
    variants = sorted((variant(reason, those) for reason, those in by_reason.items()), key=lambda it: (-it["count"], it["reason"]))
    cause = cause_of(variants[0]["reason"])
    best = min((it for it in variants if cause_of(it["reason"]) == cause), key=lambda it: (len(it["transcript"]) or 1 << 30, -it["count"]))
    seeds = sorted({seed for it in variants for seed in it["seeds"]})
    return {"client": client, "count": sum(it["count"] for it in variants), "seeds": seeds, "reason": variants[0]["reason"],
            "seed": best["seed"], "transcript": best["transcript"], "variants": variants}


def bugs_of(client, differences):
    """The bugs of a client, the most frequent first."""
    found = [bug_of(client, those) for those in bugs([it for it in differences if it["client"] == client])]
    return sorted(found, key=lambda it: -it["count"])


def some(seeds):
    more = f" and {len(seeds) - MOST_SEEDS:,} more" if len(seeds) > MOST_SEEDS else ""
    return f"seed{'s' * (len(seeds) > 1)} {', '.join(map(str, seeds[:MOST_SEEDS]))}{more}"


def told(number, bug):
    """A bug in words."""
    yield f"\n{number}. {bug['client']}: {bug['reason']}"
    yield f"   {bug['count']:,} accesses, {some(bug['seeds'])}"
    if len(bug["variants"]) > 1:
        yield from (f"   {it['count']:>9,}  {it['reason']}, as in seed {it['seed']}" for it in bug["variants"])
    yield f"   the shortest transcript, of seed {bug['seed']}:"
    yield from (f"       {line}" for line in bug["transcript"])


def told_troubles(troubles):
    """Clients in trouble in words: those in the same trouble together, but for what each printed."""
    together = collections.defaultdict(list)
    for it in troubles:
        together[it["client"], it["trouble"].partition(": ")[0]].append(it)
    for (client, trouble), found in together.items():
        yield f"\n{client}: {trouble}: {some(sorted(it['seed'] for it in found))}"
        yield f"   seed {found[0]['seed']}: {found[0]['trouble']}"
        yield from (f"       {line}" for line in found[0]["stderr"].splitlines()[-3:])


class Report:
    """The results of pieces, by client."""

    def __init__(self, settings, results):
        self.settings, self.results = settings, [results[name] for name in settings.tasks() if name in results]
        self.differences = [it for result in self.results for it in result["differences"]]
        self.troubles = [it for result in self.results for it in result["troubles"]]
        self.bugs = [bug for client in settings.clients for bug in bugs_of(client, self.differences)]
        self.missing = [name for name in settings.tasks() if name not in results]

    def costs(self, client):
        """What a client has done, and what it cost."""
        own = [it for it in self.results if it["piece"].rpartition(" ")[0] == client]
        seconds = {name: sum(it["seconds"][name] for it in own) for name in PARTS}
        accesses, seeds = sum(it["accesses"] for it in own), sum(it["seeds"][1] - it["seeds"][0] + 1 for it in own)
        rate = f"{accesses / sum(seconds.values()):,.0f} accesses a core and second" if accesses else "no access"
        parts = ", ".join(f"{name} {value:,.1f} s" for name, value in seconds.items())
        return f"{client}: {seeds:,} seeds, {accesses:,} accesses; {rate} ({parts} of processor time)"

    def text(self):
        first, last = self.settings.seeds
        lines = [f"Seeds {first} to {last}, reference {self.settings.reference}", *map(self.costs, self.settings.clients)]
        lines += [f"NOT DONE: {name}: no worker came to its end with it" for name in self.missing]
        lines.append(f"Bugs: {len(self.bugs)}. Seeds in trouble: {len(self.troubles)}")
        for number, bug in enumerate(self.bugs, 1):
            lines += told(number, bug)
        lines += told_troubles(self.troubles)
        return "\n".join(lines) + "\n"

    def write(self, folder):
        write(folder / "differences.jsonl", "".join(json.dumps(it) + "\n" for it in self.differences + self.troubles))
        write(folder / "bugs.jsonl", "".join(json.dumps(it) + "\n" for it in self.bugs))
        write(folder / "report.txt", self.text())

    def status(self):
        return 2 if self.missing else 1 if self.bugs or self.troubles else 0
