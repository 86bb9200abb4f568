"""Falsehoods for checks/traces: each statement of a trace altered, left out, doubled or invented, in a copy of what was recorded."""
import collections
import copy
import random
import re

from states import LETTERS

HEX, FLAGS = re.compile(r"0x[0-9a-f]+"), re.compile(f"[{LETTERS}-]{{9}}")
# In how many statements of a form each falsehood is planted, and how many values of a form are kept to be told elsewhere.
EACH, KEPT = 4, 30


def nodes(value, path=(), name=""):
    """Each value in a line of a trace, with its path and the path's name; the text of a note is not recomputed."""
    yield value, path, name
    if isinstance(value, dict):
        for key, it in value.items():
            if key != "note":
                yield from nodes(it, path + (key,), f"{name}.{key}".lstrip("."))
    elif isinstance(value, list):
        for number, it in enumerate(value):
            yield from nodes(it, path + (number,), name + "[]")


def form_of(value, name):
    """Values of a form are alike: the keys of an object, a word without a digit, whether a list is empty."""
    if isinstance(value, dict):
        return name, *sorted(value)
    if isinstance(value, list):
        return name, not value
    return name, value if isinstance(value, str) and not re.search(r"\d|-", value) else None


def switched(flags, rng, is_set):
    """Flags with a letter dropped or added, and the letter's bit."""
    place = rng.choice([it for it in range(len(LETTERS)) if (flags[it] != "-") == is_set])
    return flags[:place] + ("-" if is_set else LETTERS[place]) + flags[place + 1 :], 1 << place


class Planter:
    """Chooses statements of each form, and plants falsehoods in them."""

    def __init__(self, played):
        self.played, self.rng = played, random.Random(1)
        self.values, self.keys = collections.defaultdict(dict), collections.defaultdict(set)
        self.sites, self.seen = collections.defaultdict(list), collections.Counter()
        for number, (_, _, trace, _) in enumerate(played):
            for place, line in enumerate(trace):
                for value, path, name in nodes(line):
                    self.keep(value, name)
                    self.choose(form_of(value, name), (number, place, path, name))

    def keep(self, value, name):
        """Keeps values of each name, and the keys that objects of a name have."""
        if isinstance(value, dict):
            self.keys[name] |= value.keys() - {"note"}
        if len(self.values[name]) < KEPT and value not in ([], {}):
            self.values[name].setdefault(repr(value), value)

    def choose(self, form, site):
        """Keeps a few sites of each form, each with the same chance."""
        self.seen[form] += 1
        if len(self.sites[form]) < EACH:
            self.sites[form].append(site)
        elif self.rng.random() < EACH / self.seen[form]:
            self.sites[form][self.rng.randrange(EACH)] = site

    def others(self, name, but):
        """Some values of a name, but these."""
        others = [it for it in self.values[name].values() if it not in but]
        return self.rng.sample(others, min(3, len(others)))

    def false(self, value, name):
        """What may stand in place of a value, each with the name of the change."""
        rng = self.rng
        if isinstance(value, bool):
            yield "turned", not value
        elif isinstance(value, int):
            yield "one more", value + 1
            if value:
                yield "one less", value - 1
        elif isinstance(value, list):
            yield from self.false_list(value, name)
        elif isinstance(value, dict):
            yield from self.false_object(value, name)
        elif value is not None and HEX.fullmatch(value):
            yield "another bit", hex(int(value, 16) ^ 1 << rng.choice([0, 1, 2, 4, 6, 7]))
            yield "a higher bit", hex(int(value, 16) ^ 1 << rng.choice([10, 12, 13]))
        elif value is not None and FLAGS.fullmatch(value):
            if value.strip("-"):
                yield "a letter dropped", switched(value, rng, True)[0]
            yield "a letter added", switched(value, rng, False)[0]
        else:
            for other in self.others(name, [value]):
                yield "another", other

    def false_list(self, value, name):
        if value:
            place = self.rng.randrange(len(value))
            yield "one left out", value[:place] + value[place + 1 :]
            yield "one twice", value[: place + 1] + value[place:]
        for other in self.others(name + "[]", value):
            yield "one invented", value + [other]

    def false_object(self, value, name):
        for key in value:
            yield f"{key} left out", {it: value[it] for it in value if it != key}
        for key in sorted(self.keys[name] - value.keys()):
            for other in self.others(f"{name}.{key}".lstrip("."), []):
                yield f"{key} invented", value | {key: other}
        if value.get("flags", "").strip("-"):
            flags, letter = switched(value["flags"], self.rng, True)
            yield "a flag dropped from letters and word", value | {"flags": flags, "word": hex(int(value["word"], 16) & ~letter)}
        if "satp" in value:
            satp, asid = hex(int(value["satp"], 16) + (1 << 44)), value["asid"] + 1
            yield "another ASID in satp and beside it", value | {"satp": satp, "asid": asid}

    def planted(self):
        """Each falsehood: its kind, the number of the script, the line (None: in several lines), and the false trace."""
        for form in sorted(self.sites, key=repr):
            for number, place, path, name in self.sites[form]:
                trace = self.played[number][2]
                for change, new in self.false(at(trace[place], path), name):
                    line = replaced(copy.deepcopy(trace[place]), path, new)
                    yield f"{name}: {change}", number, place, trace[:place] + [line] + trace[place + 1 :]
        for number, (_, _, trace, is_whole) in enumerate(self.played):
            if is_whole:
                place = self.rng.randrange(len(trace))
                yield "a line left out", number, place, trace[:place] + trace[place + 1 :]
                yield "a line twice", number, place, trace[: place + 1] + trace[place:]
            for change, false in self.together(trace):
                yield change, number, None, false

    def together(self, trace):
        """Traces in which several statements are false and agree."""
        false = copy.deepcopy(trace)
        frames = [line["changes"]["frames"] for line in false if "frames" in line.get("changes", {})]
        taking = [place for place, it in enumerate(frames) if it["taken"]]
        if taking:
            place = self.rng.choice(taking)
            frames[place]["taken"].pop(self.rng.randrange(len(frames[place]["taken"])))
            for it in frames[place:]:
                it["free"], it["held"] = it["free"] + 1, it["held"] - 1
            yield "a frame that is not taken, nor counted", false
        recounted = sorted({it["frame"] for it in (again for changes in frames for again in changes["recounted"])})
        if recounted:
            yield "a reference more of a frame, wherever it is told", recount(copy.deepcopy(trace), self.rng.choice(recounted))
        leaves = [place for place, line in enumerate(trace[:-1]) if "leaves" in line.get("changes", {})]
        if leaves:
            false, place = copy.deepcopy(trace), self.rng.choice(leaves)
            told = false[place]["changes"].pop("leaves")
            later = false[place + 1].setdefault("changes", {})
            later["leaves"] = told + later.get("leaves", [])
            yield "changed leaves told a line later", false


def at(line, path):
    for key in path:
        line = line[key]
    return line


def replaced(line, path, new):
    if not path:
        return new
    at(line, path[:-1])[path[-1]] = new
    return line


def recount(trace, frame):
    """A trace in which a frame has one reference more, wherever that is told."""
    for line in trace:
        for it in line.get("request", {}).get("walk", []):
            if it.get("ppn") == frame and "references" in it:
                it["references"] += 1
        for it in line.get("changes", {}).get("frames", {}).get("recounted", []):
            if it["frame"] == frame:
                it["before"], it["after"] = it["before"] + 1, it["after"] + 1
    return trace


def plant(played, differences):
    """Plants falsehoods in traces that differ in nothing, one at a time. Prints how many were found, and returns how many were not."""
    kinds, count, missed = set(), 0, []
    for kind, number, place, trace in Planter(played).planted():
        script, states, true, is_whole = played[number]
        kinds.add(kind)
        count += 1
        if not differences(script, states, trace, is_whole):
            where = f"{script.name}:{true[place]['line']}" if place is not None else script.name
            missed.append(f"{where}: a falsehood that is not found: {kind}")
    for text in missed[:20]:
        print(text)
    print(f"{count:,} falsehoods of {len(kinds)} kinds were planted, {count - len(missed):,} found")
    return len(missed)
