"""Errors that are planted in what the program says. Each changes the objects of one dump, and returns whether it found something to change."""
import json


def leaves(told):
    for space in told.spaces:
        yield from ((space["mappings"], at) for at in range(len(space["mappings"])))


def drops_a_mapping(told, random):
    choices = list(leaves(told))
    if choices:
        mappings, at = random.choice(choices)
        del mappings[at]
    return bool(choices)


def lists_a_mapping_twice(told, random):
    choices = list(leaves(told))
    if choices:
        mappings, at = random.choice(choices)
        mappings.insert(at, mappings[at])
    return bool(choices)


def exchanges_two_mappings(told, random):
    choices = [(mappings, at) for mappings, at in leaves(told) if at]
    if choices:
        mappings, at = random.choice(choices)
        mappings[at - 1], mappings[at] = mappings[at], mappings[at - 1]
    return bool(choices)


def change(key, altered, wanted=lambda it: True):
    """A planted error that changes one value of one mapping."""

    def plant(told, random):
        choices = [(mappings, at) for mappings, at in leaves(told) if wanted(mappings[at])]
        if choices:
            mappings, at = random.choice(choices)
            mappings[at] = {**mappings[at], key: altered(mappings[at][key])}
        return bool(choices)

    return plant


def drops_a_table(told, random):
    choices = [space["tables"] for space in told.spaces if space["tables"]]
    if choices:
        tables = random.choice(choices)
        del tables[random.randrange(len(tables))]
    return bool(choices)


def overlooks(name):
    """A planted error that leaves out one thing that is suspicious."""

    def plant(told, random):
        choices = [it for it in told.suspicious if it["suspicious"] == name]
        if choices:
            told.suspicious.remove(random.choice(choices))
        return bool(choices)

    return plant


def counts_one_less(told, random):
    choices = [it for it in told.suspicious if it["count"] > 1]
    if choices:
        random.choice(choices)["count"] -= 1
    return bool(choices)


def suspects_a_good_leaf(told, random):
    choices = [(space, it) for space in told.spaces for it in space["mappings"] if "U" not in it["flags"]]
    if choices:
        space, it = random.choice(choices)
        at = {"space": space["space"], "va": it["va"], "level": it["level"], "pte": it["pte"], "place": it["place"], "pa": it["pa"]}
        told.suspicious.append({"suspicious": "writable and executable", "at": at, "count": 1, "text": ""})
    return bool(choices)


def plus(number):
    return lambda text: hex(int(text, 16) + number)


NAMES = ["table outside the memory", "table of two places", "table writable", "reserved", "writable and executable", "at or above TRAPFRAME"]
NAMES += ["shared and writable", "outside the memory", "misaligned superpage", "A or D clear"]

ERRORS = {
    "a mapping is left out": drops_a_mapping,
    "a mapping is listed twice": lists_a_mapping_twice,
    "two mappings change places": exchanges_two_mappings,
    "a mapping leads one frame further": change("pa", plus(4096)),
    "a superpage is taken for one of a level below": change("level", lambda it: it - 1, lambda it: it["level"]),
    "an address of the upper half is not sign-extended": change("va", lambda it: hex(int(it, 16) & (1 << 38) - 1), lambda it: int(it["va"], 16) >> 63),
    "a mapping has the word of another flag": change("pte", lambda it: hex(int(it, 16) ^ 4)),
    "a mapping is told at the PTE after it": change("place", plus(8)),
    "a table is left out": drops_a_table,
    "a leaf that is not for user mode is suspected": suspects_a_good_leaf,
    "of several PTEs the last is overlooked": counts_one_less,
    **{f"overlooked: {name}": overlooks(name) for name in NAMES},
}


def copied(told):
    """Objects that may be changed."""
    told.spaces, told.suspicious = json.loads(json.dumps([told.spaces, told.suspicious]))
    return told
