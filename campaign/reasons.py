"""Why an outcome is not permitted: the reason in an answer of `xv6lab mmu`, what else may be the cause, and which reasons are one bug.

An answer names the first reason that holds. By chance, what a bug of one kind does may be explained by another kind: of an entry of
another ASID, too, a fence may be said to exclude what it has. So an access that is not permitted is also asked about as if the hart had
other bugs, and counted with the bug that explains most.
"""
import collections
import re

DENIED = "NOT permitted: "
ACCESS = ("load ", "store ", "fetch ")
FENCES, ASIDS, RIGHTS = "fences", "ASIDs", "rights"
FENCE = re.compile(r"\(sfence ?([^ )]*) ?([^)]*)\)")
# What only this transcript has, and what stands in its place.
OWN = [(r" (?:as before|of) line \d+", ""), (r"PTE 0x[0-9a-f]+", "PTE"), (r"ASID \d+", "ASID N"), (r"0x[0-9a-f]+", "ADDRESS")]
EXCLUDED = re.compile(r"the fence \((sfence[^)]*)\) excludes (?:global )?(?:(leaf|pointer|invalid) PTE at level (\d)|.*)")
LACKS = re.compile(r" leads there, but ([A-Z] is [01]|.*)")
# What the walk comes to in place of a fault that a client tells, before an older cause.
INSTEAD = re.compile(r"^[^;]*(?: grants the |: that is access fault |nothing refuses )[^;]*; or ")
SATP_ASID = 0xFFFF << 44


def fence_form(found):
    """A fence with names in place of numbers: `sfence VA ASID`, `sfence VA`, `sfence - ASID`, `sfence`."""
    va, asid = (word not in ("", "-") for word in found.groups())
    return f"(sfence{' VA' if va else ' -' if asid else ''}{' ASID' if asid else ''})"


def reason_of(answer):
    """The reason of an answer, without the numbers that only its transcript has."""
    reason = FENCE.sub(fence_form, INSTEAD.sub("", answer.removeprefix(DENIED).split(". Permitted: ")[0]))
    for pattern, word in OWN:
        reason = re.sub(pattern, word, reason)
    return reason


def cause_of(reason):
    """The kind of bug that a reason names; the reason itself if it is none of these three."""
    if EXCLUDED.match(reason):
        return FENCES
    return ASIDS if "is of another ASID" in reason else RIGHTS if LACKS.search(reason) else reason


# ---- what else may be the cause


def number(text):
    return int(text, 16 if text.startswith("0x") else 10)


def changes_nothing(line):
    """An access is left out before others, unless it sets A or D."""
    return line.startswith(ACCESS) and " set " not in line


def as_one_asid(line):
    """What stands for a line if each entry serves under each ASID: a fence of one leaves what others have."""
    word, *fields = line.split()
    if word == "satp":
        return [f"satp {number(fields[0]) & ~SATP_ASID:#x}"]
    return [] if word == "sfence" and len(fields) == 2 and fields[1] != "-" else [line]


def other_accesses(line):
    """The access with other rights: of each kind and in each mode."""
    _, va, width, _, outcome = line.split(" ", 4)
    return [f"{kind}{va} {width} {mode} {outcome}" for kind in ACCESS for mode in "US" if kind != "fetch " or width in "24"]


# Each cause with those in whose place it may be, what stands for a line, and what for the access that is not permitted.
OTHERS = {ASIDS: ((FENCES,), as_one_asid, lambda line: [line]), RIGHTS: ((FENCES, ASIDS), lambda line: [line], other_accesses)}


def questions(cause, lines, reasons):
    """Lines that ask whether accesses would be permitted if the hart had a bug of another kind; and by the number of each such line
    the access. `reasons`: of those that are not permitted, by number."""
    instead_of, line_for, access_for = OTHERS[cause]
    asked, places = [], {}
    for at, line in enumerate(lines):
        if at in reasons and cause_of(reasons[at]) in instead_of and " set " not in line:
            for access in access_for(line):
                places[len(asked)] = at
                asked.append(access)
        elif at not in reasons and not changes_nothing(line):
            asked += line_for(line)
    return asked, places


# ---- which are one bug


def explained(differences):
    """The differences by the kind of bug that explains most of them, among those that an answer names."""
    support, named = collections.Counter(), {cause_of(it["reason"]) for it in differences}
    for it in differences:
        support.update({cause: it["count"] for cause in {cause_of(it["reason"]), *it["also"]}})
    found = collections.defaultdict(list)
    for it in differences:
        own = cause_of(it["reason"])
        found[max([own, *sorted(named & set(it["also"]))], key=lambda cause: support[cause])].append(it)
    return found


def traits(reason):
    """What a reason may share with others. Of an entry that outlives a fence: the fence's form, and what the entry is, since a
    fence that does too little leaves entries of each kind, and an entry that is kept too long is left by each fence."""
    fence, lacks = EXCLUDED.match(reason), LACKS.search(reason)
    if fence:
        entry = f"{fence[2]} of level {'0' if fence[3] == '0' else '1 or more'}" if fence[2] else reason
        return {fence[1], f"kept: {entry}"}
    return {lacks[1] if lacks else cause_of(reason)}


def linked(reasons):
    """The reasons in lists: two that share a trait are in one, and so are all that are linked like this."""
    found = []
    for reason in reasons:
        having, together = traits(reason), [reason]
        for other in [it for it in found if it[0] & having]:
            found.remove(other)
            having, together = having | other[0], other[1] + together
        found.append((having, together))
    return [together for _, together in found]


def bugs(differences):
    """The differences in lists, one for each bug. One that another kind of bug explains goes to the most frequent of that kind."""
    found = []
    for cause, those in explained(differences).items():
        by_reason = collections.defaultdict(list)
        for it in those:
            by_reason[it["reason"]].append(it)
        own = [reason for reason in by_reason if cause_of(reason) == cause] or list(by_reason)
        lists = [[it for reason in together for it in by_reason[reason]] for together in linked(own)]
        most = max(lists, key=lambda together: sum(it["count"] for it in together))
        most += [it for it in those if it["reason"] not in own]
        found += lists
    return found
