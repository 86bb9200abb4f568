"""Clauses that documents name: `x` of the call `F`, items and rows that list calls with their clauses, and names in files."""
import re

PLACE = re.compile(r"((?:`\w+(?:::\w+)?`(?:, | and )?)+)(?: in | ?\()`([\w/]+\.(?:rt|antt))`")
CITED = re.compile(r"`(\w+)` \(((?:`\w+`(?:, )?)+)\)")
TOKEN = re.compile(r"`([^`]+)`")
RUN = re.compile(r"((?:`\w+`(?: \([^)]*\))?(?:, | and |, and )?)+) of `([A-Za-z_]\w*(?:::\w+)?)`(?! of `)")
NAME = re.compile(r"[A-Za-z_]\w*")
PURE = re.compile(r"\(((?:`\w+`|alone|[,;:] ?| )+)\)")
CALLED = re.compile(r"`(\w+(?:::\w+)?)`†? \(")
BRACKET = re.compile(r"\(([^()]*)\)")


class Calls:
    """The functions of the sources by name, and what their contracts have."""

    def __init__(self, sources):
        self.sources, self.by_name = sources, {}
        for crate, containers, name in sources.clauses:
            self.by_name.setdefault(name, []).append((crate, tuple(containers)))

    def find(self, crates, container, name):
        """The keys of a function, in these crates (in all if None), of a type or trait if one is named."""
        return [
            (crate, containers, name)
            for crate, containers in self.by_name.get(name, [])
            if (crates is None or crate in crates) and (not container or container in containers)
        ]

    def clauses(self, keys):
        """Names with their texts: of the functions, of the trait's function that they implement, and ghost members."""
        found = {}
        for crate, containers, name in keys:
            for other in self.by_name.get(name, []):
                if set(other[1]) & set(containers) or other == (crate, containers):
                    join(found, self.sources.clauses[other[0], other[1], name])
            for container in containers:
                join(found, self.sources.ghosts[container])
        return found

    def of_type(self, container):
        """The ghost members of a type or a trait, and the clauses of all its functions."""
        found = dict(self.sources.ghosts[container])
        for (_, containers, _), clauses in self.sources.clauses.items():
            if container in containers:
                join(found, clauses)
        return found


def join(found, clauses):
    for name, text in clauses.items():
        found[name] = f"{found.get(name, '')} {text}"


def split_call(text):
    container, _, name = text.rpartition("::")
    return container, name


def check_runs(check, calls, document):
    """`x`, `y` of `F`, if F is a function: each is a clause of its contract."""
    for unit in document.units:
        for run in RUN.finditer(unit.text.replace("\n", " ")):
            container, name = split_call(run[2])
            keys = calls.find(None, container, name)
            if not keys or not container and name in check.sources.crates:
                continue
            clauses = calls.clauses(keys)
            for token in filter(str.islower, TOKEN.findall(BRACKET.sub("", run[1]))):
                line = unit.line_at(run.start())
                check.claim(document.path, line, token in clauses, f"`{run[2]}` has no clause `{token}`, but {listed(clauses)}")


def listed(clauses):
    return ", ".join(f"`{it}`" for it in sorted(clauses) if it) or "none"


def apart(text):
    """What stands outside of brackets, inside of one, and inside of any; brackets within backticks do not count."""
    outside, outer, inside, depth = "", "", "", 0
    for piece in re.split(r"(`[^`]*`|[()])", text):
        depth += {"(": 1, ")": -1}.get(piece, 0)
        outside += piece if depth == 0 else ""
        outer += piece if depth == 1 else ""
        inside += piece if depth else ""
    return outside, outer, inside


def row_calls(calls, crates, text):
    """The tokens of a list of calls, with the keys of the functions, or with None for a type."""
    found, container = [], ""
    for part in text.split(";"):
        whole = re.search(r" of `(\w+)`", part)
        if whole and re.search(r"`[a-z]\w*`", part):
            container = whole[1]
        for token in re.findall(r"`([A-Za-z_][\w:]*)", part):
            if "::" in token:
                container, name = split_call(token)
                found.append((token, container, calls.find(crates, container, name)))
            elif token[:1].isupper():
                found.append((token, token, None))
            else:
                keys = calls.find(crates, container, token) if container else []
                found.append((token, container if keys else "", keys or calls.find(crates, "", token)))
    return found


def rows(document):
    """Where a document lists calls: the line, the crates, the calls with their clauses in brackets, and what is said of them."""
    for unit in document.units:
        if unit.cells and (unit.cells == unit.heads or set(unit.text) <= set("|-: ")):
            continue
        if "Read first" in unit.heads:
            yield unit.line, TOKEN.findall(unit.first), unit.cells[unit.heads.index("Read first")], ""
        elif document.path.name == "CONTRACTS.md" and unit.text.startswith("- "):
            title = dict(document.headings).get(unit.section, "")
            if not re.sub(r"`\w+`|, ", "", title):
                head = re.match(r"(?:`[^`]*`|[^:`])*", unit.text)[0]
                head = head if ":" in unit.text[len(head) :] else re.match(r"- (?:`[^`]*`†?(?:, | and |; )?)*", unit.text)[0]
                yield unit.line, TOKEN.findall(title), head, unit.text[len(head) :]


def check_rows(check, calls, document):
    """Rows and items that list calls: each call is in its crate, and each clause in its contract, which names the definition."""
    before = []
    for line, crates, head, rest in rows(document):
        calls_part, outer, inside = apart(head)
        calls_part, _, more = calls_part.partition(" with ")
        before = row_calls(calls, crates, calls_part) or before
        known = {it[0].rpartition("::")[2]: "" for it in before}
        for token, container, keys in before:
            if keys is None:
                join(known, calls.of_type(token))
                there = token in check.sources.names or token in check.sources.imported
            else:
                join(known, calls.clauses(keys))
                there = bool(keys) or token.rpartition("::")[2] in check.sources.members.get(container, ())
            check.claim(document.path, line, there, f"{' and '.join(crates)} has no call `{token}`")
        for name in CALLED.findall(rest):
            join(known, calls.clauses(calls.find(crates, *split_call(name))))
        whole = " ".join(known.values())
        named = [(it, 1) for it in TOKEN.findall(outer + more) if it.islower()]
        named += [(it, 4) for text in (inside, *PURE.findall(rest)) for it in TOKEN.findall(text)]
        for token, depth in named:
            if NAME.fullmatch(token):
                there = token in known or check.sources.cites(whole, token, depth)
                check.claim(document.path, line, there, f"no call of the row has a clause `{token}` or one that cites it, but {listed(known)}")
        check_cited(check, document, line, (inside, known))


def check_cited(check, document, line, row):
    """`clause` (`Definition`): the text of the clause names the definition, or one that does."""
    inside, known = row
    for name, cited in CITED.findall(inside):
        for token in TOKEN.findall(cited):
            if known.get(name):
                check.claim(document.path, line, check.sources.cites(known[name], token, 4), f"clause `{name}` does not name `{token}`")


def check_places(check, document):
    """`name` in `FILE`, `name` (`FILE`): a file of that name has it. Rows with files and their functions, file by file."""
    for unit in document.units:
        for match in PLACE.finditer(unit.text.replace("\n", " ")):
            texts = check.texts(document, unit, match.start(2) - 1, match[2])
            for token in TOKEN.findall(match[1])[0 if " in " in match[0] else -1 :]:
                check_in(check, document, unit, match.start(), (token, match[2], texts))
        if len(unit.heads) > 3 and unit.heads[3].endswith("file by file") and unit.cells != unit.heads:
            crate = ""
            for files, functions in zip(unit.cells[2].split(";"), unit.cells[3].split(";")):
                for path in TOKEN.findall(files):
                    crate = path.partition("/")[0] if "/" in path else crate
                    texts = check.texts(document, unit, 0, f"{crate}/{path.rpartition('/')[2]}")
                    for token in TOKEN.findall(functions):
                        check_in(check, document, unit, 0, (token, path, texts))


def check_in(check, document, unit, place, named):
    token, path, texts = named
    if texts:
        there = any(re.search(rf"(?<!\w){token.rpartition('::')[2]}(?!\w)", it) for it in texts)
        check.claim(document.path, unit.line_at(place), there, f"`{path}` does not have `{token}`")
