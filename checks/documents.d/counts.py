"""Numbers that documents give, and how each is counted."""
import fnmatch
import re

from planted import PLANTED

WORDS = "no one two three four five six seven eight nine ten eleven twelve thirteen fourteen fifteen sixteen seventeen eighteen".split()
N = r"\b(?P<n>\d[\d,]*\d|\d|" + "|".join(WORDS) + r")\b"
MOST_LINES, MOST_WORDS = 200, 77_900


def number(text):
    return WORDS.index(text.lower()) if text.lower() in WORDS else int(text.replace(",", ""))


def constant(name):
    """The value of a constant of the sources, by its name; all that have the name must agree."""

    def value(sources):
        values = {it for _, it in sources.constants[name]}
        return values.pop() if len(values) == 1 else sorted(values)

    return value


def found(path, pattern):
    """The number in a source file: how a limit is written where it has no name."""
    return lambda sources: int(re.search(pattern, sources.text(path))[1])


def occurrences(path, pattern, less=0):
    return lambda sources: len(re.findall(pattern, sources.text(path), re.M)) - less


def files(pattern):
    return lambda sources: sources.count(pattern)


def crates_above(name):
    return lambda sources: sum(name in sources.needs(it) for it in sources.crates) - 1


def crates_below(name):
    return lambda sources: len(sources.needs(name) - sources.kit) - 1


def traced(sources):
    """The scripts that are not meant to be refused."""
    rows = [it for it in sources.root.glob("crates/row_player/data/*.script") if not it.with_suffix(".refused").exists()]
    return len(rows) + sources.count("examples/*.script")


def variants(name, less=0):
    """How many variants an enum has, or constructors a data type."""
    return lambda sources: sum(it[0].isupper() or not it[0].isalpha() for it in sources.members[name]) - less


def lines(sources, pattern, kind=r""):
    """How many lines of a kind each file has."""
    for path in sorted(sources.paths):
        if fnmatch.fnmatch(path, pattern):
            yield sum(bool(re.match(kind, it)) for it in sources.text(path).splitlines())


def about(count):
    """A number that is rounded: a twentieth more or less is right."""
    return lambda sources: range(int(0.95 * count(sources)), int(1.05 * count(sources)) + 1)


TABLE, HEADER = "crates/script_reader/src/table.rt", "crates/xv6vm_c/include/xv6vm.h"
EXACT = ("SCRIPTS.md", "CONTRACTS.md", "DEFINITIONS.md", "ARCHITECTURE.md", "MMU.md", "WORKBENCH.md")
# A piece of a script has 32,768 bytes; a line of 2,097,664 has 1,048,830 of a file; the client of MMU.md makes 50,000 accesses.
KNOWN = (32_768, 50_000, 1_048_830)
LANGUAGE_CALL = r"^(?!static|typedef)\w[\w ]* \**xv6vm_\w+\("
ROWS = "crates/row_player/data/*"

# The number in a document, N, and what counts it. After `more than` it is a bound from below.
RULES = [
    (rf"{N} (?:edits )?in the gate\b", files("crates/*/must-fail/*.edit")),
    (rf"All of them, {N}\b", files("crates/*/edits/*.edit")),
    (rf"{N} scripts and files for threads", lambda sources: sources.count(ROWS + ".script") + sources.count(ROWS + ".threads")),
    (rf"{N} scripts say", traced),
    (rf"`audit_player` (?:re-proves )?itself and {N} (?:others|more)", crates_above("audit_player")),
    (rf"{N} crates(?: of (?:its|the) kit|' statements)", lambda sources: len(sources.kit)),
    (rf"{N} of them below `xv6vm`", lambda sources: len(sources.kit & sources.needs("xv6vm"))),
    (rf"tries it on {N} planted errors", lambda sources: len(PLANTED)),
    (rf"`crates/\*/src` \(some {N} lines", about(lambda sources: sum(lines(sources, "crates/*/src/*.rt")))),
    (rf"lines in `specs/` \({N} in all", about(lambda sources: sum(lines(sources, "crates/*/specs/*.antt", r"(?! *--|use |$)")))),
    (rf"`xv6vm_translate` and {N} more calls", occurrences(HEADER, LANGUAGE_CALL, less=1)),
    (rf"walk needs {N} small crates", crates_below("xv6vm_c")),
    (rf"{N} (?:graded )?labs\b", files("docs/labs/[0-9]-*.md")),
    (rf"plants {N} errors in the walk", occurrences("checks/qemu.d/planted.py", r'^    "[^"]*": "\w+",$')),
    (rf"{N} errors in the bindings", occurrences("checks/bindings.d/planted.py", r'^    \(".*", (?:SYS|RUST|PYTHON)\b.*\),$')),
    (rf"{N} errors of the driver", occurrences("checks/campaign.d/planted_driver.py", r'^    \("')),
    (rf"as {N} broken rules would", occurrences("checks/unicorn.d/planted_answers.py", r'^    "[^"]*": \w+,$')),
    (rf"each of {N} is found", occurrences("checks/programs", r'^    \(".*", ".*", \w+.*\),$')),
    (rf"\[Row; {N}\]", lambda sources: set(map(int, re.findall(r"\[Row; (\d+)\]", sources.text(TABLE))))),
    (rf"first of {N} rules", variants("Rule", less=1)),
    (rf"(?:1 to|up to) {N} harts", constant("MOST_HARTS")),
    (rf"harts, 16 to {N} frames", constant("MOST_FRAMES")),
    (rf"`pool FRAMES SLOTS` \| 16 to {N} frames", constant("MOST_SHARED_FRAMES")),
    (rf"(?: 1 to|at most|up to) {N} slots", constant("MOST_SLOTS")),
    (rf"at most {N} history entries", constant("MOST_USES")),
    (rf"all processes together have {N} pages", constant("MOST_USES")),
    (rf"(?:buffer|TLB) (?:holds|has at most) {N} entries", constant("BUFFER_SIZE")),
    (rf"chooses {N} \(`BUFFER_SIZE`", constant("BUFFER_SIZE")),
    (rf"{N} entries are kept", constant("PLACES")),
    (rf"the process has {N} mappings?\b", constant("MOST_MAPPINGS")),
    (rf"1 to {N} segments", constant("MOST_SEGMENTS")),
    (rf"at most {N} files, \d+ images", constant("MOST_FILES")),
    (rf"at most \d+ files, {N} images", constant("MOST_IMAGES")),
    (rf"images, and {N} lines after `boot`", constant("MOST_COMMANDS")),
    (rf"A script has at most {N} bytes", constant("LONGEST_SCRIPT")),
    (rf"a line at most {N} without its end", constant("LONGEST_LINE")),
    (rf"are its own, at most {N}\b", constant("MOST_CALLS")),
    (rf"journal, of at most {N} entries", constant("MOST_ENTRIES")),
    (rf"A piece of at most {N} bytes is read", found("crates/audit_player/src/transfer.rt", r"\[0u8; (\d+)\]")),
    (rf"which is written at {N} bytes", constant("BLOCK")),
    (rf"`PackedCommand` of {N} bytes", found("crates/script_reader/src/commands.rt", r"size_of::<PackedCommand>\(\) == (\d+)")),
    (rf"(?:put back after|After|makes up to) {N} (?:of its )?calls", constant("QUANTUM")),
    (rf"{N} are listed", constant("MOST_LISTED")),
    (rf"Above {N} frames, free frames", constant("MOST_UNFOLDED")),
    (rf"At most {N} pages of a", constant("MOST_PAGES")),
    (rf"and {N} cells of frames", constant("MOST_CELLS")),
    (rf"cop[iy][^.|:]{{0,60}}at most {N}(?! pages)", constant("LONGEST_COPY")),
]


def holds(given, counted, bound):
    if isinstance(counted, (set, range)):
        return given in counted
    return given < counted if bound else given == counted


def check_counts(check, document):
    """The numbers of RULES; and in documents that explain formats and limits each number of five digits or more is a limit."""
    for pattern, count in RULES:
        for match in re.finditer(pattern.replace(" ", r"\s+"), document.text, re.I):
            given, counted = number(match["n"]), count(check.sources)
            right = holds(given, counted, re.search(r"more than\s+$", document.text[: match.start()]))
            said = " ".join(match[0].split())
            check.claim(document.path, document.line_of(match.start()), right, f"`{said}`: there are {counted}")
    for match in re.finditer(r"@[A-Z_]+@", document.text):
        check.claim(document.path, document.line_of(match.start()), False, f"{match[0]} stands for a number")
    if document.path.name in EXACT:
        limits = {it for values in check.sources.constants.values() for _, it in values}
        for match in re.finditer(r"(?<![\w,.-])\d{2,3}(?:,\d{3})+(?![\w,])", document.prose()):
            given = number(match[0])
            known = {given - 1, given, given + 1} & limits or given in KNOWN
            check.claim(document.path, document.line_of(match.start()), known, f"no limit is {match[0]}")


# A document, and the names that it must have.
LISTS = [
    ("docs/ARCHITECTURE.md", lambda sources: {it for it in sources.crates if not it.startswith("tests_of_")}),
    ("README.md", lambda sources: {it for it in sources.crates if not it.startswith("tests_of_")} - {"row_player", "walk_bench"}),
    ("docs/C_LIBRARY.md", lambda sources: set(re.findall(r"^(?!static|typedef)\w[\w ]* \**(xv6vm_\w+)\(", sources.text(HEADER), re.M))),
    ("docs/SCRIPTS.md", lambda sources: set(re.findall(r'row!\(\s*b"(\w+)"', sources.text(TABLE)))),
    ("docs/XV6.md", lambda sources: {it.name for it in sources.root.glob("examples/*.*")} - {"refused.script", "sv48.script"}),
    ("docs/labs/README.md", lambda sources: {it.name for it in sources.root.glob("labs/*.script")}),
]


def check_lists(check, document):
    """Lists that are whole: LISTS; the kit's crates, wherever five are named together; the files of a crate in tables of files."""
    for path, names in LISTS:
        if str(document.path) == path:
            for name in sorted(names(check.sources)):
                there = re.search(rf"[`\[(/ ]{re.escape(name)}\b", document.text)
                check.claim(path, 1, there, f"it does not name `{name}`")
    for unit in document.units:
        named = check.sources.kit & set(re.findall(r"`(\w+)`", unit.text))
        if len(named) >= 5 and "kit" in unit.text:
            missing = sorted(check.sources.kit - named)
            check.claim(document.path, unit.line, not missing, f"the list of the kit's crates lacks {', '.join(missing)}")
        if unit.heads == ["Crate", "Files"]:
            check_files(check, document, unit)
        check_answers(check, document, unit)


def check_files(check, document, unit):
    """A row with the files of some crates: each source file is named, unless the row says that there is one for each subject."""
    if re.search(r"\b(a|one) file (per|for each)", unit.text):
        return
    named = re.findall(r"`([^`]+)`", unit.text)
    for crate in re.findall(r"`(\w+)`", unit.cells[0]):
        for path in sorted(check.root.glob(f"crates/{crate}/src/**/*.rt")):
            known = path.name in ("lib.rt", "main.rt") or any(path.match(it) for it in named)
            check.claim(document.path, unit.line, known, f"the row of `{crate}` does not name `{path.name}`")


def check_answers(check, document, unit):
    """A row that links a lab's script and ends with its answers and blanks, as `11 (6)`."""
    linked, given = re.search(r"\]\(\S*?(labs/\w+\.script)\)", unit.text), re.search(r"\| (\d+) \((\d+)\) \|$", unit.text)
    if linked and given:
        script = [it.partition("=>") for it in (check.root / linked[1]).read_text().splitlines() if not it.startswith("#")]
        counted = sum(bool(it[1]) for it in script), sum(it[2].partition(" #")[0].strip() == "?" for it in script)
        same = counted == (int(given[1]), int(given[2]))
        check.claim(document.path, unit.line, same, f"{linked[1]} has {counted[0]} answers, {counted[1]} of them blanks")


def check_sizes(check, documents):
    """README's lines, and the words of all documents. Prints a table if all are checked."""
    sizes = {path: (len(it.text.split()), it.text.count("\n")) for path, it in documents.items()}
    if "README.md" in sizes:
        lines = sizes["README.md"][1]
        check.claim("README.md", lines, lines <= MOST_LINES, f"{lines} lines, and at most {MOST_LINES} are allowed")
    if len(sizes) > 1:
        words = sum(it[0] for it in sizes.values())
        check.claim("docs", 1, words <= MOST_WORDS, f"{words:,} words in all documents, and at most {MOST_WORDS:,} are allowed")
        for path, (words_here, lines) in sorted(sizes.items(), key=lambda it: -it[1][0]):
            print(f"{words_here:>8,} words {lines:>5} lines  {path}")
        print(f"{words:>8,} words")
