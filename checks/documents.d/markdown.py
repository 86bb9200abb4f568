"""A document in Markdown: its headings, its units (a row of a table, an item of a list, a paragraph), its links and its blocks."""
import pathlib
import re

SPAN = re.compile(r"(`+)(.+?)\1(?!`)", re.S)
LINK = re.compile(r"\[((?:[^\[\]`]|`[^`]*`)*)\]\(([^()\s]+)\)")


def blank(found):
    return re.sub(r"[^\n]", " ", found[0])


class Unit:
    """A row, an item, a paragraph or a heading; `heads` are the cells of the table's first row, `first` those of its first column."""

    def __init__(self, line, text, section, cells=(), heads=(), first=""):
        self.line, self.text, self.section, self.cells, self.heads, self.first = line, text, section, cells, heads, first

    def line_at(self, place):
        return self.line + self.text.count("\n", 0, place)

    def spans(self):
        """What stands in backticks, each with its place in the text."""
        return [(found.start(), " ".join(found[2].split())) for found in SPAN.finditer(self.text)]


class Document:
    """`blocks` are the fenced blocks: the first line's number, the language and the lines."""

    def __init__(self, path, text):
        self.path, self.text = pathlib.PurePosixPath(path), text
        self.headings, self.units, self.blocks = [], [], []
        self.table, self.pending, self.section = None, [], 0
        self.read(text.split("\n"))

    def read(self, lines):
        fence = None
        for number, line in enumerate(lines + [""], 1):
            mark = re.match(r"^ *```(.*)$", line)
            if fence is not None:
                if mark:
                    self.blocks.append(fence)
                    fence = None
                else:
                    fence[2].append(line)
            elif mark:
                self.close()
                fence = (number, mark[1].strip(), [])
            elif line.startswith("|"):
                self.close()
                self.read_row(number, line)
            else:
                self.table = None
                self.read_text(number, line)

    def read_row(self, number, line):
        cells = [it.strip() for it in re.split(r"(?<!\\)\|", line)[1:-1]]
        if self.table is None:
            self.table = cells, ""
        elif not all(set(it) <= set("-: ") for it in cells) or not line.strip("|-: "):
            self.table = self.table[0], cells[0] or self.table[1]
        self.units.append(Unit(number, line, self.section, cells, *self.table))

    def read_text(self, number, line):
        heading = re.match(r"^(#+) +(.*)$", line)
        if not line.strip() or heading or re.match(r"^ *([-*]|\d+\.) ", line):
            self.close()
        if heading:
            self.headings.append((number, heading[2]))
            self.section = number
            self.units.append(Unit(number, line, self.section))
        elif line.strip():
            self.pending.append((number, line))

    def close(self):
        if self.pending:
            self.units.append(Unit(self.pending[0][0], "\n".join(it.lstrip() for _, it in self.pending), self.section))
        self.pending = []

    def commands(self):
        """The lines of blocks that are typed into a shell."""
        for number, language, lines in self.blocks:
            yield from ((at, it) for at, it in enumerate(lines, number + 1) if language == "sh" or it.startswith("$ "))

    def line_of(self, place):
        return self.text.count("\n", 0, place) + 1

    def prose(self):
        """The text with blanks in place of blocks and spans, each character in its place."""
        text = re.sub(r"^ *```.*?^ *```", blank, self.text, flags=re.S | re.M)
        return SPAN.sub(blank, text)

    def anchors(self):
        """The anchors of the headings, as GitHub makes them."""
        found = []
        for _, title in self.headings:
            text = LINK.sub(r"\1", title).replace("`", "").replace("*", "").lower()
            name = re.sub(r"[^\w\- ]", "", text).replace(" ", "-")
            again = sum(it == name or re.fullmatch(re.escape(name) + r"-\d+", it) is not None for it in found)
            found.append(f"{name}-{again}" if again else name)
        return found

    def links(self):
        for unit in self.units:
            masked = SPAN.sub(lambda it: it[0] if "](" not in it[0] else "`" * len(it[0]), unit.text)
            for found in LINK.finditer(masked):
                yield unit.line_at(found.start()), found[2]
