"""Markdown as man pages have it. Headings, paragraphs, lists, tables and blocks are known; of a link its text is kept."""
import re

CELL = re.compile(r"(?<!\\)\|")


def escaped(text):
    """Text in which nothing is a request or an escape of roff."""
    text = text.replace("\\", "\\e").replace("-", "\\-")
    return re.sub(r"^([.'])", r"\\&\1", text)


def inline(text):
    """A line of prose: code and strong text are bold, emphasis is italic, links are their text."""
    text = re.sub(r"!?\[([^\]]*)\]\([^)]*\)", r"\1", text.strip())
    out = "".join(map(part, re.split(r"(`[^`]*`|\*\*[^*]+\*\*|\*\w[^*]*\w\*)", text)))
    return re.sub(r"^([.'])", r"\\&\1", out)


def part(text):
    """Code, strong text, emphasis, or anything else."""
    if text[:1] == "`":
        return f"\\fB{escaped(text.strip('`'))}\\fR"
    if text[:2] == "**":
        return f"\\fB{escaped(text[2:-2].replace('`', ''))}\\fR"
    if text[:1] == "*" and len(text) > 2:
        return f"\\fI{escaped(text[1:-1])}\\fR"
    return escaped(text)


def cells(line):
    return [it.strip().replace("\\|", "|") for it in CELL.split(line.strip().strip("|"))]


def table(lines):
    """The rows of a table as tagged paragraphs, later cells with the heads of their columns; a row with a strong first cell is a heading."""
    heads = cells(lines[0])
    second = f"{heads[1]}: " if len(heads) > 2 and not heads[1].startswith("What") else ""
    for row in map(cells, lines[2:]):
        row += [""] * (len(heads) - len(row))
        if re.fullmatch(r"\*\*[^*]+\*\*", row[0]):
            yield f'.SS "{escaped(row[0].strip("*"))}{": " if row[1] else ""}{inline(row[1])}"'
            continue
        yield f".TP\n{inline(row[0]) or '..'}"
        yield inline(second + row[1])
        for head, it in zip(heads[2:], row[2:]):
            if it:
                yield f".br\n{inline(f'{head or heads[1]}: {it}')}"
    yield ".PP"


def blocks(text):
    """The blocks of a text: each is its kind and its lines."""
    lines, now = [*text.splitlines(), ""], []
    kind = None
    for line in lines:
        if kind == "code":
            if line.startswith("```"):
                yield kind, now
                kind, now = None, []
            else:
                now.append(line)
            continue
        begins = {"`": "code", "#": "heading", "|": "table", "-": "list"}.get(line[:3] == "```" and "`" or line[:2] in ("# ", "##", "- ", "| ", "|-") and line[0] or "")
        new = begins or ("text" if line.strip() else None)
        goes_on = kind == "table" and new == "table" or kind in ("text", "list") and new == "text"
        if kind and not goes_on:
            yield kind, now
            now = []
        kind = kind if goes_on else new
        if kind == "code":
            now = []
        elif kind:
            now.append(line)


def page(text, level=2):
    """The text of a page; headings of `level` become sections, lower ones subsections."""
    out = []
    for kind, lines in blocks(text):
        if kind == "code":
            out += [".PP", ".in +4n", ".nf", *(escaped(it) for it in lines), ".fi", ".in", ".PP"]
        elif kind == "heading":
            depth = len(lines[0]) - len(lines[0].lstrip("#"))
            name = inline(lines[0].lstrip("# "))
            out.append(f'.SH "{name.upper()}"' if depth <= level else f'.SS "{name}"')
        elif kind == "table":
            out += table(lines)
        elif kind == "list":
            out += ['.IP "\\(bu" 2', inline(" ".join([lines[0][2:], *(it.strip() for it in lines[1:])])), ".PP"]
        else:
            out += [".PP", inline(" ".join(it.strip() for it in lines))]
    return "\n".join(out) + "\n"


def sections(text):
    """The sections of a document by their headings; what is before the first one is that of the empty name."""
    found, now = {"": []}, ""
    is_code = False
    for line in text.splitlines():
        is_code ^= line.startswith("```")
        if line.startswith("## ") and not is_code:
            now = line[3:].strip()
            found[now] = []
        elif not (line.startswith("# ") and not is_code):
            found[now].append(line)
    return {name: "\n".join(lines).strip("\n") + "\n" for name, lines in found.items()}
