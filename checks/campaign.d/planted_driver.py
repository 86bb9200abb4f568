"""Errors of a driver of campaigns. Each has what it is, and triples: a file of campaign/, a text, and what stands in its place."""
import shutil

PLANTED = [
    ("the last seeds are no piece of work", ("journal.py", "range(first, last + 1, self.piece)", "range(first, last, self.piece)[:-1]")),
    ("the piece that was cut by a kill counts as done", ("journal.py", "            file.truncate(whole)",
     '            self.results.setdefault("broken 7-8", next(iter(self.results.values())))\n            file.truncate(whole)')),
    ("a line that was cut stays", ("journal.py", "            file.truncate(whole)\n", "")),
    ("at resume the differences of pieces that are done are dropped",
     ("journal.py", 'setdefault(result["piece"], result)', 'setdefault(result["piece"], {**result, "differences": []})')),
    ("at resume the troubles of pieces that are done are dropped",
     ("journal.py", 'setdefault(result["piece"], result)', 'setdefault(result["piece"], {**result, "troubles": []})')),
    ("at resume all is done again, and kept twice", ("run", " if name not in journal.results]", "]"),
     ("journal.py", '        if result["piece"] not in self.results:\n', "        if True:\n")),
    ("a piece is kept without its last difference", ("piece.py", '"differences": self.differences,', '"differences": self.differences[:-1],')),
    ("of a reason one difference is counted", ("piece.py", '"count": counts[reason, causes]', '"count": 1')),
    ("differences after the first of a seed are not judged", ("piece.py", "and not differing:", "and not found:")),
    ("a crash is not told", ("piece.py", "wrong = client.trouble or garbage", "wrong = garbage")),
    ("garbage is not told", ("piece.py", "client.trouble or garbage(lines, answers, end)", "client.trouble")),
    ("a transcript is that of another difference", ("piece.py", "self.transcript(lines, answers, at)", "self.transcript(lines, answers, max(reasons))")),
    ("a bug has its longest transcript", ("report.py", "best = min((it", "best = max((it"), ("report.py", "return min(with_one", "return max(with_one")),
    ("reasons that share a trait are apart", ("reasons.py", "if it[0] & having", "if it[0] == having")),
    ("nothing else is looked for as the cause", ("reasons.py", 'asked += line_for(line)', "asked += []")),
    ("all of a client is one bug", ("report.py", "for those in bugs(", "for those in filter(None, [sum(bugs("), ("report.py", 'if it["client"] == client])]\n', 'if it["client"] == client]), [])])]\n')),
    ("other settings are taken for those of the campaign", ("journal.py", 'if wanted[name] is not None and wanted[name] != getattr(kept, name)', "if False")),
]


def planted_copy(folder, scratch, edits):
    """A copy of the driver with texts replaced, each of which must be there once."""
    copy = scratch / "campaign"
    shutil.copytree(folder, copy)
    for name, old, new in edits:
        text = (copy / name).read_text()
        if text.count(old) != 1:
            raise SystemExit(f"{name} has {old!r} {text.count(old)} times")
        (copy / name).write_text(text.replace(old, new))
    return copy
