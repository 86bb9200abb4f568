"""Blocks of documents that show what the programs print.

What the gate plays already is compared with that: stored runs of `xv6lab` with their texts, and the answers that lines of examples
expect. The programs are asked the rest.
"""
import itertools
import os
import pathlib
import re
import shlex
import shutil
import subprocess
import tempfile

LINKED = ("crates", "checks", "docs", "examples", "labs", "teaching")
PROGRAM = re.compile(r"^(?:crates/\w+/out/)?(xv6lab|xv6vm) (.*)$")
WRONG = re.compile(r"^(\S+):(\d+): (.*)$")


class Player:
    """Answers command lines of `xv6lab` and `xv6vm` in a scratch folder, which has the folders of the repository as links."""

    def __init__(self, root, programs):
        self.root, self.programs = root, programs
        self.stored, self.printed, self.answers = {}, set(), {}
        data = root / "crates" / "xv6lab" / "data"
        for path in sorted(data.glob("*.run")):
            words, _, given = path.read_text(errors="replace").partition("\n")
            text = path.with_suffix(".expect").read_text(errors="replace")
            self.stored[words, given] = text[: text.rindex("status ")]
            self.printed.update(line.strip() for line in text.splitlines())
        for path in [*data.glob("examples/*.script"), *data.glob("teaching/*.script")]:
            lines = [it.partition("=>") for it in path.read_text().splitlines() if it and not it.startswith("#")]
            self.answers["\n".join(it[0].rstrip() for it in lines)] = [it[2].strip() for it in lines]

    def enter(self, scratch):
        self.scratch = pathlib.Path(scratch)
        for name in LINKED:
            os.symlink(self.root / name, self.scratch / name)

    def ask(self, program, words, given):
        """What a program prints: as stored, or as it prints now. None if it is not here."""
        for (kept, whole), text in self.stored.items() if program == "xv6lab" else ():
            after = whole[len(given) :].partition("\n")[0]
            if kept == words and whole == given:
                return text
            # Lines are answered as they are read, and each is printed: so a run that goes on has the same text up to its next line.
            if kept == words and words in ("run -", "show -") and whole.startswith(given) and after and after not in given.split("\n"):
                return text[: text.index("\n" + after) + 1]
        path = self.programs.get(program)
        if path is None:
            return None
        ran = subprocess.run([path, *words.split()], input=given, capture_output=True, text=True, cwd=self.scratch, timeout=60)
        return ran.stdout + ("" if words == "repl" else ran.stderr)

    def command(self, line, shown):
        """What a command line prints. None if its program is not here, or is none of the repository's."""
        first, _, filters = line.partition(" | ")
        first, _, source = first.partition(" < ")
        found = PROGRAM.match(first)
        if not found:
            return None
        given = (self.scratch / source).read_text() if source else typed(found[2], shown)
        self.fill_in(shown)
        text = self.ask(found[1], found[2], given)
        if text is not None and filters:
            return subprocess.run(["bash", "-c", filters], input=text, capture_output=True, text=True, timeout=60).stdout
        return beside(given, text) if text is not None and found[2] == "mmu -" else text

    def fill_in(self, shown):
        """A wrong answer that is shown was written by the reader, in place of a blank."""
        for place, line in enumerate(shown[:-1]):
            found, answer = WRONG.match(line), shown[place + 1]
            if found and answer.startswith("  expected ") and (self.scratch / found[1]).is_file() and "/" not in found[1]:
                lines = (self.scratch / found[1]).read_text().splitlines()
                lines[int(found[2]) - 1] = f"{found[3]} => {answer[11:]}"
                (self.scratch / found[1]).write_text("\n".join(lines) + "\n")


def typed(words, shown):
    """What was typed, if a program takes lines from standard input: all that is shown but what it printed."""
    if words != "repl" and words.split()[-1] != "-":
        return ""
    if words == "repl":
        return "".join(it[2:] + "\n" for it in shown if it.startswith("> "))
    if words.split()[0] == "mmu":
        return "".join(it + "\n" for it in shown if it and not it.startswith(" "))
    lines = [it.partition(" =>")[0].rstrip() for it in shown if it and not it.startswith(("  ", " ..", "#   ", "page table", ".."))]
    return "".join(it + "\n" for it in lines)


def beside(given, text):
    """Lines with their answers below them; a comment has none."""
    answers = iter(text.splitlines())
    return "".join(it + "\n" if it.startswith("#") else f"{it}\n    {next(answers, '')}\n" for it in given.splitlines())


def difference(shown, text):
    """Where lines that are shown differ from a text: which of them, and how. A line `..` stands for any others; runs of blanks are alike."""
    lines = [" ".join(it.split()) for it in text.splitlines()]
    wanted = [" ".join(it.split()) for it in shown]
    if ".." not in wanted:
        for place, (line, printed) in enumerate(itertools.zip_longest(wanted, lines)):
            if line != printed:
                return place, f"shows {line!r} where {printed!r} is printed"
        return None
    start = end = 0
    for is_gap, part in itertools.groupby(wanted, lambda it: it == ".."):
        part = list(part)
        if not is_gap:
            places = [it for it in range(end, len(lines) - len(part) + 1) if lines[it : it + len(part)] == part]
            if not places:
                lost = next((it for it, line in enumerate(part) if line not in lines), 0)
                return start + lost, f"shows {part[lost]!r}, which is not printed there"
            end = places[0] + len(part)
        start += len(part)
    return None


def check_commands(check, player, document, block):
    """The command lines of a block, each with the lines below it; where nothing stands below, nothing is compared."""
    number, _, lines = block
    starts = [place for place, line in enumerate(lines) if line.startswith("$ ")]
    for start, end in zip(starts, starts[1:] + [len(lines)]):
        command, shown = lines[start][2:], lines[start + 1 : end]
        while shown and not shown[-1]:
            shown.pop()
        words = command.split()
        if words[0] == "cat" and "/" not in words[-1]:
            (player.scratch / words[-1]).write_text("\n".join(shown) + "\n")
        elif words[0] == "cp":
            shutil.copy(player.scratch / words[1], player.scratch / words[2])
        elif words[0] == "sed":
            subprocess.run(shlex.split(command), cwd=player.scratch, check=True)
        elif shown:
            check_command(check, player, (document, number + 2 + start), (command, shown))


def check_command(check, player, place, block):
    (document, line), (command, shown) = place, block
    text = player.command(command, shown)
    if text is None:
        check.left_out += 1
        return
    if command.startswith("xv6lab repl"):
        shown = [it for it in shown if not it.startswith("> ")]
    at, how = difference(shown, text) or (0, "")
    check.claim(document.path, line + at, not how, f"of `{command}` it {how}")


def check_columns(check, player, document, block):
    """A script with its answers in a column beside it, with comments behind them."""
    number, _, lines = block
    rows = [re.split(r"  +", re.sub(r"  +# .*", "", it)) for it in lines]
    script, shown = "\n".join(it[0] for it in rows), [it[1].removeprefix("=> ") if len(it) > 1 else "" for it in rows]
    answers = player.answers.get(script)
    if answers is None:
        text = player.ask("xv6lab", "run -", script + "\n")
        answers = text and [it.partition("=>")[2].strip() for it in text.splitlines()]
    if answers is None:
        check.left_out += 1
        return
    for place, (line, answer, wanted) in enumerate(zip(script.splitlines(), shown, answers)):
        check.claim(document.path, number + 1 + place, answer == wanted, f"`{line}` is answered {wanted}")


def check_copied(check, player, document, block):
    """A script that a reader may copy with its answers and comments: `check` finds none that differs."""
    number, _, lines = block
    text = player.ask("xv6lab", "check -", "\n".join(lines) + "\n")
    if text is None:
        check.left_out += 1
        return
    check.claim(document.path, number + 1, re.fullmatch(r"1 file, \d+ answers, 0 differ\n", text), f"of this script `xv6lab check` prints: {text}")


def check_heredoc(check, player, document, block, answers):
    """A script that is typed into a command, and the block after it, which lists the answers."""
    text = player.ask("xv6vm", "play -", "\n".join(block[2][1 : block[2].index("END")]) + "\n")
    if text is None:
        check.left_out += 1
        return
    shown = [it.strip() for it in ",".join(answers[2]).split(",") if it.strip()]
    check.claim(document.path, answers[0], shown == text.splitlines(), f"the script above is answered {', '.join(text.splitlines())}")


def check_blocks(check, player, documents):
    """All blocks; each document has its own scratch folder, in which what one block makes is there for the next."""
    for document in documents.values():
        with tempfile.TemporaryDirectory(prefix="documents-") as scratch:
            player.enter(scratch)
            for place, block in enumerate(document.blocks):
                lines = block[2]
                known = sum(it.strip() in player.printed for it in lines)
                if any(it.startswith("$ ") for it in lines):
                    check_commands(check, player, document, block)
                elif lines and "<<'END'" in lines[0] and "END" in lines:
                    check_heredoc(check, player, document, block, document.blocks[place + 1])
                elif not block[1] and any(re.match(r"boot \d.*  (=> )?ok", it) for it in lines):
                    check_columns(check, player, document, block)
                    if any(" => " in it for it in lines):
                        check_copied(check, player, document, block)
                elif not block[1] and 2 * known > len(lines):
                    for at, line in enumerate(lines, block[0] + 1):
                        check.claim(document.path, at, line.strip() in player.printed, f"no stored run prints `{line.strip()}`")
