"""The help of a program, as clap prints it: its commands, and of each what it does, its usage, its arguments and its options."""
import dataclasses
import re
import subprocess

ITEM = re.compile(r"^ {2,6}(?P<name>(?:-\w, )?--[\w-]+(?: <[^>]+>)?|(?:<[^>]+>|\[[A-Z_]+\])(?:\.\.\.)?|[a-z][\w-]*)  +(?P<text>\S.*)$")
VALUES = re.compile(r" \[possible values: ([^\]]+)\]")


@dataclasses.dataclass
class Item:
    """An argument, an option or a command, with what is said of it."""

    name: str
    text: str

    def flags(self):
        """The option's forms, as `-o` and `--out`; none of an argument."""
        return re.findall(r"(?<![\w-])--?[\w-]+", self.name.partition(" <")[0])

    def value(self):
        """The name of the option's value; empty if it takes none."""
        found = re.search(r"<([^>]+)>", self.name)
        return found[1] if found else ""

    def values(self):
        """The values that are possible, if they are listed."""
        found = VALUES.search(self.text)
        return found[1].split(", ") if found else []


@dataclasses.dataclass
class Help:
    """A help text: its first paragraph, its usage, and its items by the names of their lists."""

    about: str
    usage: str
    lists: dict

    def items(self, name):
        return self.lists.get(name, [])


class Unreadable(Exception):
    """A line of a help text that is none of the forms above."""


def parsed(text):
    """A help text by its parts."""
    about, usage, lists, now = [], "", {}, None
    for line in text.splitlines():
        found = ITEM.match(line)
        if line.startswith("Usage: "):
            usage = line[len("Usage: ") :]
        elif re.fullmatch(r"[A-Z]\w+:", line):
            now = lists.setdefault(line[:-1], [])
        elif now is not None and found:
            now.append(Item(found["name"], found["text"].strip()))
        elif now is None and not usage and line:
            about.append(line)
        elif line:
            raise Unreadable(f"a line of help is none of the forms that are known: {line!r}")
    return Help(" ".join(about), usage, lists)


def help_of(program, *words):
    """The help that a program prints."""
    ran = subprocess.run([program, *words, "--help"], capture_output=True, text=True, timeout=60)
    if ran.returncode or ran.stderr:
        raise Unreadable(f"{program} {' '.join(words)} --help: status {ran.returncode}, {ran.stderr[:300]}")
    return parsed(ran.stdout)


def forms_of(program):
    """The forms of the command line of a program that has no help: it prints `NAME: usage: FORM | FORM` if the command line is wrong."""
    ran = subprocess.run([program], capture_output=True, text=True, timeout=60)
    found = re.fullmatch(r"\w+: usage: (.*)\n", ran.stderr)
    if ran.returncode != 2 or not found:
        raise Unreadable(f"{program} without words prints {ran.stderr!r}, and no `usage:`")
    return found[1].split(" | ")


def words_of_forms(forms):
    """The same for a program that has forms in place of help: `NAME WORD FILE --option N`."""
    words = {}
    for form in forms:
        fields = form.split()
        options = [Item(f"{it} <{after}>", "") for it, after in zip(fields, [*fields[1:], ""]) if it.startswith("--")]
        words[fields[1]] = Help("", form, {"Arguments": [Item(f"<{it}>", "") for it in fields if it == "FILE"], "Options": options})
    return Help("", "", {"Options": [Item("--version", "")]}), words


def words_of(program):
    """The help of a program, and that of each of its words but `help`, in the order of the first."""
    whole = help_of(program)
    words = [it.name for it in whole.items("Commands") if it.name != "help"]
    return whole, {word: help_of(program, word) for word in words}
