"""Documents as a release has them, where there are no sources: links lead to files of the release or are their text, commands name the
installed programs, and paragraphs that begin with `In a clone` are left out."""
import os
import pathlib
import posixpath
import re

# Where folders and files of the repository are in a release.
PLACES = [
    ("crates/xv6lab/data/examples", "examples"),
    ("crates/xv6lab/data/labs", "labs"),
    ("crates/xv6vm_c/include/xv6vm.h", "../../include/xv6vm.h"),
    ("examples", "examples"),
    ("labs", "labs"),
    ("docs", "docs"),
    ("bindings/rust", "rust"),
    ("bindings/python/README.md", "python/README.md"),
    ("README.md", "README.md"),
    ("CHANGELOG.md", "CHANGELOG.md"),
    ("SECURITY.md", "SECURITY.md"),
    ("LICENSE", "LICENSE"),
]
LINK = re.compile(r"(!?)\[([^\]]*)\]\(([^()\s]+)\)")
# For whoever makes a release, and no part of one.
LEFT_OUT = {"docs/RELEASE.md"}


def is_answer(path):
    """Whether a path leads to what only teachers get."""
    return "answers" in pathlib.PurePosixPath(path).parts or "teaching" in pathlib.PurePosixPath(path).parts


def placed(path):
    """Where a file or a folder of the repository is in a release, from the folder of the documents on; None if it is not there."""
    if path.endswith("/.gitignore"):
        return None
    for before, after in PLACES:
        if path == before or path.startswith(before + "/"):
            return None if is_answer(path) or path in LEFT_OUT else after + path[len(before) :]
    return None


class Texts:
    """The documents of a clone."""

    def __init__(self, root):
        self.root = root

    def files(self, tracked):
        """Each file of the repository that is a part of the release, with its place in it; folders behind links have files of their own."""
        found = {it: placed(it) for it in tracked if not (self.root / it).is_symlink()}
        return {name: to for name, to in found.items() if to is not None}

    def text(self, path):
        """A document as a release has it."""
        text = (self.root / path).read_text(encoding="utf-8")
        text = re.sub(r"crates/(xv6vm|xv6lab)/out/\1\b", r"\1", text)
        # A paragraph ends at an empty line outside of a block; a line that ends with a colon has its block with it.
        text = re.sub(r"^In a clone\b[^\n]*(?:\n(?!\n|```)[^\n]+)*\n(?:\n```\w*\n.*?\n```\n)?\n?", "", text, flags=re.MULTILINE | re.DOTALL)
        return LINK.sub(lambda found: self.link(path, found), text)

    def link(self, path, found):
        """A link of a document: to the target's place in the release, or its text alone."""
        mark, shown, target = found.groups()
        name, _, anchor = target.partition("#")
        if re.match(r"\w+:", target) or not name:
            return found[0]
        there = posixpath.normpath(posixpath.join(posixpath.dirname(path), name))
        to = placed(there)
        if to is None or not (self.root / there).exists():
            return "" if mark else shown
        here = placed(path) or path
        near = os.path.relpath(to, posixpath.dirname(here) or ".")
        return f"{mark}[{shown}]({near}{'#' + anchor if anchor else ''})"


def broken_links(tree, top):
    """Links of the documents of a release that lead nowhere in it."""
    paths = set(tree.paths()) | set(tree.folders())
    for path in tree.paths():
        if not (path.endswith(".md") and path.startswith(top + "/")):
            continue
        for found in LINK.finditer(tree.files[path][0].decode()):
            name = found[3].partition("#")[0]
            if name and not re.match(r"\w+:", name) and posixpath.normpath(posixpath.join(posixpath.dirname(path), name)) not in paths:
                yield f"{path}: the link to {found[3]} leads nowhere"
