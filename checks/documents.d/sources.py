"""What the sources define: files, names, members of types, functions with their clauses, constants, and words in string literals."""
import collections
import os
import re

RUST_ITEM = re.compile(r"^(?:pub(?:\(\w+\))? )?(?:unsafe |const |extern \"C\" )*(fn|struct|enum|trait|impl|const|type|mod|static) *(?:<.*?> )?(.*)")
RUST_MEMBER = re.compile(r"^    (?:pub(?:\(\w+\))? )?(?:unsafe |const )*(fn|ghost|type|const) (?:\(.*?\) )?(\w+)")
RUST_CLAUSE = re.compile(r"^\s+(ensures|requires)(?: (\w+))? \{")
RUST_FIELD = re.compile(r"^\s+(?:pub(?:\(\w+\))? )?(?:ghost )?(\w+): ")
RUST_VARIANT = re.compile(r"^    ([A-Z]\w*)\s*(?:[,({=]|$)")
ANTT_NAME = re.compile(r"^( *)((?:(?:pub|abbrev|unfoldable|record|data) )*)([^\s(:=][^(:=]*?)((?: ?\([^)]*\))*) : ")
ANTT_TYPE = re.compile(r"^( *)((?:(?:pub|abbrev|unfoldable) )*(?:record|data) )([^\s(:]+)(.*)")
C_NAME = re.compile(r"\b(\w+)(?=\(| = |[,;]|\[)|#define (\w+)|(?:struct|enum|def|class) (\w+)")
LITERAL = re.compile(r'"((?:[^"\\]|\\.)*)"')
WORD = re.compile(r"[A-Za-z_][\w-]*")
IDENTIFIER = re.compile(r"[A-Za-z_]\w*")


class Sources:
    """The files of the repository, and an index of what its crates define."""

    def __init__(self, root):
        self.root = root
        self.crates = {}
        self.names = collections.defaultdict(set)
        self.members = collections.defaultdict(set)
        self.clauses = collections.defaultdict(dict)
        self.constants = collections.defaultdict(set)
        self.ghosts = collections.defaultdict(dict)
        self.imported, self.words, self.texts, self.bodies = set(), set(), {}, collections.defaultdict(set)
        self.read_crates()
        self.paths = set(self.walk())
        self.files = {os.path.basename(it) for it in self.paths}
        self.formulas = []
        for path in sorted(self.paths):
            self.read(path)
        self.evaluate()

    def read_crates(self):
        for line in (self.root / "crates.txt").read_text().splitlines():
            name, _, needs = line.partition(":")
            self.crates[name.split()[0]] = needs.split()
        self.kit = {need for needs in self.crates.values() for need in needs} - set(self.crates)

    def walk(self):
        for folder, folders, files in os.walk(self.root):
            folders[:] = [it for it in folders if it not in ("out", "target", ".git", "__pycache__")]
            here = os.path.relpath(folder, self.root)
            yield from (os.path.normpath(os.path.join(here, it)) for it in files + folders)

    def read(self, path):
        parts = path.split(os.sep)
        crate = parts[1] if parts[0] == "crates" and len(parts) > 3 else ""
        if path.endswith(".rt"):
            self.read_rust(crate, self.text(path))
        elif path.endswith(".antt"):
            self.read_definitions(crate, self.text(path))
        elif path.startswith("checks/documents"):
            pass
        elif path.endswith((".c", ".h", ".py", ".rs")) or path.startswith(("checks/", "bench/", "release/")) and (self.root / path).is_file():
            self.read_other(self.text(path))
        elif path.endswith(".edit"):
            self.names[os.path.basename(path)[:-5]].add(crate)

    def read_other(self, text):
        """C, Python and Rust outside of the crates: what looks like a definition."""
        for found in C_NAME.finditer(text):
            self.names[found[1] or found[2] or found[3]].add("")
        self.read_literals(text)

    def read_literals(self, text):
        """Words of scripts and of command lines: a literal of one word, the first word of a line of help, and placeholders."""
        for literal in LITERAL.findall(text):
            self.words.update(re.findall(r"\b[A-Z][A-Z_]+\b", literal))
            for line in re.split(r"\\n|\n", literal):
                self.words.update(WORD.findall(line)[:1] if line.startswith("  ") or " " not in line.strip() else ())

    def text(self, path):
        if path not in self.texts:
            self.texts[path] = (self.root / path).read_text()
        return self.texts[path]

    def add(self, crate, container, name):
        self.names[name].add(crate)
        for it in container:
            self.members[it].add(name)

    def read_rust(self, crate, text):
        containers, call, kind = (), None, ""
        for line in text.splitlines():
            code = line.partition("//")[0]
            if code.lstrip().startswith(("use ", "pub use ", "ghost use ")):
                self.imported.update(IDENTIFIER.findall(code))
                continue
            self.read_literals(code)
            self.imported.update(re.findall(r"\.(\w+)\(", code))
            item, member = RUST_ITEM.match(code), RUST_MEMBER.match(code)
            if item:
                kind, names = item[1], IDENTIFIER.findall(re.sub(r"<.*?>+|\(.*", " ", item[2].split(" where ")[0].split("=")[0]))
                if not names:
                    continue
                containers = [it for it in names if it != "for"] if kind == "impl" else [names[0]]
                if kind == "impl":
                    self.imported.update(names)
                else:
                    self.names[names[0]].add(crate)
                call = (crate, (), names[0]) if kind == "fn" else None
                self.note_constant(crate, code)
            elif member:
                self.add(crate, containers, member[2])
                call = (crate, tuple(containers), member[2]) if member[1] == "fn" else call
                if member[1] == "ghost":
                    for it in containers:
                        self.ghosts[it][member[2]] = self.ghosts[it].get(member[2], "") + code
                self.note_constant(crate, code)
            elif kind == "enum" and RUST_VARIANT.match(code):
                self.add(crate, containers, RUST_VARIANT.match(code)[1])
            if "fn" in (item and item[1], member and member[1]):
                self.clauses[call]
            if call is None and kind in ("struct", "enum", "trait") and RUST_FIELD.match(code):
                self.add(crate, containers, RUST_FIELD.match(code)[1])
            elif call is not None:
                self.read_signature(crate, call, code)
            call = None if code.strip() == "{" else call

    def read_signature(self, crate, call, code):
        """Parameters and clauses of a function, up to its body."""
        clause = RUST_CLAUSE.match(code)
        if clause:
            name = clause[2] or ""
            self.clauses[call][name] = self.clauses[call].get(name, "") + code
            self.names[name].add(crate)
        elif self.clauses[call]:
            self.clauses[call][list(self.clauses[call])[-1]] += code
        else:
            for name in re.findall(r"(\w+): ", code):
                self.names[name].add(crate)

    def note_constant(self, crate, code):
        found = re.search(r"const (\w+): .*?= ([A-Z\d_xa-f *<+-]+);", code)
        if found:
            self.formulas.append((crate, found[1], found[2]))

    def evaluate(self):
        """Constants may be made of others: those whose parts have one value each, until none is left that has."""
        for _ in range(3):
            known = {name: value for name, values in self.constants.items() for _, value in values}
            for crate, name, formula in self.formulas:
                if set(re.findall(r"\b[A-Z]\w*", formula)) <= set(known):
                    self.constants[name].add((crate, eval(formula, {}, known)))

    def read_definitions(self, crate, text):
        container, whole = (), ""
        for line in text.splitlines():
            code = line.partition("--")[0]
            if code.startswith("use "):
                self.imported.update(IDENTIFIER.findall(code))
                continue
            found = ANTT_TYPE.match(code) or ANTT_NAME.match(code)
            whole = found[3] if found and not found[1] else whole
            self.bodies[whole].update(IDENTIFIER.findall(code))
            if found:
                inner = bool(found[1]) and not set(found[2].split()) - {"pub"}
                if not inner:
                    container = (found[3],) if "record" in found[2] or "data" in found[2] else ()
                for name in found[3].split():
                    self.add(crate, container if inner else (), name)
                self.imported.update(it for names in re.findall(r"\((\w[\w ]*) :", found[4]) for it in names.split())
            elif re.match(r"[\w ]+ = ", code):
                name, _, value = code.strip().partition(" = ")
                self.imported.update(name.split())
                if value.isdigit():
                    self.constants[name].add((crate, int(value)))

    def needs(self, crate):
        """A crate and all that it is built on."""
        found, todo = set(), [crate]
        while todo:
            name = todo.pop()
            if name not in found:
                found.add(name)
                todo += self.crates.get(name, [])
        return found

    def cites(self, text, name, depth):
        """Whether a text names a definition, or names one that cites it."""
        new = names = set(IDENTIFIER.findall(text))
        for _ in range(depth):
            new = set().union(*(self.bodies[it] for it in new if it in self.bodies)) - names
            names = names | new
        return name in names

    def count(self, pattern):
        return len(list(self.root.glob(pattern)))
