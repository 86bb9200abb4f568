"""What release/try does with a release that is installed below a prefix, in another root."""
import pathlib
import re
import subprocess

SHARE = "share/xv6vm"


class Root:
    """Another root, in which commands run."""

    def __init__(self, folder, version):
        self.folder, self.version = folder, version

    def run(self, command, given="", timeout=300):
        """Runs a command by bash, as a new user's shell would: with /proc, and nothing of this machine's environment but a terminal's."""
        env = {"PATH": "/usr/local/sbin:/usr/local/bin:/usr/sbin:/usr/bin:/sbin:/bin", "HOME": "/root", "LANG": "C.UTF-8", "TERM": "dumb"}
        inside = 'mount -t proc proc "$0/proc" && exec chroot "$0" /bin/bash -c "$1"'
        words = ["unshare", "--mount", "sh", "-c", inside, self.folder, command]
        return subprocess.run([str(it) for it in words], input=given, capture_output=True, text=True, timeout=timeout, env=env)

    def has(self, program):
        return self.run(f"command -v {program}").returncode == 0

    def text(self, prefix, path):
        return (self.folder / prefix.lstrip("/") / SHARE / path).read_text(encoding="utf-8")


def blocks(text):
    """The blocks of a document: each is its language and its lines."""
    return [(it[0], it[1].splitlines()) for it in re.findall(r"^```(\w*)\n(.*?)^```$", text, re.MULTILINE | re.DOTALL)]


def is_clean(root, prefix, wrong, told):
    """No kit is here."""
    for it in ("rt", "rattle"):
        if root.has(it):
            wrong(f"{it} is in the root, so nothing is shown by what runs there")


def versions(root, prefix, wrong, told):
    """The versions of programs, library and manifest are those of the file's name."""
    wanted = {"xv6vm --version": f"xv6vm {root.version}", "xv6lab --version": f"xv6lab {root.version}"}
    if root.has("pkg-config"):
        wanted["pkg-config --modversion xv6vm"] = root.version
    wanted[f"sed -n 's/^#define XV6VM_VERSION \"\\(.*\\)\"/\\1/p' {prefix}/include/xv6vm.h"] = root.version
    wanted[f"head -1 {prefix}/{SHARE}/MANIFEST"] = f"vigorothuja {root.version}, x86-64 Linux"
    for command, text in wanted.items():
        ran = root.run(command)
        if ran.stdout.strip() != text:
            wrong(f"{command}: {ran.stdout.strip()!r}{ran.stderr} in place of {text!r}")
    told(root.run(f"sed -n 's/^gate //p' {prefix}/{SHARE}/MANIFEST").stdout.strip())


def checksums(root, prefix, wrong, told):
    """The checksums are those of the files."""
    ran = root.run(f"cd {prefix} && sha256sum --quiet -c {SHARE}/SHA256SUMS") if prefix != "/usr" else root.run("dpkg --verify xv6vm")
    if ran.returncode or ran.stdout or ran.stderr:
        wrong(f"status {ran.returncode}: {ran.stdout[:500]}{ran.stderr[:500]}")


def first_screen(root, prefix, wrong, told):
    """The first screen of README.md prints what it shows."""
    readme = root.text(prefix, "README.md")
    script = next(lines for _, lines in blocks(readme) if any(" => " in it for it in lines))
    count = sum(" => " in it for it in script)
    ran = root.run("xv6lab check -", "\n".join(script) + "\n")
    if ran.stdout != f"1 file, {count} answers, 0 differ\n" or ran.returncode:
        wrong(f"its script: status {ran.returncode}, {ran.stdout}{ran.stderr}")
    trace = root.run(f"cd {prefix}/{SHARE} && xv6lab trace examples/tour.script").stdout
    shown = next(lines for _, lines in blocks(readme) if lines and lines[0].startswith("regions:"))
    for line in shown:
        if line.strip() not in trace:
            wrong(f"its trace has {line!r}, which `xv6lab trace` does not print")
    for line in [it for language, lines in blocks(readme) if language == "sh" for it in lines if it.startswith("xv6")][:4]:
        ran = root.run(f"cd {prefix}/{SHARE} && {line}")
        told(f"`{line.partition('#')[0].strip()}` prints {len(ran.stdout.splitlines())} lines")
        if ran.returncode or ran.stderr or not ran.stdout:
            wrong(f"{line}: status {ran.returncode} {ran.stderr[:300]}")


def examples(root, prefix, wrong, told):
    """Each example is answered as it says."""
    ran = root.run(f"cd {prefix}/{SHARE} && xv6lab check $(ls examples/*.script | grep -v refused)")
    if ran.returncode or not re.search(r" 0 differ$", ran.stdout.strip()):
        wrong(f"status {ran.returncode}: {ran.stdout[-300:]}{ran.stderr[-300:]}")
    told((ran.stdout.strip().splitlines() or [""])[-1])
    ran = root.run(f"cd {prefix}/{SHARE} && xv6lab check --bare examples/tour.script | xv6vm play -")
    if ran.returncode or not ran.stdout.endswith("ended 4 GuardPage\n"):
        wrong(f"xv6vm play: status {ran.returncode} {ran.stdout}{ran.stderr}")
    ran = root.run(f"cd {prefix}/{SHARE} && xv6vm threads examples/harts_as_threads.threads --harts 2")
    if ran.returncode or not ran.stdout.splitlines()[-1].startswith("free "):
        wrong(f"xv6vm threads: status {ran.returncode} {ran.stdout}{ran.stderr}")
    ran = root.run(f"cd {prefix}/{SHARE} && xv6lab draw examples/copy_on_write.script --steps -o /tmp/steps.html && head -c 15 /tmp/steps.html")
    if ran.returncode or "<!" not in ran.stdout:
        wrong(f"xv6lab draw: status {ran.returncode} {ran.stdout}{ran.stderr}")


def labs(root, prefix, wrong, told):
    """Each lab is a handout with blanks, which are found, and no answer is there."""
    table = re.findall(r"\[(\w+\.script)\]\([^)]*\) \| [^|]* \| (\d+) \((\d+)\) \|", root.text(prefix, "docs/labs/README.md"))
    if not table:
        wrong("docs/labs/README.md has no table of labs")
    for name, answers, blanks in table:
        ran = root.run(f"cp {prefix}/{SHARE}/labs/{name} /tmp/mine.script && cd /tmp && xv6lab check mine.script")
        if ran.returncode != 1 or f"{answers} answers, {blanks} differ" not in ran.stdout:
            wrong(f"{name}: status {ran.returncode}, {ran.stdout}{ran.stderr}")
    told(f"{len(table)} labs")
    found = root.run(f"find {prefix}/{SHARE} {prefix}/share/doc -path '*answers*' -o -path '*teaching*'").stdout
    if found:
        wrong(f"for teachers, and here: {found}")


def mmu(root, prefix, wrong, told):
    """The reference MMU answers a line, and the session of docs/MMU.md."""
    ran = root.run("xv6lab mmu -", "version\n")
    told(ran.stdout.strip())
    if not re.fullmatch(r"mmu protocol \d+\n", ran.stdout):
        wrong(f"version: {ran.stdout}{ran.stderr}")
    session = next(lines for _, lines in blocks(root.text(prefix, "docs/MMU.md")) if lines and lines[0] == "$ xv6lab mmu -")[1:]
    asked = [it for it in session if not it.startswith("    ")]
    ran = root.run("xv6lab mmu -", "\n".join(asked) + "\n")
    shown = [it.strip() for it in session if it.startswith("    ")]
    if ran.stdout.splitlines() != shown:
        wrong(f"the session of docs/MMU.md is answered {ran.stdout[-500:]}{ran.stderr}")
    if root.has("python3"):
        ran = root.run(f"python3 {prefix}/{SHARE}/examples/python/ask_mmu.py xv6lab", timeout=120)
        if "NOT permitted" not in ran.stdout + ran.stderr:
            wrong(f"examples/python/ask_mmu.py: status {ran.returncode} {ran.stdout[-300:]}{ran.stderr[-300:]}")


def c_programs(root, prefix, wrong, told):
    """Each program of examples/c compiles by pkg-config, with the shared library and with the archive, and prints what it must."""
    if not root.has("gcc") or not root.has("pkg-config"):
        return told("left out: no gcc or no pkg-config")
    folder = f"{prefix}/{SHARE}/examples/c"
    for path in sorted((root.folder / folder.lstrip("/")).glob("*.c")):
        comment = path.read_text(encoding="utf-8").rpartition("/* Prints")[2].rpartition("*/")[0]
        first, _, text = comment.partition("\n")
        status, argument = re.search(r"status (\d+)", first), re.search(r"of (\S+):", first)
        for way, libraries in (("shared", "$(pkg-config --libs xv6vm)"), ("archive", "$(pkg-config --variable=libdir xv6vm)/libxv6vm.a")):
            words = f"{prefix}/{SHARE}/{argument[1]}" if argument else ""
            ran = root.run(f"gcc -O2 -Wall -Wextra -Werror $(pkg-config --cflags xv6vm) {folder}/{path.name} {libraries} -o /tmp/it && /tmp/it {words}")
            if (ran.returncode, ran.stdout, ran.stderr) != (int(status[1]) if status else 0, text, ""):
                wrong(f"{path.name}, {way}: status {ran.returncode}, {ran.stdout[-300:]}{ran.stderr[-500:]}")
    ran = root.run(f"gcc -static -O2 {folder}/translate.c $(pkg-config --static --cflags --libs xv6vm) -o /tmp/it && /tmp/it > /dev/null")
    if ran.returncode:
        wrong(f"gcc -static: {ran.stderr[-300:]}")


def python_module(root, prefix, wrong, told):
    """The Python module is installed by pip, and its example prints what it shows."""
    wheels = sorted((root.folder / prefix.lstrip("/") / SHARE / "python").glob("*.whl"))
    if not wheels or not root.has("python3"):
        return told("left out: no wheel in the release, or no python3")
    name = wheels[0].name.partition("-")[0]
    ran = root.run(f"python3 -m pip install --quiet --no-index --target /tmp/python '{prefix}/{SHARE}/python/{wheels[0].name}' 2>&1 && PYTHONPATH=/tmp/python python3 -c 'import doctest, {name}; print(doctest.testmod({name}))'")
    told((ran.stdout.strip().splitlines() or [""])[-1])
    if ran.returncode or not re.search(r"failed=0, attempted=[1-9]", ran.stdout):
        wrong(f"status {ran.returncode} {ran.stdout[-500:]}{ran.stderr[-500:]}")
    return None


def rust_crates(root, prefix, wrong, told):
    """The Rust crates are built and tested against the installed library."""
    folder = f"{prefix}/{SHARE}/rust"
    if not (root.folder / folder.lstrip("/") / "Cargo.toml").is_file() or not root.has("cargo"):
        return told("left out: no crates in the release, or no cargo")
    ran = root.run(f"rm -rf /tmp/rust && cp -r {folder} /tmp/rust && cd /tmp/rust && cargo test --offline --quiet", timeout=600)
    if ran.returncode:
        wrong(f"status {ran.returncode} {ran.stdout[-500:]}{ran.stderr[-1000:]}")
    return None


def man_pages(root, prefix, wrong, told):
    """man shows both pages, without a warning."""
    if not root.has("man"):
        return told("left out: no man")
    for name in ("xv6vm", "xv6lab"):
        ran = root.run(f"MANWIDTH=100 man --warnings {name}")
        if ran.returncode or ran.stderr or f"{name.upper()}(1)" not in ran.stdout:
            wrong(f"man {name}: status {ran.returncode} {ran.stderr[:500]}")
        told(f"{name}(1) has {len(ran.stdout.splitlines())} lines")
    return None


# What bash completes: the words before the cursor, and a completion that must be among those offered.
COMPLETED = [("xv6lab tr", "trace"), ("xv6lab trace --js", "--json"), ("xv6lab usertest --kind m", "mmap"), ("xv6vm th", "threads"), ("xv6lab check /et", "/etc")]


def completions(root, prefix, wrong, told):
    """bash completes words, options, values and files."""
    if not (root.folder / "usr/share/bash-completion/bash_completion").is_file():
        return told("left out: no bash-completion")
    for line, wanted in COMPLETED:
        name = line.split()[0]
        script = f"""source /usr/share/bash-completion/bash_completion; _completion_loader {name}
COMP_LINE='{line}' COMP_POINT={len(line)} COMP_WORDS=({line}) COMP_CWORD={len(line.split()) - 1}; _{name}; printf '%s\\n' "${{COMPREPLY[@]}}" """
        ran = root.run(script)
        if wanted not in ran.stdout.split():
            wrong(f"`{line}` is completed {ran.stdout.split()} {ran.stderr[:300]}")
    return None


def needs(root, prefix, wrong, told):
    """What is needed of the C library is what the manifest says."""
    folder = root.folder / prefix.lstrip("/")
    libraries = [it for it in folder.glob("lib/**/libxv6vm.so.*.*") if not it.is_symlink()]
    least = (0,)
    for path in [folder / "bin" / "xv6vm", folder / "bin" / "xv6lab", *libraries]:
        listed = subprocess.run(["objdump", "-p", path], capture_output=True, text=True).stdout
        shared = re.findall(r"NEEDED\s+(\S+)", listed)
        versions = sorted({tuple(map(int, it.split("."))) for it in re.findall(r"GLIBC_([\d.]+)", listed)})
        least = max([least, *versions])
        told(f"{path.name}: {', '.join(shared) or 'static'}{', GLIBC_' + '.'.join(map(str, versions[-1])) if versions else ''}")
    said = re.search(r"needs glibc ([\d.]+)", root.text(prefix, "MANIFEST"))
    if not said or tuple(map(int, said[1].split("."))) < least:
        wrong(f"the manifest says {said and said[0]}, and glibc {'.'.join(map(str, least))} is needed")


STEPS = [is_clean, versions, checksums, first_screen, examples, labs, mmu, c_programs, python_module, rust_crates, man_pages, completions, needs]
