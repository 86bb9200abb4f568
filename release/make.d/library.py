"""The C library as a release has it: one archive, libxv6vm.a, with an object of walks and one of scripts, and the shared library."""
import os
import re
import subprocess
import sys

PARTS = {"walks": ["libxv6vm_c.a"], "scripts": ["libxv6vm_play_c.a", "liblibc_c.a"]}


def run(*words):
    ran = subprocess.run([str(it) for it in words], capture_output=True, text=True)
    if ran.returncode:
        sys.exit(f"{' '.join(map(str, words))}: status {ran.returncode}\n{ran.stdout}{ran.stderr}")
    return ran.stdout


def symbols(path, *flags):
    """The names that nm lists."""
    return {line.split()[0].partition("@")[0] for line in run("nm", "--format=posix", *flags, path).splitlines() if len(line.split()) > 1}


def declared(header):
    """The calls that the header declares, but for the inline functions and macros at its end, which are in C alone."""
    text = re.sub(r"/\*.*?\*/", "", header.partition("/* ---- In C alone")[0], flags=re.DOTALL)
    return set(re.findall(r"\b(xv6vm_\w+)\(", text))


def joined(folder, part, archives, calls):
    """One object of archives, in which the header's calls alone are global: names of the kit meet no name of a program."""
    whole, to = folder / f"{part}.whole.o", folder / f"{part}.o"
    run("ld", "-r", "-o", whole, "--whole-archive", archives[0], "--no-whole-archive", *archives[1:])
    words = [f"--keep-global-symbol={it}" for it in sorted(calls)]
    # Without this mark a linker makes the stack of the whole program executable.
    if ".note.GNU-stack" not in run("objdump", "-h", whole):
        words.append("--add-section=.note.GNU-stack=/dev/null")
    run("objcopy", *words, "--remove-section=.comment", whole, to)
    return to


def libraries(script, archives, header, version, folder):
    """Makes libxv6vm.a, libxv6vm.so.VERSION and its links in a folder. `archives` are the paths by their names, and `script` is
    release/shared_library."""
    calls, major = declared(header), version.partition(".")[0]
    parts = [joined(folder, part, [archives[it] for it in names], calls) for part, names in PARTS.items()]
    archive, shared = folder / "libxv6vm.a", folder / f"libxv6vm.so.{version}"
    run("ar", "rcsD", archive, *parts)
    if symbols(archive, "--extern-only", "--defined-only") != calls:
        sys.exit(f"{archive} exports {sorted(symbols(archive, '--extern-only', '--defined-only') ^ calls)}, or lacks them")
    run(script, shared, *{it.parent for it in archives.values()})
    (folder / f"libxv6vm.so.{major}").unlink(missing_ok=True)
    for name in (f"libxv6vm.so.{major}", "libxv6vm.so"):
        os.symlink(shared.name, folder / name)
    if symbols(shared, "--dynamic", "--defined-only") != calls:
        sys.exit(f"{shared} exports other names than the header's")
    return archive, shared
