"""The C library with a counter before each call: how often it was called is added to the file that XV6VM_COUNTS names, when the program ends."""
import collections
import pathlib
import re
import subprocess

SOURCE = """
#include <stdio.h>
#include <stdlib.h>
extern unsigned long xv6vm_counts[];
static const char *names[] = {%(names)s};
__attribute__((destructor)) static void tell(void) {
    const char *path = getenv("XV6VM_COUNTS");
    FILE *file = path ? fopen(path, "a") : NULL;
    for (unsigned i = 0; file && i < sizeof names / sizeof *names; i++)
        fprintf(file, "%%s %%lu\\n", names[i], xv6vm_counts[i]);
    if (file)
        fclose(file);
}
/* a jump, so that the arguments and the result are as they were */
__asm__(".text\\n" %(jumps)s
        ".local xv6vm_counts\\n.comm xv6vm_counts,%(size)d,8\\n"
        ".section .note.GNU-stack,\\"\\",@progbits\\n.text\\n");
"""
JUMP = '".globl {0}\\n.type {0},@function\\n{0}: lock incq xv6vm_counts+{1}(%rip)\\njmp counted_{0}@PLT\\n.size {0},.-{0}\\n"'


def run(*words):
    ran = subprocess.run([str(it) for it in words], capture_output=True, text=True)
    if ran.returncode:
        raise SystemExit(f"{' '.join(map(str, words))}: {ran.stderr[:2000]}")


def before_c_alone(text):
    """The header without what is in C alone, inline functions and macros, which no library has."""
    return text.partition("/* ---- In C alone")[0]


def declared(header):
    text = re.sub(r"/\*.*?\*/", "", before_c_alone(header.read_text()), flags=re.DOTALL)
    return sorted(set(re.findall(r"\b(xv6vm_\w+)\(", text)))


def counted(calls, archives, folder):
    """Makes libxv6vm.a and libxv6vm.so in a folder, of the archives with the calls, and of the kit's, if it is there."""
    whole = folder / "whole.o"
    run("ld", "-r", "-o", whole, "--whole-archive", *archives[:2], "--no-whole-archive", *archives[2:])
    run("objcopy", *(f"--keep-global-symbol={it}" for it in calls), whole)
    run("objcopy", *(f"--redefine-sym={it}=counted_{it}" for it in calls), whole)
    source = folder / "counters.c"
    jumps = "\n".join(JUMP.format(name, 8 * at) for at, name in enumerate(calls))
    source.write_text(SOURCE % {"names": ", ".join(f'"{it}"' for it in calls), "jumps": jumps, "size": 8 * len(calls)})
    run("gcc", "-O2", "-fPIC", "-c", source, "-o", folder / "counters.o")
    # one object: the destructor must be linked too
    run("ld", "-r", "-o", folder / "all.o", folder / "counters.o", whole)
    run("ar", "rcs", folder / "libxv6vm.a", folder / "all.o")
    run("gcc", "-shared", "-o", folder / "libxv6vm.so", folder / "all.o")
    for it in ("whole.o", "counters.o", "all.o", "counters.c"):
        (folder / it).unlink()


def read_counts(path):
    """How often each call was made, by all programs together."""
    counts = collections.Counter()
    for line in pathlib.Path(path).read_text().splitlines():
        name, number = line.split()
        counts[name] += int(number)
    return counts
