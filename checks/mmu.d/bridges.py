"""Logs of QEMU and Spike, turned into lines by examples/python. A small kernel, boot.c, runs in QEMU; Spike's log is written by hand."""
import pathlib
import re
import shutil
import subprocess
import sys
import tempfile

from answers import run

HERE = pathlib.Path(__file__).resolve().parent
EXAMPLES = HERE.parent.parent / "examples" / "python"
QEMU, COMPILER = "qemu-system-riscv64", "riscv64-unknown-elf-gcc"
FLAGS = "-march=rv64imac_zicsr_zifencei -mabi=lp64 -mcmodel=medany -O2 -Wall -Wextra -Werror".split()
FLAGS += "-ffreestanding -fno-builtin -nostdlib -Wl,-Ttext=0x80000000,--build-id=none,-e,_start".split()
MACHINE = "-machine virt -m 64M -bios none -nodefaults -display none".split()
LOGGING = "-d in_asm,exec,cpu,mmu,int,nochain".split()


def one_at_a_time():
    """The options that have QEMU stop at each instruction."""
    version = subprocess.run([QEMU, "--version"], capture_output=True, text=True).stdout
    return ["-singlestep"] if int(re.search(r"version (\d+)", version)[1]) < 8 else ["-accel", "tcg,one-insn-per-tb=on"]


def kernel_log(folder, words):
    """Builds the kernel and runs it. Returns its log."""
    kernel, log = folder / "boot.elf", folder / "log"
    subprocess.run([COMPILER, *FLAGS, *words, "-o", kernel, HERE / "boot.c"], check=True)
    subprocess.run([QEMU, *MACHINE, *one_at_a_time(), *LOGGING, "-D", log, "-kernel", kernel], check=True, timeout=60)
    return log


def converted(name, log):
    ran = subprocess.run([sys.executable, "-B", EXAMPLES / name, log], check=True, capture_output=True, text=True)
    return ran.stdout.splitlines()


def judged(program, what, lines):
    """The accesses that are NOT permitted, with their answers, and how many are permitted by an older PTE."""
    answered = [line for line in lines if not line.startswith("#")]
    got, _, err = run(program, ["-"], answered)
    accused = [(line, answer) for line, answer in zip(answered, got) if answer.startswith(("NOT permitted", "error"))]
    older = sum("as before line" in answer for answer in got if answer.startswith("permitted"))
    accesses = sum("=>" in line for line in answered)
    print(f"{what}: {accesses} accesses, {older} of them by an older PTE, {len(accused)} NOT permitted", flush=True)
    if len(got) != len(answered) or err:
        accused.append((what, f"{len(got)} answers to {len(answered)} lines {err}"))
    return accused, accesses, older


def fenced(lines):
    """The lines of the kernel that does not fence, as if it did: after each store to a leaf of its pages."""
    found = []
    for line in lines:
        found.append(line)
        place = re.match(r"mem 0x80102([0-9a-f]{3}) ", line)
        if place:
            found.append(f"sfence {int(place[1], 16) // 8 << 12:#x} -")
    return found


def check_bridges(program):
    found = []
    accused, accesses, _ = judged(program, "the log of Spike", converted("from_spike_log.py", HERE / "spike.log"))
    if accused or not accesses:
        found.append(f"the log of Spike: {accused[:1]}, {accesses} accesses")
    if not shutil.which(QEMU) or not shutil.which(COMPILER):
        print(f"no {QEMU}, or no {COMPILER}: no log of QEMU is tried")
        return found
    with tempfile.TemporaryDirectory(prefix="bridge-") as folder:
        lines = converted("from_qemu_trace.py", kernel_log(pathlib.Path(folder), []))
        lazy = converted("from_qemu_trace.py", kernel_log(pathlib.Path(folder), ["-DLAZY"]))
    accused, accesses, _ = judged(program, "a kernel in QEMU", lines)
    if accused or accesses < 1000:
        found.append(f"a kernel in QEMU: {accused[:1]}, {accesses} accesses")
    accused, _, older = judged(program, "one that does not fence", lazy)
    if accused or not older:
        found.append(f"a kernel in QEMU that does not fence: {accused[:1]}, {older} accesses by an older PTE")
    accused, _, _ = judged(program, "the same with fences that QEMU did not make", fenced(lazy))
    if not accused or "the fence of line" not in accused[0][1]:
        found.append(f"fences that QEMU did not make are not missed: {accused[:1]}")
    else:
        print(f"    {accused[0][0]}\n    {accused[0][1]}")
    return found
