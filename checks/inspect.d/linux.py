"""A Linux for riscv64 that Debian ships, with OpenSBI, in QEMU: how it is fetched and booted, and where its processes are."""
import pathlib
import re
import subprocess
import time

from qemu import Machine

KEY = "/usr/share/keyrings/debian-archive-keyring.gpg"
SUITE, META = "trixie", "linux-image-riscv64"
COMPILER = "riscv64-unknown-elf-gcc"
INIT = pathlib.Path(__file__).resolve().parent / "linux_init.c"
SPACES, MEGABYTES, SECONDS = 10, 256, 600
# What linux_init.c makes that is suspicious: process 4's two pages that may be written and executed; the four pages that 1 and 2 share.
SUSPICIOUS = {"writable and executable": 1, "shared and writable": 2}
# What the kernel is told for each scheme: by default it takes the widest that the hart has.
SCHEMES = {"sv57": "", "sv48": "no5lvl", "sv39": "no4lvl"}


class NotFound(Exception):
    """There is no such Linux to be had, and why."""


def mirror():
    """The mirror of Debian that this machine uses."""
    files = [pathlib.Path("/etc/apt/sources.list"), *sorted(pathlib.Path("/etc/apt/sources.list.d").glob("*"))]
    text = "\n".join(file.read_text(encoding="utf-8") for file in files if file.is_file())
    found = re.search(r"https?://\S+/debian/?(?=\s|$)", text)
    return found[0] if found else "http://deb.debian.org/debian"


def run(command, folder):
    try:
        ran = subprocess.run([str(it) for it in command], cwd=folder, capture_output=True, text=True, timeout=SECONDS)
    except (OSError, subprocess.TimeoutExpired) as error:
        raise NotFound(str(error)) from error
    if ran.returncode:
        said = re.search(r"^[EW]: .*$", ran.stderr, re.MULTILINE)
        raise NotFound(f"{command[0]} ends with status {ran.returncode}" + (f": {said[0]}" if said else ""))
    return ran.stdout


def fetched(folder):
    """Downloads the package of the kernel into a folder, without a change to the machine's packages, and returns the kernel's path and its package."""
    if not pathlib.Path(KEY).is_file():
        raise NotFound(f"there is no {KEY}")
    for path in ("lists/partial", "cache/archives/partial"):
        (folder / path).mkdir(parents=True, exist_ok=True)
    (folder / "status").touch()
    (folder / "sources.list").write_text(f"deb [arch=riscv64 signed-by={KEY}] {mirror()} {SUITE} main\n", encoding="utf-8")
    settings = [f"Dir::Etc::SourceList={folder}/sources.list", "Dir::Etc::SourceParts=-", f"Dir::State::Lists={folder}/lists"]
    settings += [f"Dir::State::status={folder}/status", f"Dir::Cache={folder}/cache", "APT::Sandbox::User=root"]
    settings += ["APT::Architecture=riscv64", "APT::Architectures::=riscv64", "APT::Update::Error-Mode=any"]
    options = [word for setting in settings for word in ("-o", setting)]
    run(["apt-get", "-q", *options, "update"], folder)
    depends = re.search(r"Depends: (linux-image-\S+)", run(["apt-cache", *options, "depends", META], folder))
    if not depends:
        raise NotFound(f"{META} depends on no kernel")
    run(["apt-get", "-q", *options, "download", depends[1]], folder)
    package = sorted(folder.glob("linux-image-*.deb"))[-1]
    run(["dpkg-deb", "-x", package, folder / "root"], folder)
    return sorted((folder / "root" / "boot").glob("vmlinu*"))[-1], package.name


def archive_entry(name, mode, data=b"", device=(0, 0)):
    """A file of an initial file system (cpio, newc)."""
    fields = [0, mode, 0, 0, 1, 0, len(data), 0, 0, *device, len(name) + 1, 0]
    entry = b"070701" + b"".join(b"%08X" % it for it in fields) + name.encode() + b"\0"
    entry += bytes(-len(entry) % 4) + data
    return entry + bytes(-len(entry) % 4)


def initial_files(folder):
    """Compiles the only program, and writes the file system from which Linux starts it."""
    program, path = folder / "init", folder / "initrd"
    words = [COMPILER, "-march=rv64imac", "-mabi=lp64", "-ffreestanding", "-fno-builtin", "-nostdlib", "-static", "-O1", "-Wall", "-Werror"]
    subprocess.run([str(it) for it in [*words, "-Wl,-z,max-page-size=4096", "-o", program, INIT]], check=True)
    files = [archive_entry("dev", 0o40755), archive_entry("dev/console", 0o20600, device=(5, 1))]
    files += [archive_entry("init", 0o100755, program.read_bytes()), archive_entry("TRAILER!!!", 0)]
    path.write_bytes(b"".join(files))
    return path


def booted(folder, kernel, scheme):
    """A machine with that Linux, under a scheme."""
    append = f"console=ttyS0 nokaslr {SCHEMES[scheme]}".strip()
    return Machine(folder, ["-kernel", kernel, "-initrd", initial_files(folder), "-append", append], MEGABYTES)


def satps(machine):
    """The values of satp of the processes, when all are ready; the machine is stopped then."""
    machine.wait(lambda: machine.shown().count("inspect: ready") == SPACES, f"{SPACES} processes")
    found, end = {}, time.monotonic() + SECONDS
    while len(found) < SPACES and time.monotonic() < end:
        machine.monitor.ask("stop")
        satp = machine.monitor.satp()
        found[satp & (1 << 44) - 1] = satp
        if len(found) == SPACES:
            break
        machine.monitor.ask("cont")
        time.sleep(0.02)
    return list(found.values())
