"""Gets the QEMU of Debian's backports, without a change to the machine's packages."""
import pathlib
import re
import subprocess

KEY = "/usr/share/keyrings/debian-archive-keyring.gpg"
PACKAGE, BINARY = "qemu-system-riscv", "root/usr/bin/qemu-system-riscv64"
SECONDS = 300


class NotFound(Exception):
    """There is no newer QEMU to be had, and why."""


def codename():
    """The name of this release of Debian, such as bookworm."""
    release = pathlib.Path("/etc/os-release")
    text = release.read_text(encoding="utf-8") if release.is_file() else ""
    found = re.search(r"^VERSION_CODENAME=(\w+)$", text, re.MULTILINE)
    if not re.search(r"^ID=debian$", text, re.MULTILINE) or not found:
        raise NotFound("this is no Debian")
    return found[1]


def mirror():
    """The mirror of Debian that this machine uses."""
    files = [pathlib.Path("/etc/apt/sources.list"), *sorted(pathlib.Path("/etc/apt/sources.list.d").glob("*"))]
    text = "\n".join(file.read_text(encoding="utf-8") for file in files if file.is_file())
    found = re.search(r"https?://\S+/debian/?(?=\s|$)", text)
    if not found:
        raise NotFound("no list of apt names a mirror of Debian")
    return found[0]


def run(command, folder):
    try:
        ran = subprocess.run(command, cwd=folder, capture_output=True, text=True, timeout=SECONDS)
    except (OSError, subprocess.TimeoutExpired) as error:
        raise NotFound(str(error)) from error
    if ran.returncode:
        said = re.search(r"^[EW]: .*$", ran.stderr, re.MULTILINE)
        raise NotFound(f"{command[0]} ends with status {ran.returncode}" + (f": {said[0]}" if said else ""))


def newer_qemu(folder):
    """Downloads the package into a folder, unpacks it there, and returns the path of its QEMU. It runs with the libraries of the
    installed package."""
    name = codename()
    if not pathlib.Path(KEY).is_file():
        raise NotFound(f"there is no {KEY}")
    for path in ("lists/partial", "cache/archives/partial"):
        (folder / path).mkdir(parents=True, exist_ok=True)
    (folder / "sources.list").write_text(f"deb [signed-by={KEY}] {mirror()} {name}-backports main\n", encoding="utf-8")
    settings = [f"Dir::Etc::SourceList={folder}/sources.list", "Dir::Etc::SourceParts=-", f"Dir::State::Lists={folder}/lists"]
    settings += [f"Dir::Cache={folder}/cache", "APT::Sandbox::User=root", "APT::Update::Error-Mode=any"]
    options = [word for setting in settings for word in ("-o", setting)]
    run(["apt-get", "-q", *options, "update"], folder)
    run(["apt-get", "-q", *options, "download", PACKAGE], folder)
    packages = sorted(folder.glob(f"{PACKAGE}_*.deb"))
    run(["dpkg", "-x", packages[-1], folder / "root"], folder)
    run([folder / BINARY, "--version"], folder)
    return str(folder / BINARY)
