"""A root made of the files of packages that this Debian has, where no mirror is."""
import os
import pathlib
import re
import shutil
import subprocess

BASE = """base-files base-passwd bash coreutils dash diffutils dpkg findutils grep gzip hostname init-system-helpers libc-bin login mawk
    ncurses-base ncurses-bin perl-base sed sysvinit-utils tar util-linux apt debianutils""".split()
TOOLS = "gcc libc6-dev pkgconf pkg-config man-db bash-completion python3 python3-pip binutils".split()
MERGED = ("bin", "sbin", "lib", "lib64")


def asked(*words):
    return subprocess.run(words, capture_output=True, text=True).stdout


def needed(names):
    """Packages that are installed here, and all on which they depend."""
    known = {}
    for line in asked("dpkg-query", "-W", "-f", "${Package}\\t${db:Status-Status}\\t${Provides}\\t${Pre-Depends}, ${Depends}\\n").splitlines():
        name, status, provides, depends = line.split("\t")
        if status == "installed":
            for it in [name, *re.findall(r"[\w.+-]+(?= \(|,|$)", provides)]:
                known.setdefault(it, (name, re.findall(r"(?:^|[,|]) *([\w.+-]+)", depends)))
    found, todo = set(), [it for it in names if it in known]
    while todo:
        name, depends = known[todo.pop()]
        if name not in found:
            found.add(name)
            todo += [it for it in depends if it in known]
    return sorted(found)


def copy(path, folder):
    """Copies a file or a link of this machine to its place in the root."""
    to = folder / path.lstrip("/")
    if os.path.isdir(path) and not os.path.islink(path):
        to.mkdir(parents=True, exist_ok=True)
    elif os.path.lexists(path) and not os.path.lexists(to):
        to.parent.mkdir(parents=True, exist_ok=True)
        shutil.copy2(path, to, follow_symlinks=False)


def copied(folder):
    """Makes a root of the files of packages. Returns how many packages it has."""
    for name in MERGED:
        (folder / "usr" / name).mkdir(parents=True, exist_ok=True)
        os.symlink(f"usr/{name}", folder / name)
    for name in ("dev", "proc", "root", "tmp", "usr/local", "etc/alternatives", "var/lib/dpkg/info", "var/lib/dpkg/updates"):
        (folder / name).mkdir(parents=True, exist_ok=True)
    names = needed(BASE + TOOLS)
    for name in names:
        for path in asked("dpkg", "-L", name).splitlines():
            if path.startswith("/") and path != "/." and path.lstrip("/") not in MERGED:
                copy(path, folder)
    for path in pathlib.Path("/etc/alternatives").iterdir():
        copy(str(path), folder)
        copy(f"/usr/bin/{path.name}", folder)
    for path in ("/etc/passwd", "/etc/group"):
        copy(path, folder)
    (folder / "var/lib/dpkg/status").write_text(asked("dpkg-query", "-s", *names))
    subprocess.run(["mknod", "-m", "666", folder / "dev" / "null", "c", "1", "3"], check=True)
    subprocess.run(["ldconfig", "-r", folder], check=True)
    return len(names)
