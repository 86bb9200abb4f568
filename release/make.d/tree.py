"""Files of a release, and how they become a tarball or a Debian package: the same files make the same bytes."""
import hashlib
import io
import os
import pathlib
import shutil
import stat
import struct
import subprocess
import tarfile
import zlib

PROGRAM, FILE, LINK = 0o755, 0o644, 0o777


class Tree:
    """Files by their paths from the prefix on: each is its bytes with its mode, or the target of a link."""

    def __init__(self):
        self.files = {}

    def add(self, path, contents, mode=FILE):
        """Adds a file; a path that is there twice is a mistake of the caller."""
        path = str(path)
        if path in self.files:
            raise ValueError(f"{path} is in the release twice")
        self.files[path] = (contents.encode() if isinstance(contents, str) else contents, mode)

    def link(self, path, target):
        self.add(path, target, LINK)

    def copy(self, path, source):
        """Adds a file of the disk, as a program if it is one, or as a link."""
        if source.is_symlink():
            return self.link(path, os.readlink(source))
        is_program = source.stat().st_mode & stat.S_IXUSR
        return self.add(path, source.read_bytes(), PROGRAM if is_program else FILE)

    def paths(self):
        return sorted(self.files)

    def folders(self):
        """All folders above the files."""
        found = {str(it) for path in self.files for it in pathlib.PurePosixPath(path).parents}
        return sorted(found - {"."})

    def sums(self):
        """The lines that `sha256sum -c` takes, of all files but links."""
        lines = [f"{hashlib.sha256(self.files[it][0]).hexdigest()}  {it}\n" for it in self.paths() if self.files[it][1] != LINK]
        return "".join(lines)

    def moved(self, rename):
        """The same files under other paths; those for which `rename` returns None are left out."""
        tree = Tree()
        for path, (contents, mode) in self.files.items():
            to = rename(path)
            if to is not None:
                tree.add(to, contents, mode)
        return tree


def entry(name, kind, mode, time):
    it = tarfile.TarInfo(name)
    it.type, it.mode, it.mtime = kind, mode, time
    it.uid = it.gid = 0
    return it


def zipped(contents):
    """What `gzip -n -9` makes of bytes: no name and no time in the header."""
    packer = zlib.compressobj(9, zlib.DEFLATED, -zlib.MAX_WBITS)
    header = b"\x1f\x8b\x08\0\0\0\0\0\x02\x03"
    return header + packer.compress(contents) + packer.flush() + struct.pack("<II", zlib.crc32(contents), len(contents) & 0xFFFFFFFF)


def tarball(tree, top, time):
    """The bytes of a tar.gz with one folder: names sorted, owner 0, one time."""
    out = io.BytesIO()
    with tarfile.open(fileobj=out, mode="w", format=tarfile.USTAR_FORMAT) as tar:
        for folder in ["", *tree.folders()]:
            tar.addfile(entry(f"{top}/{folder}".rstrip("/"), tarfile.DIRTYPE, PROGRAM, time))
        for path in tree.paths():
            contents, mode = tree.files[path]
            it = entry(f"{top}/{path}", tarfile.SYMTYPE if mode == LINK else tarfile.REGTYPE, mode, time)
            if mode == LINK:
                it.linkname = contents.decode()
                tar.addfile(it)
            else:
                it.size = len(contents)
                tar.addfile(it, io.BytesIO(contents))
    return zipped(out.getvalue())


def written(tree, folder, time):
    """Writes the files below a folder, with one time for all."""
    for path in tree.paths():
        contents, mode = tree.files[path]
        to = folder / path
        to.parent.mkdir(parents=True, exist_ok=True)
        if mode == LINK:
            os.symlink(contents.decode(), to)
        else:
            to.write_bytes(contents)
            to.chmod(mode)
        os.utime(to, (time, time), follow_symlinks=False)
    for it in sorted(folder.rglob("*"), reverse=True):
        if it.is_dir() and not it.is_symlink():
            it.chmod(PROGRAM)
            os.utime(it, (time, time))
    folder.chmod(PROGRAM)
    os.utime(folder, (time, time))


def debian_package(tree, control, folder, time):
    """The bytes of a Debian package of these files, whose control files are `control`."""
    root = folder / "root"
    shutil.rmtree(root, ignore_errors=True)
    whole = tree.moved(lambda path: path)
    sums = "".join(f"{hashlib.md5(tree.files[it][0]).hexdigest()}  {it}\n" for it in tree.paths() if tree.files[it][1] != LINK)
    for name, text in {**control, "md5sums": sums}.items():
        whole.add(f"DEBIAN/{name}", text)
    written(whole, root, time)
    package = folder / "package.deb"
    words = ["dpkg-deb", "--root-owner-group", "-Zgzip", "-z9", "--build", root, package]
    subprocess.run(words, check=True, env={**os.environ, "SOURCE_DATE_EPOCH": str(time), "LC_ALL": "C"}, stdout=subprocess.DEVNULL)
    return package.read_bytes()
