"""What readelf and objcopy say of a file, and which check refuses it (checks/programs)."""
import collections
import dataclasses
import pathlib
import re
import subprocess
import sys

PAGE = 4096
LONGEST_FILE = 1 << 20
FILE_HEADER, PROGRAM_HEADER = 64, 56
MOST_SEGMENTS = 16
# The compilers' prefixes.
BARE, LINUX, INTEL = "riscv64-unknown-elf-", "riscv64-linux-gnu-", "x86_64-linux-gnu-"

counts = collections.Counter()


def up(address):
    return -(-address // PAGE) * PAGE


def said_by(words):
    return subprocess.run(words, capture_output=True, text=True, timeout=60).stdout


@dataclasses.dataclass(frozen=True)
class Scheme:
    """The last fields of `boot`, the levels of page tables, the first address past all, and the frames that the kernel takes
    beside one for each slot."""

    fields: str
    levels: int
    top: int
    kernel: int

    @property
    def trapframe(self):
        return self.top - 2 * PAGE


SCHEMES = [Scheme("full sv39", 3, 1 << 38, 6), Scheme("asid sv48", 4, 1 << 47, 8)]


@dataclasses.dataclass(frozen=True)
class Header:
    """A program header, as `readelf -lW` prints it."""

    type: str
    offset: int
    address: int
    physical: int
    file_size: int
    memory_size: int
    flags: str

    @property
    def end(self):
        return self.address + self.memory_size


@dataclasses.dataclass(frozen=True)
class Elf:
    """A file: the fields of its header by their names (none if readelf finds no ELF file), and its program headers."""

    path: pathlib.Path
    fields: dict
    headers: list


def elf_of(path):
    text = said_by([BARE + "readelf", "-hlW", path])
    row = r"^  (\S+) +0x(\w+) 0x(\w+) 0x(\w+) 0x(\w+) 0x(\w+) (.{3}) 0x\w+$"
    found = re.findall(row, text, flags=re.MULTILINE)
    headers = [Header(it[0], *(int(number, 16) for number in it[1:6]), it[6]) for it in found]
    fields = dict(re.findall(r"^  ([A-Z][^:\n]*): +(.*)$", text, flags=re.MULTILINE))
    if fields and int(fields["Number of program headers"]) != len(headers):
        sys.exit(f"{path}: readelf prints program headers in a form that this check does not know:\n{text}")
    return Elf(path, fields, headers)


def loads_of(elf):
    return [it for it in elf.headers if it.type == "LOAD" and it.memory_size]


def sections_of(elf):
    """The sections in memory whose bytes the file has: address, physical address (by which objcopy orders them) and size."""
    row = r"^  \[ *\d+\] \S+ +(\S+) +([0-9a-f]{16}) [0-9a-f]+ ([0-9a-f]+) [0-9a-f]+ +([A-Za-z]*) +\d+ +\d+ +\d+$"
    text = said_by([BARE + "readelf", "-SW", elf.path])
    for kind, address, size, flags in re.findall(row, text, flags=re.MULTILINE):
        if "A" in flags and kind != "NOBITS" and int(size, 16):
            place = int(address, 16)
            load = next(it for it in loads_of(elf) if it.address <= place < it.end)
            yield place, place - load.address + load.physical, int(size, 16)


def bytes_of(elf, prefix, folder):
    """The bytes that a file has, by address. Those of sections are what objcopy writes; the others of a segment, such as the
    file's own headers in a default link, lie in the file where readelf says."""
    file, found = elf.path.read_bytes(), {}
    for load in loads_of(elf):
        found.update(zip(range(load.address, load.address + load.file_size), file[load.offset :]))
    flat = folder / "flat"
    subprocess.run([prefix + "objcopy", "-O", "binary", elf.path, flat], check=True)
    written, sections = flat.read_bytes(), list(sections_of(elf))
    first = min(physical for _, physical, _ in sections)
    for address, physical, size in sections:
        counts["bytes of sections by objcopy"] += size
        found.update(zip(range(address, address + size), written[physical - first :]))
    return found


def number_of(text):
    return int(text.replace(",", " ").split()[0], 0)


def table_of(elf):
    """Offset and number of the program headers, read where a 64-bit file has them. There a 32-bit file has the start of its
    section headers and its flags, and, in its first program header, an offset."""
    if elf.fields["Class"] == "ELF64":
        return number_of(elf.fields["Start of program headers"]), len(elf.headers)
    flags = number_of(elf.fields["Flags"])
    return number_of(elf.fields["Start of section headers"]) | flags << 32, elf.headers[0].offset & 0xFFFF


def fault_of(load, before, length, scheme):
    """The first check that a segment fails after those before it, with what is told of it; None if it passes all."""
    address, end, pages = load.address, load.end, load.memory_size > 0
    in_file, in_memory, bytes_end = load.file_size, load.memory_size, load.offset + load.file_size
    least, most = up(before[-1].end) if before else 0, scheme.trapframe - 2 * PAGE
    checks = [
        ("Sizes", in_memory < in_file, f"p_filesz is {in_file:#x}, above p_memsz, which is {in_memory:#x}"),
        ("Wraps", end >= 1 << 64, f"p_vaddr {address:#x} + p_memsz {in_memory:#x} is 2^64 or more"),
        ("Align", address % PAGE != 0, f"p_vaddr is {address:#x}, not a multiple of {PAGE}"),
        (
            "Contents",
            pages and bytes_end > length,
            f"p_offset {load.offset:#x} + p_filesz {in_file:#x} is past the end of the file, which has {length:#x} bytes",
        ),
        (
            "TooHigh",
            pages and up(end) > most,
            f"p_vaddr + p_memsz is {end:#x}, above {most:#x}: guard and stack must fit below the trapframe",
        ),
        (
            "Order",
            pages and address < least,
            f"p_vaddr is {address:#x}, below {least:#x}, the end of the pages of the one before it",
        ),
        (
            "TooMany",
            pages and len(before) == MOST_SEGMENTS,
            f"an image has at most {MOST_SEGMENTS} with pages, and this is one more",
        ),
    ]
    return next(((part, text) for part, fails, text in checks if fails), None)


def refusal_of(elf, file, scheme):
    """The check that refuses a file, with what is told of it; None if it passes all. `file` has its bytes: perhaps fewer or more
    than the file of which readelf speaks."""
    length = len(file)
    if length > LONGEST_FILE:
        return "TooLong", f"the file has {length} bytes, and may have at most {LONGEST_FILE}"
    if length < FILE_HEADER:
        return "Header", f"the file has {length} bytes, fewer than its header, {FILE_HEADER}"
    if not elf.fields:
        return "Magic", f"e_ident begins with {file[:4].hex(' ')}, not with 7f 45 4c 46"
    table, count = table_of(elf)
    before = []
    for number in range(count):
        if table + PROGRAM_HEADER * (number + 1) > length:
            why = f"its {PROGRAM_HEADER} bytes are not all inside the file, which has {length} bytes; e_phoff is {table:#x}"
            return "ProgramHeader", f"program header {number}: {why}"
        load = elf.headers[number]
        if load.type != "LOAD":
            continue
        fault = fault_of(load, before, length, scheme)
        if fault:
            return fault[0], f"program header {number}: {fault[1]}"
        before += [load] if load.memory_size else []
    return None if before else ("NoLoad", "no program header of type 1 (PT_LOAD) has a p_memsz above 0")
