"""QEMU: its monitor, its gdb stub, by which satp is set, and what `info mem` says."""
import os
import re
import socket
import subprocess
import time

QEMU = "qemu-system-riscv64"
SECONDS = 600


class MachineError(Exception):
    """QEMU does not do what it should."""


class Monitor:
    """The monitor of a machine."""

    PROMPT = b"(qemu) "

    def __init__(self, path):
        self.socket = socket.socket(socket.AF_UNIX)
        self.socket.settimeout(SECONDS)
        self.socket.connect(str(path))
        self.read()

    def read(self):
        data = b""
        while not data.endswith(self.PROMPT):
            part = self.socket.recv(1 << 20)
            if not part:
                raise MachineError("the monitor of QEMU is gone")
            data += part
        return data[: -len(self.PROMPT)].decode("latin1").replace("\r", "")

    def ask(self, line):
        """What the monitor answers, without the line itself, which it repeats."""
        self.socket.sendall(f"{line}\n".encode())
        return re.sub(r"\x1b\[[0-9;]*[A-Za-z]", "", self.read()).partition("\n")[2]

    def satp(self):
        return int(re.search(r"^ satp +([0-9a-f]+)$", self.ask("info registers"), re.MULTILINE)[1], 16)

    def save(self, at, size, path):
        said = self.ask(f'pmemsave {at:#x} {size:#x} "{path}"')
        if said.strip():
            raise MachineError(f"pmemsave: {said}")

    def mappings(self):
        """The lines of `info mem`: virtual address, physical address, size and flags."""
        row = re.compile(r"^([0-9a-f]{16}) ([0-9a-f]{16}) ([0-9a-f]{16}) ([rwxugad-]{7})$", re.MULTILINE)
        return [(*(int(it, 16) for it in found[:3]), found[3]) for found in row.findall(self.ask("info mem"))]


class Stub:
    """The gdb stub of a machine that is stopped. Only satp is written."""

    def __init__(self, path):
        self.socket = socket.socket(socket.AF_UNIX)
        self.socket.settimeout(SECONDS)
        self.socket.connect(str(path))
        self.data = b""
        self.number = self.register_number("satp")

    def packet(self, body):
        """Sends a packet, and returns the answer's body."""
        self.socket.sendall(b"$%s#%02x" % (body.encode(), sum(body.encode()) % 256))
        while not re.search(rb"\$[^#]*#..", self.data):
            part = self.socket.recv(1 << 16)
            if not part:
                raise MachineError("the gdb stub of QEMU is gone")
            self.data += part
        found = re.search(rb"\$([^#]*)#..", self.data)
        self.data = self.data[found.end():]
        self.socket.sendall(b"+")
        return found[1].decode("latin1")

    def register_number(self, name):
        """The number of a control and status register, by the description that the stub has of itself."""
        self.packet("qSupported:xmlRegisters=riscv")
        text, at = "", 0
        while True:
            part = self.packet(f"qXfer:features:read:riscv-csr.xml:{at:x},ffb")
            text, at = text + part[1:], at + len(part) - 1
            if part[0] != "m":
                break
        found = re.search(rf'<reg [^>]*name="{name}"[^>]*regnum="(\d+)"', text)
        if not found:
            raise MachineError(f"the gdb stub has no register {name}")
        return int(found[1])

    def set_satp(self, word):
        if self.packet(f"P{self.number:x}={word.to_bytes(8, 'little').hex()}") != "OK":
            raise MachineError("the gdb stub does not write satp")


class Machine:
    """A machine of QEMU, which is ended at the end of its block."""

    def __init__(self, folder, words, megabytes, harts=1):
        self.folder, self.megabytes = folder, megabytes
        self.console = folder / "console.txt"
        sockets = [folder / name for name in ("monitor", "stub")]
        for path in (*sockets, self.console):
            path.unlink(missing_ok=True)
        command = [QEMU, "-machine", "virt", "-smp", harts, "-m", f"{megabytes}M", "-display", "none", "-serial", f"file:{self.console}"]
        command += ["-monitor", f"unix:{sockets[0]},server,nowait", "-gdb", f"unix:{sockets[1]},server,nowait", *words]
        self.process = subprocess.Popen([str(it) for it in command], stdin=subprocess.DEVNULL, stdout=subprocess.DEVNULL, stderr=subprocess.PIPE)
        self.sockets = sockets

    def __enter__(self):
        try:
            self.wait(lambda: all(it.exists() for it in self.sockets), "its sockets")
            self.monitor = Monitor(self.sockets[0])
        except BaseException:
            self.__exit__()
            raise
        return self

    def __exit__(self, *_):
        self.process.kill()
        self.process.communicate()

    def shown(self):
        return self.console.read_text(encoding="latin1") if self.console.exists() else ""

    def wait(self, ready, what):
        """Waits until something is so."""
        end = time.monotonic() + SECONDS
        while not ready():
            if self.process.poll() is not None:
                raise MachineError(f"QEMU ended: {self.process.stderr.read()[:500].decode()}")
            if time.monotonic() > end:
                raise MachineError(f"{SECONDS} s without {what}: {self.shown()[-500:]}")
            time.sleep(0.1)

    def mappings_of(self, satps):
        """What `info mem` says under each value of satp, while the machine is stopped."""
        stub, before, found = Stub(self.sockets[1]), self.monitor.satp(), {}
        for satp in satps:
            stub.set_satp(satp)
            if self.monitor.satp() != satp:
                raise MachineError("QEMU does not take satp")
            found[satp] = self.monitor.mappings()
        stub.set_satp(before)
        return found

    def saved(self):
        """The bytes of its memory, and the file that has them."""
        path = self.folder / "ram.bin"
        self.monitor.save(0x80000000, self.megabytes << 20, path)
        return path, path.read_bytes()


def runs(rows):
    """Rows of virtual address, physical address, size and flags, with those joined that go on where another ends."""
    joined = []
    for va, pa, size, letters in sorted(rows):
        if joined and (joined[-1][0] + joined[-1][2], joined[-1][1] + joined[-1][2], joined[-1][3]) == (va, pa, letters):
            joined[-1][2] += size
        else:
            joined.append([va, pa, size, letters])
    return [tuple(it) for it in joined]


def has(command):
    return any(os.access(os.path.join(it, command), os.X_OK) for it in os.environ["PATH"].split(":"))
