"""A client that prints half of a right trace and then hangs, crashes, or prints garbage, as the seed has it: broken_client.py SEED"""
import os
import pathlib
import signal
import sys
import time

sys.dont_write_bytecode = True
sys.path.insert(0, str(pathlib.Path(__file__).resolve().parent.parent / "mmu.d"))
from toy_hart import ToyHart, trace

ACCESSES = 100


def hang():
    time.sleep(3600)


def hang_with_child():
    """Its child keeps the output open."""
    os.fork()
    time.sleep(3600)


def crash():
    os.kill(os.getpid(), signal.SIGSEGV)


def refuse():
    sys.exit("no TLB to be had")


def garble():
    os.write(1, b"\xff\x00 segmentation fault\n")


def flood():
    while True:
        os.write(1, b"sfence\n" * 100_000)


def leave_out():
    os.write(1, b"load 0x1000 4 S\n")


# Each with what the report must say of it. The last does nothing wrong.
TROUBLES = [(hang, "hangs"), (hang_with_child, "hangs"), (crash, "SIGSEGV"), (refuse, "status 1"), (garble, "garbage"), (flood, "prints more than"),
            (leave_out, "without an outcome"), (lambda: None, "")]


def main():
    seed = int(sys.argv[1])
    os.write(1, ("\n".join(trace(ToyHart, seed, ACCESSES)) + "\n").encode())
    TROUBLES[seed % len(TROUBLES)][0]()


if __name__ == "__main__":
    main()
