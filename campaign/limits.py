"""Runs a program that may hang, crash, or print without an end."""
import collections
import os
import selectors
import signal
import subprocess
import time

# How long a program outlives its limit if nobody is left to end it, in seconds.
ORPHANED = 10
LAST_BYTES = 500

# What a program printed; the end of what it printed on standard error; how it ended: "" with status 0, or in words.
Ran = collections.namedtuple("Ran", "out err trouble")


def ran(command, seconds, most_bytes):
    """Runs a program, at most so long, and until it has printed so much. Then each process of its group is ended."""
    # `timeout` ends it, too, if this process is killed first.
    words = ["timeout", "--signal=KILL", str(seconds + ORPHANED), *command]
    process = subprocess.Popen(words, stdin=subprocess.DEVNULL, stdout=subprocess.PIPE, stderr=subprocess.PIPE, start_new_session=True)
    try:
        out, err, trouble = read(process, time.monotonic() + seconds, most_bytes)
        trouble = trouble or ended(process)
    finally:
        kill_group(process)
    return Ran(out, err, {"hang": f"hangs: no end within {seconds} seconds", "flood": f"prints more than {most_bytes:,} bytes"}.get(trouble, trouble))


def read(process, deadline, most_bytes):
    """What a program prints until it closes both outputs, and "hang" or "flood" if it goes beyond a limit; of a flood nothing."""
    out, err, length = [], b"", 0
    with selectors.DefaultSelector() as selector:
        selector.register(process.stdout, selectors.EVENT_READ)
        selector.register(process.stderr, selectors.EVENT_READ)
        while selector.get_map():
            ready = selector.select(max(0, deadline - time.monotonic()))
            if not ready:
                return b"".join(out), err, "hang"
            for key, _ in ready:
                piece = os.read(key.fd, 1 << 16)
                if not piece:
                    selector.unregister(key.fileobj)
                elif key.fileobj is process.stdout:
                    out.append(piece)
                    length += len(piece)
                else:
                    err = (err + piece)[-LAST_BYTES:]
            if length > most_bytes:
                return b"", err, "flood"
    try:
        process.wait(max(0, deadline - time.monotonic()))
    except subprocess.TimeoutExpired:
        return b"".join(out), err, "hang"
    return b"".join(out), err, ""


def ended(process):
    """How a program has ended, in words; "" with status 0."""
    status = process.returncode
    # `timeout` and the shell tell a signal as 128 and its number.
    number = -status if status < 0 else status - 128
    if number in {int(it) for it in signal.Signals}:
        return f"crashes by signal {number}, {signal.Signals(number).name}"
    return f"crashes with status {status}" if status else ""


def kill_group(process):
    try:
        os.killpg(process.pid, signal.SIGKILL)
    except ProcessLookupError:
        pass
    process.wait()
    process.stdout.close()
    process.stderr.close()
