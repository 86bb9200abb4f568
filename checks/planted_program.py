"""Copies of the repository with one program more, in which a check plants errors."""
import concurrent.futures
import os
import pathlib
import queue
import shutil
import subprocess
import tempfile


def copied(root, scratch, crate, libraries, main):
    """Copies the files that git tracks or does not ignore, and adds a program: the crate's name, the libraries it uses, its main file."""
    command = ["git", "ls-files", "-z", "-co", "--exclude-standard"]
    listed = subprocess.run(command, cwd=root, check=True, capture_output=True, text=True).stdout
    for name in filter(None, listed.split("\0")):
        if (root / name).is_file():
            (scratch / name).parent.mkdir(parents=True, exist_ok=True)
            shutil.copy2(root / name, scratch / name)
    source = scratch / "crates" / crate / "src"
    source.mkdir(parents=True)
    shutil.copy2(main, source / "main.rt")
    with open(scratch / "crates.txt", "a", encoding="utf-8") as file:
        print(f"{crate}: {libraries}", file=file)


def tried_in_copies(root, program, errors, attempt):
    """Calls `attempt(scratch, error)` for each error, half as many at once as there are processors, each with a copy of the repository
    that no other has meanwhile. `program` is the crate, its libraries and its main file. Yields what the calls return, in order."""
    count = max(1, len(os.sched_getaffinity(0)) // 2)
    with tempfile.TemporaryDirectory(prefix="planted-") as folder:
        free = queue.SimpleQueue()
        for number in range(count):
            scratch = pathlib.Path(folder) / str(number)
            copied(root, scratch, *program)
            free.put(scratch)

        def attempted(error):
            scratch = free.get()
            try:
                return attempt(scratch, error)
            finally:
                free.put(scratch)

        with concurrent.futures.ThreadPoolExecutor(count) as pool:
            yield from pool.map(attempted, errors)
