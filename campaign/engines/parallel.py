"""GNU parallel: processes of this machine, or of others by ssh."""
import shlex
import shutil
import subprocess
import tempfile

MISSING = "there is no GNU parallel: apt-get install parallel"


def is_here():
    if shutil.which("parallel") is None:
        return False
    # The package moreutils has another program of this name.
    return b"GNU parallel" in subprocess.run(["parallel", "--version"], stdout=subprocess.PIPE, stderr=subprocess.DEVNULL).stdout


def lines(commands, workers, at):
    """Runs commands, `workers` at a time on each machine, and yields the lines that each prints, once it has ended. `at`: what
    --sshlogin takes."""
    words = ["parallel", "--will-cite", "--jobs", str(workers), *(["--sshlogin", at] if at else [])]
    with tempfile.TemporaryFile() as file:
        file.write("".join(shlex.join(command) + "\n" for command in commands).encode())
        file.seek(0)
        with subprocess.Popen(words, stdin=file, stdout=subprocess.PIPE) as process:
            yield from process.stdout
