"""Dask: processes of this machine, or of a cluster whose scheduler runs already."""
import contextlib
import subprocess
import tempfile

MISSING = "there is no Dask for this Python: apt-get install python3-distributed, and run this with /usr/bin/python3"


def is_here():
    try:
        import distributed  # noqa: F401
    except ImportError:
        return False
    return True


def lines(commands, workers, at):
    """Runs commands, and yields the lines that each prints, once it has ended. `at`: the scheduler's address."""
    import distributed

    with tempfile.TemporaryDirectory(prefix="campaign-") as scratch, contextlib.ExitStack() as stack:
        if not at:
            at = stack.enter_context(distributed.LocalCluster(workers, threads_per_worker=1, dashboard_address=None, local_directory=scratch))
        client = stack.enter_context(distributed.Client(at))
        for done in distributed.as_completed(client.map(subprocess.run, commands, stdout=subprocess.PIPE, pure=False)):
            if done.status == "finished":
                yield from done.result().stdout.splitlines()
            done.release()
