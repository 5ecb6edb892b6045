"""A process stands still while its files are copied: what is copied is what a kill at that moment would leave."""
import contextlib
import os
import signal
import subprocess
import time
from collections.abc import Iterator
from pathlib import Path

from fwdesk_ctl.errors import NotDone

# it wakes the process at the end of its input: where this process is killed too, and also where a unit's time is over
GUARD = 'trap "" TERM INT HUP; cat > /dev/null; kill -CONT "$1"'
PATIENCE = 10  # seconds until each thread of it stands still


def is_still(pid: int) -> bool:
    """Whether each thread of a process is stopped."""
    states = (
        it.read_text().rpartition(")")[2].split()[0]
        for it in Path(f"/proc/{pid}/task").glob("*/stat")
    )
    return all(it in "Tt" for it in states)


def wait_until_still(pid: int) -> None:
    until = time.monotonic() + PATIENCE
    while not is_still(pid):
        if time.monotonic() > until:
            raise NotDone(f"process {pid} doesn't stand still within {PATIENCE} s")
        time.sleep(0.005)


@contextlib.contextmanager
def standing_still(pid: int) -> Iterator[None]:
    """Process `pid` is stopped meanwhile, and goes on afterwards, also where this process is killed. Of 0 there is none,
    and nothing is done. Raises NotDone where it can't be stopped."""
    if not pid:
        yield
        return
    words = ["/bin/sh", "-c", GUARD, "sh", str(pid)]
    guard = subprocess.Popen(words, stdin=subprocess.PIPE, start_new_session=True)
    assert guard.stdin
    try:
        os.kill(pid, signal.SIGSTOP)
        wait_until_still(pid)
        yield
    except OSError as error:
        raise NotDone(
            f"process {pid} can't be stopped, or its files copied: {error.strerror}"
        ) from None
    finally:
        guard.stdin.close()
        guard.wait()
