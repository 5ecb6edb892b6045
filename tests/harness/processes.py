"""What tools share that start servers: free ports, configurations with places of their own,
what is started and ended. Not run by itself."""
import contextlib
import multiprocessing
import os
import random
import shutil
import signal
import socket
import subprocess
import time
from pathlib import Path

HOST = "127.0.0.1"
# how long anything may take, in seconds, a slow program's too
PATIENCE = 90
# a socket for each of the last hundred ports that this process was given
RESERVED = []
# what `eventually` waits for has ended
ENDED = object()


def is_free(port):
    """Whether nobody listens to a port. It isn't listened to for that: a child that another thread starts meanwhile has the
    socket too until it runs its program, and a client that came to it would be reset then."""
    with socket.socket() as probe:
        # (else connections that ended a moment ago would count)
        probe.setsockopt(socket.SOL_SOCKET, socket.SO_REUSEADDR, 1)
        try:
            probe.bind((HOST, port))
        except OSError:
            return False
    return True


def free_port():
    """A port that nobody listens to. It is below those that the kernel gives to connections, so none of them has it before it
    is listened to; and no other test of this machine is given it, until this process has been given a hundred more.
    """
    kernels = int(Path("/proc/sys/net/ipv4/ip_local_port_range").read_text().split()[0])
    for _ in range(1000):
        port, mark = random.randrange(10240, max(kernels, 20480)), socket.socket(socket.AF_UNIX)
        try:
            # an abstract socket's name is one process's, and goes with it
            mark.bind(f"\0fwdesk-test-port-{port}")
            is_mine = is_free(port)
        except OSError:
            is_mine = False
        if not is_mine:
            mark.close()
            continue
        RESERVED.append(mark)
        if len(RESERVED) > 100:
            RESERVED.pop(0).close()
        return port
    raise AssertionError("no port is free")


def listens(port):
    """Whether somebody listens to a port."""
    try:
        socket.create_connection((HOST, port), timeout=5).close()
        return True
    except ConnectionRefusedError:
        return False


def wait_for(holds, seconds=PATIENCE, pause=0.05):
    """Asks until something holds or the time is over, and gives what it then is."""
    until = time.monotonic() + seconds
    while not (got := holds()) and time.monotonic() < until:
        time.sleep(pause)
    return got


def eventually(what, holds, seconds=PATIENCE, child=None, pause=0.05):
    """Waits until it holds, and gives what it then is. The child has to run as long."""

    def ended():
        return child is not None and child.poll() is not None

    got = wait_for(lambda: holds() or (ENDED if ended() else None), seconds, pause)
    assert got is not ENDED, f"{what}: it has ended with {child.returncode}: {last_words(child)}"
    assert got, f"{what}: not within {seconds} s"
    return got


def last_words(child):
    """The end of what a child said, where it has a log."""
    log = getattr(child, "log", None)
    return log.read_text(errors="replace")[-400:] if log else ""


def found(program):
    """The path of a program, also where only root looks for it."""
    return shutil.which(program, path=f"{os.environ['PATH']}:/usr/sbin:/sbin")


def children(process):
    """The processes that one has started and that still run."""
    return {int(it) for it in Path(f"/proc/{process}/task/{process}/children").read_text().split()}


def with_places(text, places):
    """A configuration as it is committed, with other places: each has to stand in it."""
    for old, new in places.items():
        assert old in text, f"{old} doesn't stand in the configuration any more"
        text = text.replace(old, new)
    return text


def terminate(child):
    """Ends a child as systemd ends a service: asked first, and killed if it is there ten seconds later."""
    child.terminate()
    try:
        child.wait(10)
    except subprocess.TimeoutExpired:
        child.kill()
        child.wait()


def keep_priority(child):
    """A session of its own competes for processors as one, by a priority of its own: it gets that of this process's session.
    Where the kernel doesn't have sessions compete, it tells none."""
    with contextlib.suppress(OSError):
        if own := Path("/proc/self/autogroup").read_text().split():
            Path(f"/proc/{child.pid}/autogroup").write_text(own[-1])


def members(session):
    """The processes of a session, as `setsid` began it."""
    found = []
    for it in Path("/proc").glob("[0-9]*/stat"):
        with contextlib.suppress(OSError):
            if int(it.read_text().rpartition(")")[2].split()[3]) == session:
                found.append(int(it.parent.name))
    return found


class Processes:
    """What was started, each with a log of its own, and is ended again with all that it started itself."""

    def __init__(self, workdir):
        self.workdir, self.running = workdir, []

    def start(self, name, words, **how):
        """As systemd starts a service, SIGPIPE is ignored: without that a broken line ends swupdate now and then."""
        told = self.workdir / f"{name}.log"
        with open(told, "ab") as log:
            files = {"stdin": subprocess.DEVNULL, "stdout": log, "stderr": log}
            child = subprocess.Popen(
                words, **files, start_new_session=True, restore_signals=False, **how
            )
        child.log = told
        self.running.append(child)
        return child

    def journal(self):
        """The end of each log, for a test that fails."""
        logs = {it.log.name: last_words(it) for it in self.running}
        return "\n".join(f"--- {name}\n{words}" for name, words in logs.items() if words)

    def end(self, child):
        """swupdate doesn't end on SIGTERM while it waits."""
        try:
            os.killpg(child.pid, signal.SIGKILL)
        except ProcessLookupError:
            pass
        child.wait()
        self.running.remove(child)

    def end_all(self):
        for it in self.running[::-1]:
            self.end(it)


@contextlib.contextmanager
def pool_of(jobs, begin):
    """So many processes side by side, each of which calls `begin` first. They end by themselves once nothing is left to do: a
    pool that is left alone sends each a signal, and on one that just begins to wait for a lock it is lost.
    """
    with multiprocessing.Pool(jobs, begin) as pool:
        yield pool
        pool.close()
        pool.join()
