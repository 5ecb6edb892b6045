"""Namespaces of its own, for tests/e2e/failover/run: what is made in them is gone with them, however the tool ends."""
import ctypes
import os
import signal
import subprocess
import sys
import traceback

LIBC = ctypes.CDLL(None, use_errno=True)
NEWNS, NEWPID, NEWNET = 0x20000, 0x20000000, 0x40000000
PDEATHSIG = 1


def said(*words, **how):
    """What a command prints; it has to succeed."""
    ran = subprocess.run(
        [str(it) for it in words],
        check=False,
        stdout=subprocess.PIPE,
        stderr=subprocess.STDOUT,
        stdin=subprocess.DEVNULL,
        text=True,
        **how,
    )
    if ran.returncode:
        raise RuntimeError(
            f"{' '.join(map(str, words))}: status {ran.returncode}: {ran.stdout[-800:]}"
        )
    return ran.stdout.strip()


def ends(*_):
    sys.exit(1)


def waits(child):
    """Waits for a process, and gives its status. When this one is to end before, so is that."""
    signal.signal(signal.SIGTERM, ends)
    try:
        return os.waitstatus_to_exitcode(os.waitpid(child, 0)[1])
    except (KeyboardInterrupt, SystemExit):
        signal.signal(signal.SIGINT, signal.SIG_IGN)
        os.kill(child, signal.SIGTERM)
        os.waitpid(child, 0)
        return 1


def first_process(work):
    LIBC.prctl(PDEATHSIG, signal.SIGKILL)
    signal.signal(signal.SIGTERM, ends)
    said("mount", "-t", "proc", "proc", "/proc")
    said("ip", "link", "set", "lo", "up")
    # the work is another one's, since the first process takes over what others leave behind, and has to wait for it
    child = begun(lambda it: it(), work)
    while True:
        ended, status = os.wait()
        if ended == child:
            return os.waitstatus_to_exitcode(status)


def in_namespaces(work):
    LIBC.prctl(PDEATHSIG, signal.SIGTERM)
    if LIBC.unshare(NEWNS | NEWNET):
        raise OSError(ctypes.get_errno(), "unshare: for root alone")
    said("mount", "--make-rprivate", "/")
    LIBC.unshare(NEWPID)
    return waits(begun(first_process, work))


def begun(call, work):
    """A process that makes a call and ends with its status."""
    sys.stdout.flush()
    if child := os.fork():
        return child
    status = 1
    try:
        status = call(work)
    except (KeyboardInterrupt, SystemExit):
        pass
    except BaseException:
        traceback.print_exc()
    sys.stdout.flush()
    sys.stderr.flush()
    os._exit(status)


def alone(work):
    """Does the work as the first process of a namespace of processes, mounts and networks, and gives its status. When
    it ends, the kernel ends every process in there, and with the last one their mounts and links go too.
    """
    return waits(begun(in_namespaces, work))
