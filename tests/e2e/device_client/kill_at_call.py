"""Runs a command, and kills it as it comes to one of its calls of the operating system that leave something behind.

    kill_at_call.py AT WHO LIST WORDS..

Each call by which the command, or something that it started, makes, changes, renames or removes a file or sends to a
socket has a number, from 1 on: a kill between two of them leaves what a kill at the second one does. AT is the number of the call that isn't made any more; with 0 no
one is. WHO is killed: `all` as by a loss of power, or the `client` alone, and what it started goes on. LIST gets the
calls, a line each. It ends as the command did. For Linux on x86-64; it traces by ptrace(2)."""
import ctypes
import os
import signal
import sys
from pathlib import Path

libc = ctypes.CDLL(None, use_errno=True)
libc.ptrace.argtypes = [ctypes.c_long, ctypes.c_long, ctypes.c_void_p, ctypes.c_void_p]
libc.ptrace.restype = ctypes.c_long
TRACEME, SYSCALL, SETOPTIONS, GET_SYSCALL_INFO = 0, 24, 0x4200, 0x420E
# stops at calls are told apart; what is forked, cloned and begun is traced too; it all ends with this process
OPTIONS = 0x1 | 0x2 | 0x4 | 0x8 | 0x10 | 0x100000
AT_CALL, WALL = signal.SIGTRAP | 0x80, 0x40000000
ENTRY = 1
# the calls by their numbers, with the place of the argument that is a path
OF_PATHS = {
    **{
        76: ("truncate", 0),
        82: ("rename", 0),
        83: ("mkdir", 0),
        84: ("rmdir", 0),
    },
    **{85: ("creat", 0), 86: ("link", 0), 87: ("unlink", 0), 88: ("symlink", 0), 90: ("chmod", 0)},
    **{258: ("mkdirat", 1), 263: ("unlinkat", 1), 264: ("renameat", 1), 265: ("linkat", 1)},
    **{266: ("symlinkat", 1), 268: ("fchmodat", 1), 316: ("renameat2", 1)},
}
OPENS = {2: ("open", 0), 257: ("openat", 1)}
# those whose first argument is a descriptor
OF_FILES = {1: "write", 18: "pwrite64", 20: "writev", 40: "sendfile", 44: "sendto", 46: "sendmsg"}
OF_FILES |= {77: "ftruncate", 91: "fchmod", 326: "copy_file_range"}


class Info(ctypes.Structure):
    """What ptrace says of a call: its number and its arguments, where it is about to be made."""

    _fields_ = [
        ("op", ctypes.c_uint8),
        ("padding", ctypes.c_uint8 * 3),
        ("machine", ctypes.c_uint32),
        ("instruction", ctypes.c_uint64),
        ("stack", ctypes.c_uint64),
        ("number", ctypes.c_uint64),
        ("arguments", ctypes.c_uint64 * 6),
    ]


def ptrace(request: int, process: int, address: object = None, data: object = None) -> None:
    if libc.ptrace(request, process, address, data) < 0:
        raise OSError(ctypes.get_errno(), f"ptrace {request:#x} of {process}")


def text_at(process: int, address: int) -> str:
    """The text at an address of a process."""
    with open(f"/proc/{process}/mem", "rb", buffering=0) as memory:
        memory.seek(address)
        return memory.read(4096).partition(b"\0")[0].decode(errors="replace")


def target_of(process: int, descriptor: int) -> str:
    """What a descriptor of a process leads to."""
    try:
        return os.readlink(f"/proc/{process}/fd/{descriptor}")
    except OSError:
        return ""


def call_that_stays(process: int) -> str | None:
    """The call that a process is about to make, where it leaves something behind."""
    info = Info()
    ptrace(GET_SYSCALL_INFO, process, ctypes.sizeof(info), ctypes.byref(info))
    if info.op != ENTRY:
        return None
    number, arguments = info.number, info.arguments
    if number in OF_PATHS:
        name, place = OF_PATHS[number]
        path = text_at(process, arguments[place])
        return f"{name} {path}"
    if number in OPENS:
        name, place = OPENS[number]
        path = text_at(process, arguments[place])
        writes = arguments[place + 1] & (os.O_CREAT | os.O_TRUNC)
        return f"{name} {path}" if writes and not path.startswith("/dev/") else None
    if number in OF_FILES:
        target = target_of(process, ctypes.c_int(arguments[0]).value)
        stays = target and not target.startswith(("pipe:", "anon_inode:", "/dev/"))
        return f"{OF_FILES[number]} {target.partition(':')[0]}" if stays else None
    return None


class Tree:
    """A command and all that it started."""

    def __init__(self, at: int, who: str, words: list[str]):
        self.at, self.who, self.calls, self.was_killed = at, who, [], False
        self.client = os.fork()
        if not self.client:
            ptrace(TRACEME, 0)
            os.kill(os.getpid(), signal.SIGSTOP)
            os.execvp(words[0], words)
        os.waitpid(self.client, 0)
        ptrace(SETOPTIONS, self.client, None, OPTIONS)
        ptrace(SYSCALL, self.client)
        self.alive, self.status = {self.client}, 0

    def follow(self) -> None:
        """Follows the tree to its end."""
        while self.alive:
            process, status = os.waitpid(-1, WALL)
            if os.WIFEXITED(status) or os.WIFSIGNALED(status):
                self.alive.discard(process)
                self.status = status if process == self.client else self.status
                continue
            first = process not in self.alive
            self.alive.add(process)
            self.go_on(process, os.WSTOPSIG(status), first or bool(status >> 16))

    def go_on(self, process: int, stop: int, is_event: bool) -> None:
        """Has a process go on that stopped: at a call, at an event of the tracing, or by a signal, which it then gets."""
        try:
            if stop == AT_CALL:
                self.meet(process)
            is_signal = stop != AT_CALL and not is_event and stop != signal.SIGTRAP
            ptrace(SYSCALL, process, None, stop if is_signal else 0)
        except ProcessLookupError:
            pass  # it was killed meanwhile

    def meet(self, process: int) -> None:
        """Counts a call, and kills where it is the one."""
        call = call_that_stays(process)
        if call is None:
            return
        if not self.was_killed:
            self.calls.append(call)
            self.was_killed = len(self.calls) == self.at
        if self.was_killed:
            # (of `all` also those that were begun at this moment)
            for it in {self.client} & self.alive if self.who == "client" else self.alive:
                os.kill(it, signal.SIGKILL)


def main() -> None:
    at, who, listed, words = int(sys.argv[1]), sys.argv[2], Path(sys.argv[3]), sys.argv[4:]
    tree = Tree(at, who, words)
    tree.follow()
    listed.write_text("".join(f"{it}\n" for it in tree.calls))
    if os.WIFSIGNALED(tree.status):
        os.kill(os.getpid(), os.WTERMSIG(tree.status))
    sys.exit(os.WEXITSTATUS(tree.status))


if __name__ == "__main__":
    main()
