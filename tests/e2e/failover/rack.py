"""The rack of tests/e2e/failover/run: two nodes by systemd-nspawn, a loop device of each node's own for each fleet,
a bridge, and the power switch.

Each node has its own loop device over a fleet's file, past the page cache, so it has a file system and a cache of its
own, as two machines have. The switch listens at 10.77.0.254:7700 for a line `on N`, `off N`, `reboot N`, `status N` or
`ping`, and answers a word. It answers `ok` to `off` when nothing of the node can write any more."""
import fcntl
import os
import shutil
import signal
import socket
import stat
import struct
import subprocess
import threading
import time
from pathlib import Path

from harness.alone import said
from harness.processes import wait_for

HUB, PORT = "10.77.0.254", 7700
# EXT4_IOC_SHUTDOWN, and to drop even what the journal has in memory
SHUTDOWN, NO_FLUSH = 0x8004587D, 2
# what outlives a node's power, beside the devices
KEPT = ("var/lib/pacemaker", "var/lib/corosync", "var/log")


class Node:
    def __init__(self, name, root, workdir, fleets):
        self.name, self.root, self.workdir, self.fleets = name, root, workdir, fleets
        self.link = f"vb-fwdesk-{name}"
        self.child, self.loops, self.lock = None, [], threading.Lock()
        self.is_cut = self.is_apart = False
        for it in KEPT:
            shutil.copytree(root / it, workdir / name / it, symlinks=True)
            said("chown", "-R", f"--reference={root / it}", workdir / name / it)

    def first(self):
        """Its first process, or none."""
        try:
            told = (
                open(f"/proc/{self.child.pid}/task/{self.child.pid}/children", encoding="ascii")
                .read()
                .split()
            )
        except (FileNotFoundError, AttributeError):
            return None
        return int(told[0]) if told else None

    def take_devices(self):
        # nodes in a folder, since the agent's `umount DEVICE` would take away a device that is a mount of its own
        folder = self.workdir / f"dev-{self.name}"
        shutil.rmtree(folder, ignore_errors=True)
        folder.mkdir()
        for it in self.fleets:
            device = said("losetup", "-f", "--show", "--direct-io=on", self.workdir / f"{it}.img")
            # nobody else has it open: a device that stays open keeps what was read of it, which another node may have
            # written since
            self.loops.append(device)
            os.mknod(folder / it, 0o600 | stat.S_IFBLK, os.stat(device).st_rdev)

    def on(self):
        if self.child and self.child.poll() is None:
            return
        self.take_devices()
        words = (
            "systemd-nspawn -q --boot --volatile=overlay --register=no --keep-unit --console=pipe "
            "--network-bridge=br0"
        )
        words += (
            " --capability=CAP_BPF,CAP_NET_ADMIN,CAP_IPC_LOCK,CAP_SYS_NICE --system-call-filter=bpf -M "
            f"fwdesk-{self.name}"
        )
        words += f" --hostname={self.name} -D {self.root} --bind={self.workdir}/dev-{self.name}:/dev/fleets"
        words = words.split() + [f"--bind={self.workdir}/{self.name}/{it}:/{it}" for it in KEPT]
        with open(self.workdir / f"{self.name}.out", "ab") as out:
            plain = {**os.environ, "SYSTEMD_NSPAWN_UNIFIED_HIERARCHY": "1"}
            self.child = subprocess.Popen(
                words, stdin=subprocess.DEVNULL, stdout=out, stderr=out, env=plain
            )
        has_network = lambda: (
            self.first() and os.path.exists(f"/proc/{self.first()}/ns/net") and self.has_link()
        )
        boots = wait_for(lambda: has_network() or self.child.poll() is not None, 30, 0.02)
        if not boots or self.child.poll() is not None:
            raise RuntimeError(f"{self.name} doesn't boot: {self.workdir}/{self.name}.out")
        self.wire()

    def has_link(self):
        return (
            subprocess.run(
                ["ip", "link", "show", self.link],
                stdout=subprocess.DEVNULL,
                stderr=subprocess.DEVNULL,
                check=False,
            ).returncode
            == 0
        )

    def wire(self):
        """Its cable and its port of the bridge as they are said to be, also after a boot."""
        if self.has_link():
            said("ip", "link", "set", self.link, "down" if self.is_cut else "up")
            said(
                "bridge",
                "link",
                "set",
                "dev",
                self.link,
                "isolated",
                "on" if self.is_apart else "off",
            )

    def crash(self):
        """What a loss of power does: the file systems take nothing any more,
        not even what was written without a sync, and all is killed."""
        if not (first := self.first()):
            return
        for line in open(f"/proc/{first}/mounts", encoding="utf-8"):
            device, place = line.split()[:2]
            if device.startswith(("/dev/loop", "/dev/fleets/")):
                at = os.open(f"/proc/{first}/root{place}", os.O_RDONLY)
                fcntl.ioctl(at, SHUTDOWN, struct.pack("I", NO_FLUSH))
                os.close(at)
        os.kill(first, signal.SIGKILL)

    def off(self):
        """Crashed, and its devices taken from it: then nobody can write any more."""
        self.crash()
        if self.child:
            self.child.wait()
        for it in self.loops:
            subprocess.run(["losetup", "-d", it], stderr=subprocess.DEVNULL, check=False)
        backing = [Path("/sys/block", Path(it).name, "loop/backing_file") for it in self.loops]
        if not wait_for(lambda: not any(it.exists() for it in backing), 30, 0.02):
            raise TimeoutError("its devices are still in use")
        self.loops = []

    def does(self, order):
        if order == "status":
            return "on" if self.first() else "off"
        with self.lock:
            if order in ("off", "reboot"):
                self.off()
            if order in ("on", "reboot"):
                self.on()
        return "ok"


class Rack:
    def __init__(self, root, workdir, fleets, names=("n1", "n2")):
        # an address of its own: else it has a node's, and another one when that node goes, so that nobody finds the
        # switch for a while
        said("ip", "link", "add", "br0", "address", "02:00:00:00:00:fe", "type", "bridge")
        said("ip", "addr", "add", f"{HUB}/24", "dev", "br0")
        said("ip", "link", "set", "br0", "up")
        self.nodes = {it: Node(it, root, workdir, fleets) for it in names}
        self.log = open(workdir / "switch.log", "a", buffering=1, encoding="utf-8")
        # (begin, order, node, word, end), of orders that did something
        self.done = []
        self.listener = None
        self.reach(True)

    def reach(self, well):
        """Whether the switch is reached by the nodes."""
        if well and not self.listener:
            self.listener = socket.create_server((HUB, PORT))
            threading.Thread(target=self.listen, args=(self.listener,), daemon=True).start()
        elif not well and self.listener:
            self.listener.shutdown(socket.SHUT_RDWR)
            self.listener.close()
            self.listener = None

    def listen(self, listener):
        while True:
            try:
                peer = listener.accept()[0]
            except OSError:
                return
            threading.Thread(target=self.answer, args=(peer,), daemon=True).start()

    def answer(self, peer):
        with peer:
            words = peer.makefile().readline().split()
            told = "ok" if words == ["ping"] else self.order(*words)
            peer.sendall(f"{told}\n".encode())

    def order(self, order, name):
        began = time.time()
        try:
            told = self.nodes[name].does(order)
        except Exception as error:  # a switch that fails says so, and is asked again
            told = f"failed {error}"
        if order != "status":
            self.done.append((began, order, name, told, time.time()))
            print(
                f"{began:.3f} {order} {name} -> {told} after {time.time() - began:.3f} s",
                file=self.log,
            )
        return told
