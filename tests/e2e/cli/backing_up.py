"""Cases of fwdesk-ctl: the service is backed up and restored, here and on another machine, whole or not at all."""
import json
import os
import resource
import shutil
import sqlite3
import ssl
import subprocess
import sys
import tarfile
import threading
import time
from pathlib import Path

from harness import http_client
from harness.tls import make_certificate

from harness.fwdesk_ctl import CLI, HOST, eventually, free_port, listens, needs, packages

# it knows which process is the service's, ends it, and writes down what it is told
SYSTEMCTL = """#!/bin/sh
cd "{root}" && echo "$*" >> calls
case $1 in
  show) if test -e pid; then cat pid; else echo 0; fi ;;
  stop) test ! -e stubborn || {{ echo "fwdesk.service won't stop" >&2; exit 1; }}
    test ! -e pid || kill -9 "$(cat pid)"; rm -f pid ;;
  is-enabled) echo enabled ;;
esac
"""
EDGE = """defaults
    mode http
    timeout client 10s
    timeout server 30s
    timeout connect 5s
frontend fwdesk
    bind {host}:{port} ssl crt "${{FWDESK_CERTIFICATE}}"
    default_backend desk
backend desk
    server desk {host}:{desk}
"""
# fwdesk-ctl that ends, as by a kill, in place of its so-many-th replacing of a file
ENDS = """
import os, runpy, sys
at, real, count = int(sys.argv.pop(1)), os.replace, 0
def replace(*ways):
    global count
    count += 1
    if count == at:
        os._exit(137)
    real(*ways)
os.replace = replace
sys.argv.pop(0)
sys.path.insert(0, os.path.dirname(sys.argv[0]))
runpy.run_path(sys.argv[0], run_name="__main__")
"""
# a program that calls each file whole, where a case is about something else: looking takes seconds
SAYS_OK = "#!/bin/sh\necho ok\n"
TIMER = "[Timer]\nOnCalendar=2027-01-01 00:00:00 UTC\n\n[X-Fwdesk]\nWhat={}\n"


class Machine:
    """A root folder with the service's files, its program, and stand-ins for systemd."""

    def __init__(self, env, name):
        self.env, self.root = env, env.folder / name
        self.records = self.root / "var/lib/private/fwdesk"
        self.parts = self.root / "parts"
        self.programs = self.root / "programs"
        for it in (self.programs, self.parts / "edge"):
            it.mkdir(parents=True)
        self.script("systemctl", SYSTEMCTL.format(root=self.root))
        self.script("fwdesk", SAYS_OK)
        self.own = {"PATH": f"{self.programs}:{env.environment['PATH']}"}
        (self.parts / "edge/10-edge.cfg").write_text(EDGE.format(host=HOST, port=1, desk=2))

    def verifies(self):
        """The program itself looks at copies from now on."""
        self.script("fwdesk", f'#!/bin/sh\nexec {self.env.program} "$@"\n')

    def script(self, name, text):
        (self.programs / name).write_text(text)
        (self.programs / name).chmod(0o755)

    def file(self, path, text, mode=0o644):
        file = self.root / path
        file.parent.mkdir(parents=True, exist_ok=True)
        file.write_text(text)
        file.chmod(mode)

    def is_set_up(self, word="one"):
        """The files of a service, with a word by which they are told apart."""
        (self.root / "etc/fwdesk/haproxy.d").mkdir(parents=True)
        make_certificate(self.root / "etc/fwdesk")
        pem = "".join((self.root / f"etc/fwdesk/server.{it}").read_text() for it in ("crt", "key"))
        self.file("etc/fwdesk/server.pem", pem, 0o600)
        self.file(
            "etc/fwdesk/haproxy.d/20-operators.cfg",
            f"userlist operators\n    user {word} password x\n",
            0o640,
        )
        self.file("etc/fwdesk/haproxy.d/operators.map", f"{word} look\n", 0o640)
        self.file("var/lib/fwdesk-brake/held.map", f"brake {word}\n")
        self.file("etc/systemd/system/fwdesk-at-3.timer", TIMER.format(word))
        self.file("etc/systemd/system/fwdesk-quiet.timer", TIMER.format(word))
        self.file("var/lib/fwdesk-clock/orders.json", f'{{"last": 3, "of": "{word}"}}')
        self.file("etc/systemd/system/fwdesk.service.d/override.conf", f"# {word}\n")
        (self.root / "etc/systemd/system/timers.target.wants").mkdir()
        link = self.root / "etc/systemd/system/timers.target.wants/fwdesk-at-3.timer"
        link.symlink_to("/etc/systemd/system/fwdesk-at-3.timer")

    def files(self):
        """Each file of the service with its text, its mode and where it leads; without the records."""
        found = {}
        for it in sorted((self.root / "etc").rglob("*")) + sorted(
            (self.root / "var/lib").rglob("*")
        ):
            if it.is_symlink():
                found[str(it.relative_to(self.root))] = str(it.readlink())
            elif it.is_file() and self.records not in it.parents:
                found[str(it.relative_to(self.root))] = it.read_text(), it.stat().st_mode & 0o777
        return found

    def serve(self):
        """Serves this machine's records; gives the port."""
        self.records.mkdir(parents=True, exist_ok=True)
        port = free_port()
        words = f"serve --db {self.records}/desk.db --port {port} --connections 1000000 --interface both"
        # (exec'd by its script, so the process is the program's)
        self.server = self.env.processes.start("fwdesk", [self.env.program, *words.split()])
        eventually("the program", lambda: listens(port), child=self.server)
        (self.root / "pid").write_text(str(self.server.pid))
        self.env.port = port
        return port

    def ctl(self, verb, *words, **more):
        words = (verb, *words, "--root", self.root)
        return self.env.ctl(
            *words, *(("--parts", self.parts) if verb == "restore" else ()), **self.own, **more
        )

    def gives(self, *words):
        status, out, said = self.ctl(*words)
        assert status == 0, f"{words}: status {status}: {said}"
        return out.strip()

    def refuses(self, status, why, *words):
        got, out, said = self.ctl(*words)
        assert (got, out) == (status, "") and why in said, f"{words}: status {got}: {out}{said}"

    def calls(self):
        file = self.root / "calls"
        return file.read_text().splitlines() if file.exists() else []


def records(env):
    """What a desk has, as an operator sees it."""
    lists = [
        env.get(f"{it}?limit=500")
        for it in ("targets", "rollouts", "distributionsets", "softwaremodules")
    ]
    return lists, [env.rows(it["id"]) for it in lists[1]["content"]]


def one(env, name="one"):
    """A machine whose desk has a history."""
    machine = Machine(env, name)
    machine.is_set_up(name)
    env.processes.end(env.server)
    machine.serve()
    names = env.fleet(4)
    env.rollout(groups=2)
    env.report(names[0], "success")
    return machine


def state_of(pid):
    return Path(f"/proc/{pid}/stat").read_text().rpartition(")")[2].split()[0]


def backs_up(env):
    """backup: while it serves, nobody is refused; the copy is whole, verified, and has all that was answered; keys are
    for the owner alone; the newest stay"""
    machine = one(env)
    machine.verifies()
    before, stop, answers = records(env), threading.Event(), []

    def polls():
        while not stop.is_set():
            answers.append(
                env.call("GET", "/DEFAULT/controller/v1/dev-00002", token="tok-dev-00002")[0]
            )

    poller = threading.Thread(target=polls)
    poller.start()
    folder = Path(machine.gives("backup", env.folder / "backups/first"))
    stop.set()
    poller.join()
    assert len(answers) > 3 and set(answers) == {200}, answers
    assert folder.stat().st_mode & 0o777 == 0o700
    assert sorted(it.name for it in folder.iterdir()) == ["desk.db", "files.tar", "manifest.json"]
    assert {it.stat().st_mode & 0o777 for it in folder.iterdir()} == {0o600}
    assert state_of(machine.server.pid) not in "Tt", "the program still stands still"
    told = json.loads((folder / "manifest.json").read_text())
    assert told["files"] == len(machine.files()) and told["bytes"] > 0
    assert 0 < told["stood_still"] <= told["seconds"] + 0.01
    with tarfile.open(folder / "files.tar") as tar:
        assert set(tar.getnames()) == set(machine.files())
    env.processes.end(machine.server)
    shutil.copy(folder / "desk.db", machine.records / "desk.db")
    (machine.records / "desk.db-wal").unlink(missing_ok=True)
    machine.serve()
    assert records(env) == before
    machine.script("fwdesk", SAYS_OK)
    for _ in range(3):
        newest = Path(machine.gives("backup", env.folder / "daily", "--keep", 2))
        time.sleep(1.1)
    kept = sorted(it.name for it in (env.folder / "daily").iterdir())
    assert len(kept) == 2 and kept[-1] == newest.name, kept


def backup_is_whole(env):
    """backup: there whole or not at all, on a full disk, without a desk, of a damaged one, and where it is killed; the
    program never stays stopped"""
    machine = one(env)
    folder = env.folder / "backups/new"
    machine.gives("backup", folder)
    machine.refuses(2, "is there already", "backup", folder)
    shutil.rmtree(folder)
    child = subprocess.Popen(
        env.words("backup", folder, "--root", machine.root),
        env={**env.environment, **machine.own},
        stderr=subprocess.PIPE,
        text=True,
        preexec_fn=lambda: resource.setrlimit(resource.RLIMIT_FSIZE, (4096, 4096)),
    )
    said = child.communicate(timeout=60)[1]
    assert child.returncode == 1 and "File too large" in said, said
    left = [it.name for it in (env.folder / "backups").iterdir()]
    assert not left, left
    assert state_of(machine.server.pid) not in "Tt"
    script = f"import os, sys; sys.path.insert(0, {str(CLI)!r})\nfrom fwdesk_ctl.standstill import standing_still\n"
    script += f"with standing_still({machine.server.pid}):\n"
    script += f"    print(open('/proc/{machine.server.pid}/stat').read().rpartition(')')[2].split()[0], flush=True)\n"
    script += "    os.kill(os.getpid(), 9)\n"
    ran = subprocess.run([sys.executable, "-c", script], capture_output=True, text=True)
    assert (ran.returncode, ran.stdout.strip()) == (-9, "T"), ran
    eventually("it goes on", lambda: state_of(machine.server.pid) not in "Tt", 10)
    assert env.call("GET", "/DEFAULT/controller/v1/dev-00002", token="tok-dev-00002")[0] == 200
    machine.script("fwdesk", "#!/bin/sh\necho damage member\nexit 1\n")
    machine.refuses(1, "fwdesk verify says of", "backup", folder)
    machine.script("fwdesk", "#!/bin/sh\nkill -9 $PPID\n")
    assert machine.ctl("backup", folder)[0] == -9 and not folder.exists()
    machine.script("fwdesk", SAYS_OK)
    machine.gives("backup", folder)
    assert [it.name for it in (env.folder / "backups").iterdir()] == [
        "new"
    ], "what was cut short is gone"
    env.processes.end(machine.server)
    (machine.root / "pid").unlink()
    for it in machine.records.iterdir():
        it.unlink()
    machine.refuses(2, "there is no desk", "backup", env.folder / "backups/none")
    machine.refuses(2, "--keep is 1 or more", "backup", env.folder / "backups/none", "--keep", 0)


def polls_by_tls(machine, authority, name):
    """The status that a device gets that trusts this certificate alone, at HAProxy before a machine."""
    needs("haproxy", "openssl")
    port = free_port()
    file = machine.root / "edge.cfg"
    file.write_text(EDGE.format(host=HOST, port=port, desk=machine.env.port))
    own = {**os.environ, "FWDESK_CERTIFICATE": str(machine.root / "etc/fwdesk/server.pem")}
    child = machine.env.processes.start(
        "edge", [packages.found("haproxy"), "-db", "-f", str(file)], env=own
    )
    eventually("HAProxy", lambda: listens(port), child=child)
    trusted = ssl.create_default_context(cafile=authority)
    path, token = f"/DEFAULT/controller/v1/{name}", http_client.token(name)
    try:
        reply = http_client.ask(
            "GET", path, fields=token, port=port, host="localhost", trusted=trusted
        )
        return reply.status
    finally:
        machine.env.processes.end(child)


def restores_elsewhere(env):
    """restore on another machine: devices that pinned the certificate come back, by their tokens; records, operators,
    holds and timers are those of the first; what was there is kept aside, and can be restored likewise
    """
    first = one(env)
    before, pinned = records(env), env.folder / "pinned.crt"
    shutil.copy(first.root / "etc/fwdesk/server.crt", pinned)
    assert polls_by_tls(first, pinned, "dev-00002") == 200
    folder = first.gives("backup", env.folder / "backup")
    env.processes.end(first.server)
    second = Machine(env, "two")
    second.is_set_up("two")
    second.file("etc/systemd/system/fwdesk-at-9.timer", TIMER.format("two"))
    second.serve()
    env.fleet(2, "other-{}")
    try:
        polls_by_tls(second, pinned, "dev-00002")
        raise AssertionError("a machine with another certificate is trusted")
    except ssl.SSLCertVerificationError:
        pass
    assert second.gives("restore", folder, "--dry-run").startswith("it can be restored: of ")
    assert second.files() != first.files()
    status, out, said = second.ctl("restore", folder)
    assert status == 0 and out.startswith("restored: of "), said
    assert second.files() == first.files(), "the files aren't those of the backup"
    assert sorted(it.name for it in second.records.iterdir()) == ["desk.db"]
    about = (second.records / "desk.db").stat()
    assert about.st_uid == second.records.stat().st_uid and about.st_mode & 0o777 == 0o600
    calls = second.calls()
    assert calls.index("stop fwdesk.service") < calls.index("start fwdesk.service")
    for it in (
        "daemon-reload",
        "restart fwdesk-at-3.timer",
        "restart fwdesk-quiet.timer",
        "restart haproxy.service",
    ):
        assert it in calls[calls.index("stop fwdesk.service") :], (it, calls)
    second.serve()
    assert records(env) == before
    assert polls_by_tls(second, pinned, "dev-00002") == 200
    (aside,) = (second.root / "var/backups/fwdesk").iterdir()
    second.gives("restore", aside)
    second.serve()
    assert [it["controllerId"] for it in env.get("targets")["content"]] == ["other-1", "other-2"]
    assert "two" in (second.root / "etc/fwdesk/haproxy.d/operators.map").read_text()
    assert (second.root / "etc/systemd/system/fwdesk-at-9.timer").exists()


def restores_onto_nothing(env):
    """restore where nothing is yet, and where the desk is damaged"""
    first = one(env)
    before, folder = records(env), first.gives("backup", env.folder / "backup")
    env.processes.end(first.server)
    second = Machine(env, "two")
    second.gives("restore", folder)
    assert second.files() == first.files()
    server = second.serve
    server()
    assert records(env) == before
    env.processes.end(second.server)
    (second.root / "pid").unlink()
    for it in second.records.iterdir():
        it.write_bytes(b"no desk at all, twice over" * 100)
    second.gives("restore", folder)
    second.serve()
    assert records(env) == before


def restore_refuses(env):
    """restore: a backup that was changed, is none, isn't whole to the program or to HAProxy: nothing is changed; a file
    that can't be put, a service that doesn't stop: what was there is put back"""
    machine = one(env)
    folder = Path(machine.gives("backup", env.folder / "backup"))
    before, kept = records(env), machine.files()

    def altered(name, change, sums=True):
        """A copy of the backup that is altered, with right sums or not."""
        copy = env.folder / name
        shutil.copytree(folder, copy)
        change(copy)
        if sums:
            program = f"import sys; sys.path.insert(0, {str(CLI)!r}); from pathlib import Path\n"
            program += "import json; from fwdesk_ctl import backup_parts as it\n"
            program += f"it.write_manifest(Path({str(copy)!r}), json.load(open({str(copy / 'manifest.json')!r})))"
            subprocess.run([sys.executable, "-c", program], check=True)
        return copy

    def corrupt(copy):
        data = bytearray((copy / "desk.db").read_bytes())
        data[len(data) // 2] ^= 1
        (copy / "desk.db").write_bytes(data)

    def add(name, text):
        def change(copy):
            (copy / "more").write_text(text)
            with tarfile.open(copy / "files.tar", "a") as tar:
                tar.add(copy / "more", name)
            (copy / "more").unlink()

        return change

    def untrue(copy):
        with sqlite3.connect(copy / "desk.db") as link:
            link.execute("update rollout_group set ok = ok + 1")
        link.close()

    broken = add("etc/fwdesk/haproxy.d/90-broken.cfg", "frontend mine\n    nonsense\n")
    for status, why, it in (
        (2, "there is no folder", env.folder / "none"),
        (
            2,
            "is no backup of fwdesk-ctl",
            altered("a", lambda it: (it / "manifest.json").unlink(), False),
        ),
        (1, "its SHA-256 differs", altered("b", corrupt, False)),
        (1, "is missing or isn't", altered("c", lambda it: (it / "files.tar").unlink(), False)),
        (1, "no file of the service", altered("d", add("etc/shadow", "root"))),
        (1, "no file of the service", altered("e", add("etc/fwdesk/../shadow", "root"))),
        (1, "HAProxy refuses the configuration of the backup", altered("f", broken)),
        (1, "fwdesk verify says of", altered("g", untrue)),
    ):
        if it.name == "g":
            machine.verifies()
        machine.refuses(status, why, "restore", it)
        assert machine.files() == kept, why
        assert env.call("GET", "/rest/v1/targets")[0] == 200 or why.startswith("fwdesk verify"), why
    machine.script("fwdesk", SAYS_OK)
    (machine.root / "stubborn").touch()
    machine.refuses(1, "nothing is changed", "restore", folder)
    (machine.root / "stubborn").unlink()
    assert machine.files() == kept and records(env) == before
    # a folder where a file is to be: it can't be put
    other = Machine(env, "two")
    other.file("var/lib/fwdesk-brake/held.map", "brake two\n")
    (other.root / "etc/fwdesk/server.pem/full").mkdir(parents=True)
    (other.root / "etc/fwdesk/server.pem/full/there").write_text("two")
    before = other.files()
    other.refuses(1, "what was there is put back", "restore", folder)
    assert other.files() == before
    assert not list(other.root.rglob("*.restoring"))


def restores_after_a_cut(env):
    """restore, ended in place of each replacing and repeated: all is that of the backup; until then no backup is made of
    what is half"""
    first = one(env)
    before, folder = records(env), first.gives("backup", env.folder / "backup")
    env.processes.end(first.server)
    (env.folder / "ends.py").write_text(ENDS)
    halves = 0
    for at in range(1, 40):
        machine = Machine(env, f"cut-{at}")
        machine.is_set_up("two")
        words = ["restore", folder, "--root", machine.root, "--parts", machine.parts]
        own = {**env.environment, **machine.own}
        ran = subprocess.run(
            [sys.executable, env.folder / "ends.py", str(at), *env.words(*words)],
            env=own,
            capture_output=True,
        )
        assert ran.returncode in (0, 137), ran
        if (machine.root / "var/lib/fwdesk-restoring").exists():
            halves += 1
            machine.refuses(1, "a restore was cut short", "backup", env.folder / "half")
        machine.gives("restore", folder)
        assert machine.files() == first.files(), at
        assert not list(machine.root.rglob("*.restoring"))
        if ran.returncode == 0:
            break
    assert halves > 3, halves
    machine.serve()
    assert records(env) == before


CASES = [backs_up, backup_is_whole, restores_elsewhere, restores_onto_nothing, restore_refuses]
CASES += [restores_after_a_cut]
