"""Gets what tests run with that play devices: Debian's packages, and rauc-hawkbit-updater of its unstable in a folder of
its own. Not run by itself."""
import fcntl
import os
import shutil
import subprocess
from pathlib import Path

from harness.processes import found

# a package of Debian 12 has a program of its name, but for this one
BINDINGS = {"python3-gi": Path("/usr/lib/python3/dist-packages/gi/__init__.py")}
UPDATER = "rauc-hawkbit-updater"
# where apt keeps what it knows of unstable, apart from the system's own
APT = """
Dir::Etc::sourcelist "{workdir}/sources.list";
Dir::Etc::sourceparts "-";
Dir::State "{workdir}/state";
Dir::State::lists "{workdir}/lists";
Dir::State::status "{workdir}/status";
Dir::Cache "{workdir}";
Acquire::Languages "none";
APT::Sandbox::User "root";
"""
UNSTABLE = "deb [signed-by=/usr/share/keyrings/debian-archive-keyring.gpg] http://deb.debian.org/debian unstable main\n"


class Missing(Exception):
    """What couldn't be had."""


def said(words, **how):
    """Runs a command and gives what it says; where it fails, the last line of that is why something is missing."""
    ran = subprocess.run(
        words,
        stdin=subprocess.DEVNULL,
        stdout=subprocess.PIPE,
        stderr=subprocess.STDOUT,
        text=True,
        timeout=600,
        **how,
    )
    if ran.returncode:
        raise Missing(f"{' '.join(words[:3])}: {(ran.stdout.strip() or 'failed').splitlines()[-1]}")
    return ran.stdout


def absent(wanted):
    """The packages of Debian 12 among these that aren't there."""
    return sorted(
        it
        for it in wanted - {UPDATER}
        if not (BINDINGS[it].is_file() if it in BINDINGS else found(it))
    )


def install(wanted):
    """Installs those that are missing."""
    print(f"installing {', '.join(wanted)}", flush=True)
    quiet = {**os.environ, "DEBIAN_FRONTEND": "noninteractive"}
    apt = ["apt-get", "-q", "-y", "-o", "DPkg::Lock::Timeout=300"]
    said([*apt, "update"], env=quiet)
    said([*apt, "install", "--no-install-recommends", *wanted], env=quiet)


def get(wanted, folder):
    """Gets what is missing, and gives what couldn't be had. Tests beside this one wait meanwhile."""
    folder.mkdir(parents=True, exist_ok=True)
    with open(folder / "lock", "w", encoding="ascii") as lock:
        fcntl.flock(lock, fcntl.LOCK_EX)
        return get_alone(wanted, folder)


def get_alone(wanted, folder):
    try:
        if missing := absent(wanted):
            install(missing)
    except (Missing, OSError, subprocess.TimeoutExpired) as error:
        print(f"couldn't be had: {error}", flush=True)
    lacks = set(absent(wanted))
    try:
        if UPDATER in wanted and not (folder / "root").is_dir():
            fetch(folder, folder / "root")
    except (Missing, OSError, subprocess.TimeoutExpired) as error:
        print(f"couldn't be had: {error}", flush=True)
        lacks.add(UPDATER)
    return lacks


def updater(folder):
    """The words that run rauc-hawkbit-updater, with its own loader and libraries."""
    libraries = folder / "root/usr/lib/x86_64-linux-gnu"
    return [
        str(libraries / "ld-linux-x86-64.so.2"),
        "--library-path",
        str(libraries),
        str(folder / "root/usr/bin" / UPDATER),
    ]


def fetch(folder, root):
    """Lets apt-get choose and check the packages, as on a machine that has none yet, and unpacks them."""
    print(f"fetching {UPDATER} and its libraries from Debian's unstable into {folder}", flush=True)
    for it in ("lists/partial", "archives/partial", "state"):
        (folder / it).mkdir(parents=True, exist_ok=True)
    (folder / "status").touch()
    (folder / "sources.list").write_text(UNSTABLE)
    (folder / "apt.conf").write_text(APT.format(workdir=folder))
    ours = {**os.environ, "APT_CONFIG": str(folder / "apt.conf")}
    said(["apt-get", "-q", "update"], env=ours)
    said(
        ["apt-get", "-q", "-y", "install", "--download-only", "--no-install-recommends", UPDATER],
        env=ours,
    )
    unpacked = folder / "unpacking"
    shutil.rmtree(unpacked, ignore_errors=True)
    for it in sorted((folder / "archives").glob("*.deb")):
        said(["dpkg-deb", "-x", str(it), str(unpacked)])
    unpacked.rename(root)


def pack_image(members):
    """An archive in the form newc of cpio, without the program."""
    made = b""
    for number, (name, held) in enumerate([*members, ("TRAILER!!!", b"")], 1):
        fields = [number, 0o100644, 0, 0, 1, 0, len(held), 0, 0, 0, 0, len(name) + 1, 0]
        for part in (
            b"070701" + b"".join(b"%08X" % it for it in fields) + name.encode() + b"\0",
            held,
        ):
            made += part + b"\0" * (-len(part) % 4)
    return made
