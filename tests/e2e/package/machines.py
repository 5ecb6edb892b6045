"""The packages and the Debian that the tests of this folder share. Not run by itself."""
import os
import shutil
import subprocess
import sys
from pathlib import Path

ROOT = Path(__file__).resolve().parents[3]
sys.dont_write_bytecode = True
from as_module import as_module
from harness.debian_machine import ROOT as DEBIAN
from harness.debian_machine import WITHIN, Debian, make_root

PROGRAM = Path(os.environ.get("FWDESK_PROGRAM") or ROOT / "crates/fwdesk/out/fwdesk")
NAME = "desk.example"
# the Debian that has more: certbot, an ACME server for it, and autopkgtest
MORE = DEBIAN.with_name("fwdesk-debian-more")
package = as_module(ROOT / "tools/package")


def said(*words: object, folder: Path = ROOT) -> str:
    ran = subprocess.run([str(it) for it in words], cwd=folder, check=True, stdout=subprocess.PIPE)
    return ran.stdout.decode().strip()


def earlier_package(folder: Path) -> Path:
    """The package of 1.0.0, made by the last commit that changed the configuration which was copied by hand then;
    FWDESK_EARLIER names one that is there."""
    if there := os.environ.get("FWDESK_EARLIER"):
        return Path(shutil.copy(there, folder))
    # (the newest one took it away)
    found = said("git", "rev-list", "-2", "HEAD", "--", "docs/operating/haproxy.cfg").split()
    source = folder / "source"
    said("git", "worktree", "add", "--detach", source, found[1])
    try:
        words = ["--program", PROGRAM.resolve(), "--version", "1.0.0-1", "--out", folder]
        said(source / "tools/package", *words, folder=source)
    finally:
        said("git", "worktree", "remove", "--force", source)
    return folder / f"fwdesk_1.0.0-1_{said('dpkg', '--print-architecture')}.deb"


def repacked(deb: Path, folder: Path, version: str, change) -> Path:
    """A package as another version, whose tree `change` has changed."""
    tree = folder / "tree"
    shutil.rmtree(tree, ignore_errors=True)
    said("dpkg-deb", "-R", deb, tree)
    control = tree / "DEBIAN/control"
    lines = control.read_text().splitlines()
    lines = [f"Version: {version}" if it.startswith("Version: ") else it for it in lines]
    control.write_text("\n".join(lines) + "\n")
    change(tree)
    made = folder / f"fwdesk_{version}.deb"
    said("dpkg-deb", "--root-owner-group", "-Zgzip", "-z1", "-b", tree, made)
    shutil.rmtree(tree)
    return made


class Packages:
    """Those that the tests install: of before, of now, with another page, and with parts that HAProxy doesn't take."""

    def __init__(self, folder: Path):
        self.folder = folder
        self.now, self.device, self.hawkbit = package.make(PROGRAM, folder, "1.0.1-1", quick=True)
        self.earlier = earlier_package(folder)
        self.other_page = self.made("1.0.2-1", change_page)
        self.broken = self.made("1.0.3-1", break_parts)

    def made(self, version: str, change) -> Path:
        return repacked(self.now, self.folder, version, change)


def change_page(tree: Path) -> None:
    """A page that has a file less and a file more, and another stage before the desk."""
    page = tree / "usr/share/fwdesk/page"
    (page / "tags.js").unlink()
    (page / "later.js").write_text("// of the other page\n")
    parts = tree / "usr/share/fwdesk/haproxy"
    web = said("python3", ROOT / "tools/web-config", page, "/usr/share/fwdesk/page")
    (parts / "edge/50-web.cfg").write_text(web + "\n")
    with open(parts / "desks/10-desks.cfg", "a") as file:
        file.write("# of the other version\n")


def break_parts(tree: Path) -> None:
    with open(tree / "usr/share/fwdesk/haproxy/edge/10-global.cfg", "a") as file:
        file.write("    unheard of\n")


def make_root_with_more() -> Path:
    make_root(
        MORE, f"{WITHIN},certbot,pebble,ca-certificates,python3-cffi-backend,autopkgtest,dpkg-dev"
    )
    return MORE


class Server(Debian):
    """The machine of a server, with what its tests ask."""

    ASK = f"curl -sS --max-time 30 --cacert /etc/fwdesk/ca.crt --connect-to {NAME}:8443:127.0.0.1:8443"

    def install(self, deb: Path) -> str:
        """Installs a package, as apt does; what it says."""
        return self.gives(f"dpkg -i /media/{deb.name} 2>&1")

    def sets_up(self, words: str = NAME) -> str:
        """Sets the proxy up, and gives the first operator's password."""
        told = self.gives(f"fwdesk-setup {words}")
        return next((it.split()[3] for it in told.splitlines() if it.startswith("login ")), "")

    def status(self, path: str, login: str = "", more: str = "") -> str:
        """The status of a call through TLS, with the name checked."""
        user = f"-u {login}" if login else ""
        line = (
            f"{self.ASK} {user} {more} -o /dev/null -w '%{{http_code}}' https://{NAME}:8443{path}"
        )
        return self.does(line)[1]

    def text(self, path: str, login: str) -> str:
        return self.gives(f"{self.ASK} -u {login} https://{NAME}:8443{path}")

    def serves(self, login: str) -> None:
        """Devices and operators get through."""
        seen = lambda: (
            self.status("/rest/v1/targets", login),
            self.status("/page/", login),
            self.status(
                "/DEFAULT/controller/v1/nobody", more="-H 'Authorization: TargetToken nobody-0'"
            ),
        )
        assert self.until(lambda: seen() == ("200", "200", "401"), 60), seen()

    def processes(self) -> str:
        """The main processes of both stages: others, once they were started anew."""
        return self.gives("systemctl show -p MainPID --value haproxy haproxy-desks")
