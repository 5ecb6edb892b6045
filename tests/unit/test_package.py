"""Tests of the version that tools/package gives, as VERSION says it: V-1 of a release,
and before one V with its commit's time."""
import os
import subprocess
import tempfile
from pathlib import Path

from as_module import as_module
from crate_graph import ROOT
from harness.asserting import same, written

package = as_module(ROOT / "tools/package")
# 2026-11-27, 20:00
SECONDS = 1795809600


def stated(version):
    return package.stated(version, SECONDS)


def test_a_release_and_what_comes_before_it():
    same(stated("1.0.0"), "1.0.0-1")
    same(stated("1.0.0~pre"), "1.0.0~pre+20261127.2000")


def test_their_order_is_dpkgs():
    rising = [
        "1.0.0~pre+20261127.1900",
        stated("1.0.0~pre"),
        stated("1.0.0"),
        "1.0.0-2",
        stated("1.0.1~pre"),
        stated("1.0.1"),
    ]
    if os.path.exists("/usr/bin/dpkg"):
        for one, other in zip(rising, rising[1:]):
            same(subprocess.run(["dpkg", "--compare-versions", one, "lt", other]).returncode, 0)


def test_a_changelog_gets_another_version():
    text = "fwdesk (1.0.0-1) unstable; urgency=medium\n\n  * It has fwdesk (1.0.0-1).\n"
    with written(changelog_txt=text) as workdir:
        package.set_version(workdir / "changelog.txt", "1.0.1-1")
        same(
            (workdir / "changelog.txt").read_text(),
            "fwdesk (1.0.1-1) unstable; urgency=medium\n\n  * It has fwdesk (1.0.0-1).\n",
        )


def test_an_upgrade_leaves_no_link_to_a_unit_that_the_console_replaces():
    """postinst as dpkg runs it in another root, where no systemd is asked."""
    gone = ["fwdesk-notify.timer", "fwdesk-watch.timer", "fwdesk-metrics.timer"]
    kept = ["fwdesk-backup.timer", "fwdesk-notify-own.timer"]

    def upgraded(root, *before):
        wants = Path(root) / "etc/systemd/system/timers.target.wants"
        wants.mkdir(parents=True)
        for it in (*gone, *kept):
            (wants / it).symlink_to(f"/lib/systemd/system/{it}")
        words = ["sh", ROOT / "debian/fwdesk.postinst", "configure", *before]
        subprocess.run(words, env=os.environ | {"DPKG_ROOT": root}, check=True)
        return sorted(it.name for it in wants.iterdir())

    befores = {"1.0.0~pre+20261127.2000": kept, "1.0.0-1": kept, "1.0.1-1": sorted(gone + kept)}
    for before, expected in befores.items() if os.path.exists("/usr/bin/dpkg") else ():
        with tempfile.TemporaryDirectory() as root:
            same(upgraded(root, before), expected)
    same(len([it for it in gone if (ROOT / "deploy/systemd" / it).exists()]), 0)
