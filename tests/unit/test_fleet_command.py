"""Tests of fwdesk-fleet's command line: its verbs in both words, what the proxies start with, and what it refuses."""
import contextlib
import io
import subprocess
import sys
import tempfile
from pathlib import Path

from as_module import as_module
from fwdesk_fleet import commands, places, proxies, units
from fwdesk_fleet.fleets import Fleet

ROOT = Path(__file__).resolve().parents[2]

SCRIPT = ROOT / "cli/fwdesk-fleet"


@contextlib.contextmanager
def made_machine():
    """A machine without HAProxy and systemd, with one fleet."""
    with tempfile.TemporaryDirectory() as folder:
        kept = vars(places).copy(), units.systemctl
        for name in ("FLEETS", "PROXIES", "RECORDS", "PROGRAMS", "WANTED"):
            setattr(places, name, Path(folder) / name)
            getattr(places, name).mkdir()
        places.EDGE = places.DESKS = places.EDGE_MASTER = f"{folder}/none.sock"
        calls = []
        units.systemctl = lambda *words: calls.append(words) or (True, "")
        Fleet("acme", 20001, ["acme.example"], ["acme-"], ["anna"]).write()
        try:
            yield Path(folder), calls
        finally:
            vars(places).update(kept[0])
            units.systemctl = kept[1]


def run(*words):
    """The status and what is said."""
    said, argv = io.StringIO(), sys.argv
    sys.argv = ["fwdesk-fleet", *words]
    try:
        with contextlib.redirect_stderr(said), contextlib.redirect_stdout(said):
            asked = commands.read_command_line()
            commands.carry_out(asked)
    except Exception as why:
        return f"{type(why).__name__}: {why}"
    finally:
        sys.argv = argv
    return said.getvalue()


def test_verbs_have_the_fields_words_too():
    with made_machine():
        for one, other in (("lead", "route"), ("unlead", "unroute")):
            assert run(other, "acme", "--host", f"{one}.example") == ""
        assert Fleet.read(places.FLEETS / "acme.conf").hosts == ["acme.example", "lead.example"]
        assert run("grant", "acme", "ben:look,approve") == run("grant", "acme", "eva") == ""
        assert run("revoke", "acme", "eva") == run("apply", "--files") == ""
        assert Fleet.read(places.FLEETS / "acme.conf").operators == ["anna", "ben:look,approve"]
        assert (places.PROXIES / "operators.map").read_text().splitlines() == [
            "anna@acme look,steer,approve,hold",
            "ben@acme look,approve",
        ]


def test_help_and_page_tell_the_fields_words():
    told = subprocess.run([SCRIPT, "--help"], capture_output=True, text=True, check=True).stdout
    page = (ROOT / "cli/fwdesk-fleet.8").read_text()
    for word in ("route", "unroute", "grant", "revoke", "apply"):
        assert word in told and f"\\fB{word}\\fP" in page, word


def test_what_the_proxies_start_with():
    with made_machine() as (folder, _):
        fleets = [Fleet("acme", 20001, ["a.example"], ["a-"], ["anna"]), Fleet("b", 20002)]
        proxies.write_files(fleets, folder / "maps")
        told = {it.name: it.read_text() for it in (folder / "maps").iterdir()}
        assert told["names.map"] == "acme acme\nb b\n" and told["hosts.map"] == "a.example acme\n"
        assert told["lists.map"] == 'anna "acme"\n' and told["firsts.map"] == "anna acme\n"
        assert "    server b 127.0.0.1:20002\n" in told["servers.cfg"]
        # as tests/harness/proxies.py takes it
        script = as_module(SCRIPT)
        script.PROXIES = folder / "others"
        script.write_proxies([script.Fleet("acme", 20001, operators=["anna"])])
        assert (folder / "others/firsts.map").read_text() == "anna acme\n"


def test_what_is_refused_changes_nothing():
    with made_machine() as (folder, _):
        before = (places.FLEETS / "acme.conf").read_text()
        for words, why in (
            (("lead", "none", "--host", "x"), "there is no fleet none"),
            (("lead", "acme", "--host", "X Y"), "invalid host name"),
            (("allow", "acme", "ben:dance"), "invalid operator's name"),
            (("add", "Acme"), "invalid name of a fleet"),
            (("add", "acme"), "acme is there already"),
        ):
            assert why in run(*words), (words, run(*words))
        assert (places.FLEETS / "acme.conf").read_text() == before
        assert [it.name for it in places.FLEETS.glob("*.conf")] == ["acme.conf"]
