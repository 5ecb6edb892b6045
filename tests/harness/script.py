"""The command line and the count of a script that runs checks by their names. Not run by itself."""
import argparse
import sys
import time
from collections.abc import Callable
from pathlib import Path

from harness import ROOT


def make_parser(about: str) -> argparse.ArgumentParser:
    """A command line with names, --program and --list."""
    parser = argparse.ArgumentParser(
        description=about, formatter_class=argparse.RawDescriptionHelpFormatter
    )
    parser.add_argument("names", nargs="*", metavar="NAME", help="these checks alone")
    parser.add_argument("--program", type=Path, default=ROOT / "crates/fwdesk/out/fwdesk")
    parser.add_argument("--list", action="store_true", help="prints the names of the checks")
    return parser


def choose(names: list[str], checks: list[str]) -> list[str]:
    """The checks that these names are of, or all. A check 'FRONT/WHAT' is one of FRONT, and one of WHAT."""
    if unknown := [it for it in names if not any(it in (of, *of.split("/")) for of in checks)]:
        sys.exit(f"there is no check {unknown[0]}: there are {', '.join(checks)}")
    return [of for of in checks if not names or any(it in (of, *of.split("/")) for it in names)]


def run(checks: dict[str, Callable[[], str | None]], order: argparse.Namespace) -> int:
    """Runs those that are asked for, each of which answers why it fails, or nothing; tells each, and gives the status."""
    if order.list:
        print(*checks, sep="\n")
        return 0
    if not order.program.is_file():
        sys.exit(f"there is no program {order.program}: tools/build makes it")
    passed = failed = 0
    for name in choose(order.names, list(checks)):
        began = time.monotonic()
        why = checks[name]()
        passed, failed = passed + (not why), failed + bool(why)
        took = time.monotonic() - began
        print(f"FAILED {name}: {why}" if why else f"passed {name}, {took:.1f} s", flush=True)
    print(f"{passed} passed, {failed} failed")
    return 1 if failed or not passed else 0
