"""Mutants of the model for tests/differential/fuzz: each is a few edits of `model/`, and has to be found by a scenario.

Each part of tests/mutation/model_mutants.edits names a model and a file, and has the lines there and those in their place. A name
that comes again edits once more. tests/mutation/model_mutants.seeds says which scenario finds each."""
import importlib
import os
import shutil
import sys
import tempfile
import time
from pathlib import Path

from harness import ROOT
from harness.processes import pool_of
from differential import legacy_files

EDITS, SEEDS = (
    ROOT / "tests/mutation/model_mutants.edits",
    ROOT / "tests/mutation/model_mutants.seeds",
)
BASE = "/dev/shm" if os.path.isdir("/dev/shm") else None
# of each model the scenarios that it is run over; the processes that do so have them from here
REPLAYED = {}


def edits(path):
    """Of each mutant of the model its name, the file that it changes, and the lines there and in their place."""
    for part in path.read_text(encoding="utf-8").split("\n\n")[1:]:
        first, *lines = part.rstrip("\n").split("\n")
        old, new = ("".join(f"{it[1:]}\n" for it in lines if it.startswith(sign)) for sign in "-+")
        yield *first.split(), old, new


def write_all(workdir, path=EDITS):
    """Writes each mutant of the model as a package below a folder, and gives their names."""
    names = []
    # each reads the tables there
    shutil.copytree(ROOT / "docs/reference", Path(workdir) / "docs/reference")
    for name, file, old, new in edits(path):
        folder = Path(workdir) / f"wrong_{name}"
        if name not in names:
            shutil.copytree(
                ROOT / "model", folder, ignore=shutil.ignore_patterns("__pycache__", "test_*")
            )
        text = (folder / file).read_text(encoding="utf-8")
        if text.count(old) != 1:
            raise ValueError(f"{name}: its lines stand in {text.count(old)} places of {file}")
        (folder / file).write_text(text.replace(old, new), encoding="utf-8")
        names.append(name)
    return list(dict.fromkeys(names))


def seeds():
    return {name: int(seed) for name, seed in map(str.split, SEEDS.read_text().splitlines())}


def write_seeds(found):
    SEEDS.write_text(
        "".join(f"{name} {seed}\n" for name, seed in sorted(found.items()) if seed is not None)
    )


def replay(package, talk):
    """Whether another model answers something else than was answered, and how many replies were compared."""
    theirs = importlib.import_module(f"{package}.run")
    their_machine = importlib.import_module(f"{package}.machine")
    h, compared = their_machine.made(talk.approval), 0
    if talk.old:
        h, _, _ = theirs.run(h, b"".join(legacy_files.REQUESTS[talk.old]()), "both")
    for part in talk.parts:
        for stream, got in zip(part.streams, part.got):
            h, turns, _ = theirs.run(
                h, b"".join(stream), part.words[part.words.index("--interface") + 1]
            )
            compared += len(turns)
            if b"".join(it.reply for it in turns) != got:
                return True, compared
    return False, compared


def find(name):
    """The seed of the scenario by which a mutant of the model is found, or None; how many replies it took, and seconds."""
    replies, began, said = 0, time.monotonic(), 0
    for talk in REPLAYED[name]:
        try:
            differs, compared = replay(f"wrong_{name}", talk)
        except Exception:
            differs, compared = True, 0
        replies, said = replies + compared, talk.seconds
        if differs:
            return name, talk.seed, replies, said + time.monotonic() - began
    return name, None, replies, said + time.monotonic() - began


def find_all(jobs, begin, talks_of, some=None):
    """Plays mutants of the model, all or these, over their scenarios, and tells by which each is found, or None."""
    with tempfile.TemporaryDirectory(dir=BASE) as workdir:
        names = [it for it in write_all(workdir) if not some or it in some]
        sys.path.insert(0, workdir)
        REPLAYED.update((it, talks_of(it)) for it in names)
        with pool_of(jobs, begin) as pool:
            found = list(pool.imap_unordered(find, names))
    for name, seed, replies, seconds in sorted(found, key=lambda it: it[3]):
        told = f"seed {seed}" if seed is not None else "NOT FOUND"
        print(f"{name:45} {told}, {replies} replies, {seconds:.1f} s")
    missed = [name for name, seed, _, _ in found if seed is None]
    print(f"{len(found) - len(missed)} passed, {len(missed)} failed")
    return {name: seed for name, seed, _, _ in found}
