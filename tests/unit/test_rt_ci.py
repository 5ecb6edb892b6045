"""Tests of `tools/proof/rt-ci`: in which order it has `rt ci` prove crates, and by how many processors each."""
import os
import subprocess
import tempfile
import threading
from pathlib import Path

from as_module import as_module
from harness import ROOT
from harness.asserting import same

RT_CI = as_module(ROOT / "tools/proof/rt-ci")
ROOM = 100.0


def run_lanes(below, works, lanes=4, memory=ROOM, needs=1.0, ended=lambda *told: None):
    """Runs a task for each name, behind those below it. Answers the names as they began, each with its processors, what
    was given, and the most processors that were taken at once."""
    begun, taken, most, lock = [], {}, [0], threading.Lock()
    both = threading.Barrier(2, timeout=20)

    def call(name):
        def task(given, jobs):
            assert all(it in given for it in below[name])
            with lock:
                begun.append((name, jobs))
                taken[name] = jobs if works[name] else 0
                most[0] = max(most[0], sum(taken.values()))
            if name.startswith("pair"):
                both.wait()
            with lock:
                taken[name] = 0
            return name != "fails"

        return task

    tasks = {it: (below[it], works[it], needs, call(it)) for it in below}
    given = RT_CI.Lanes(tasks, lanes, memory, ended).run()
    return begun, given, most[0]


def test_each_comes_behind_those_that_it_waits_for():
    below = {"low": [], "middle": ["low"], "high": ["middle", "low"]}
    begun, given, _ = run_lanes(below, dict.fromkeys(below, 1))
    same([name for name, _ in begun], ["low", "middle", "high"])
    same(given, dict.fromkeys(below, True))


def test_one_that_all_wait_for_has_all_processors():
    below = {"low": [], "high": ["low"]}
    begun, _, _ = run_lanes(below, dict.fromkeys(below, 1))
    same(begun, [("low", 4), ("high", 4)])


def test_two_that_could_begin_have_half_each():
    below = {"pair one": [], "pair two": [], "third": []}
    begun, _, most = run_lanes(below, {"pair one": 3, "pair two": 2, "third": 1})
    same(sorted(begun)[:2], [("pair one", 2), ("pair two", 2)])
    same(([name for name, _ in begun][-1], most), ("third", 4))


def test_one_without_work_takes_no_processor():
    below = {"proof": [], "tests of none": [], "above": ["proof", "tests of none"]}
    begun, given, _ = run_lanes(below, {"proof": 1, "tests of none": 0, "above": 1})
    same(dict(begun), {"tests of none": 1, "proof": 4, "above": 4})
    same(given["tests of none"], True)


def test_the_longest_chain_begins_first():
    below = {"alone": [], "low": [], "high": ["low"]}
    begun, _, _ = run_lanes(below, {"alone": 5, "low": 1, "high": 9}, lanes=1)
    same([name for name, _ in begun], ["low", "high", "alone"])


def test_those_beside_the_longest_chain_step_back():
    own, found = os.nice(0), {}

    def call(name):
        def task(given, jobs):
            # of a thread, and so of what it starts
            found[name] = int(subprocess.check_output(["nice"])) - own
            return True

        return task

    works, below = {"low": 2, "side": 5, "high": 9}, {"low": [], "side": [], "high": ["low"]}
    tasks = {it: (below[it], works[it], 1.0, call(it)) for it in below}
    RT_CI.Lanes(tasks, 4, ROOM, lambda *told: None).run()
    # (19 is the nicest there is)
    same(found, {"low": 0, "side": min(RT_CI.NICER, 19 - own), "high": 0})
    same(os.nice(0), own)


def test_memory_for_one_process_is_one_job():
    below = {"low": [], "side": []}
    begun, _, most = run_lanes(below, dict.fromkeys(below, 1), memory=1.5, needs=1.0)
    same((sorted(begun), most), ([("low", 1), ("side", 1)], 1))


def test_one_larger_than_the_memory_is_tried_alone():
    begun, _, _ = run_lanes({"large": []}, {"large": 1}, memory=1.0, needs=5.0)
    same(begun, [("large", 1)])


def test_what_failed_is_given_to_those_above():
    below = {"fails": [], "above": ["fails"]}
    told = []
    _, given, _ = run_lanes(
        below, dict.fromkeys(below, 1), ended=lambda key, it, *_: told.append((key, it))
    )
    same(given, {"fails": False, "above": True})
    same(told, [("fails", False), ("above", True)])


def test_processors_and_seconds_are_told():
    told = []
    run_lanes({"low": []}, {"low": 1}, lanes=3, ended=lambda *it: told.append(it))
    [(key, is_proved, took, jobs)] = told
    same((key, is_proved, jobs), ("low", True, 3))
    assert 0 <= took < 20


def test_a_failure_of_what_is_told_is_raised():
    def ended(*told):
        raise OSError("the disk is full")

    try:
        run_lanes({"low": []}, {"low": 1}, ended=ended)
    except OSError as error:
        same(str(error), "the disk is full")
    else:
        raise AssertionError("nothing was raised")


def make_library(folder, text, whole=True):
    made = folder / "crates/low/out/rlib/low.rlib"
    made.mkdir(parents=True)
    (made / "statements").write_text(text)
    if whole:
        (made / "format").write_text(text)


def hand_over(root, copy):
    """Hands the library over. Answers what it is in the copy."""
    RT_CI.ROOT = root
    RT_CI.hand_over("low", copy)
    there = copy / "crates/low/out/rlib/low.rlib/statements"
    return there.read_text() if there.is_file() else "none"


def test_a_library_comes_whole_or_not_at_all():
    with tempfile.TemporaryDirectory() as folder:
        make_library(Path(folder, "whole"), "proved")
        same(hand_over(Path(folder, "whole"), Path(folder, "copy")), "proved")
        make_library(Path(folder, "begun"), "half", whole=False)
        same(hand_over(Path(folder, "begun"), Path(folder, "other")), "none")


def test_a_part_of_a_library_is_replaced_and_a_whole_one_stays():
    with tempfile.TemporaryDirectory() as folder:
        make_library(Path(folder, "root"), "proved")
        make_library(Path(folder, "part"), "half", whole=False)
        make_library(Path(folder, "there"), "taken before")
        same(hand_over(Path(folder, "root"), Path(folder, "part")), "proved")
        same(hand_over(Path(folder, "root"), Path(folder, "there")), "taken before")
