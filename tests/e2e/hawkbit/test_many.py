"""Many targets at once: one command, one rollout, and several who ask for the same."""

import concurrent.futures

import pytest

from . import test_manage
from .test_manage import is_error

# what the fixture `env` makes
Environment = test_manage.Environment


def test_an_assignment_of_thirty(env):
    """So many that a tag on each stands for their names."""
    bundle, ids = env.bundle(), env.targets(30)
    told = env.assign(bundle, *ids)
    assert told["assigned"] == 30 and len(told["assignedActions"]) == 30
    (plan,) = env.rollouts_of(bundle)
    assert plan["totalTargets"] == 30
    assert env.desk.ask("GET", "/targets?q=tag==hb.*")["total"] == 0
    assert env.assign(bundle, *ids)["alreadyAssigned"] == 30


@pytest.mark.parametrize("gateways", [1, 2])
def test_four_equal_assignments_at_once_make_one_rollout(env, gateways):
    doors = [env.gateway, env.hiding][:gateways]
    for count in (1, 12):
        # the names of twelve are too long for a filter: a tag stands for them
        bundle, ids = env.bundle(), env.targets(count, f"{env.name()}-{'x' * 40}")
        with concurrent.futures.ThreadPoolExecutor(4) as pool:
            jobs = [
                pool.submit(env.assign, bundle, *ids, gateway=doors[it % gateways])
                for it in range(4)
            ]
            told = [it.result() for it in jobs]
        assert all(it["assigned"] + it["alreadyAssigned"] == count for it in told), told
        (plan,) = env.rollouts_of(bundle)
        assert (plan["totalTargets"], plan["status"]) == (count, "running")
        assert all(len(env.desk.actions(it)) == 1 for it in ids)
        assert env.desk.ask("GET", "/targets?q=tag==hb.*")["total"] == 0


def test_110_targets_are_one_command(env):
    ids = env.targets(110)
    assert env.made("GET", f"targets?q=controllerId=={ids[0][:-2]}-*&limit=500")["total"] == 110
    is_error(
        env("POST", "targets", [{"controllerId": it} for it in ids]),
        409,
        "EntityAlreadyExistsException",
    )
    twice = [{"controllerId": "twice"}] * 2
    is_error(env("POST", "targets", twice), 409, "EntityAlreadyExistsException")
