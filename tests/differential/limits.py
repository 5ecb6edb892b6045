"""Brings a scenario nearly up to a limit, and then lets it talk there, for tests/differential/fuzz."""
from model import routes
from differential.generator import CANCEL_FEEDBACK, FEEDBACK

MODULES, SETS, ROLLOUTS, TARGETS = (
    f"POST {routes.REST}/{it}"
    for it in ("softwaremodules", "distributionsets", "rollouts", "targets")
)
ARTIFACTS, TAG = f"POST {routes.MODULE}/artifacts", f"POST {routes.TARGET}/tags/{{tag}}"
IMPORT, ATTRIBUTES = f"POST {routes.DESK}/import", f"PUT {routes.DEVICES}/configData"
# how many requests are made at a limit
AT_LIMIT = 60


def up_to(talker, limit):
    """So many numbers, or some fewer."""
    return range(limit - talker.rng.randrange(4))


def module(talker, version):
    return talker.ask(MODULES, [{"name": "m", "type": "t", "version": str(version)}])


def firmware(talker):
    """A set, and a dozen targets at most."""
    return [
        module(talker, 0),
        talker.ask(SETS, [{"name": "r", "version": "1", "modules": [{"id": 1}]}]),
        talker.ask(TARGETS, [talker.row(it) for it in talker.ids[:12]]),
    ]


def rollout(talker, name):
    condition = {"condition": "THRESHOLD", "expression": "100"}
    return talker.ask(
        ROLLOUTS,
        {
            "name": name,
            "distributionSetId": 1,
            "targetFilterQuery": "name==*",
            "amountGroups": 1,
            "successCondition": condition,
            "errorCondition": condition,
        },
    )


def many_modules(talker):
    return [module(talker, it) for it in up_to(talker, 1000)]


def many_sets(talker):
    return [
        talker.ask(SETS, [{"name": "s", "version": str(it), "modules": [{"id": 1}]}])
        for it in up_to(talker, 1000)
    ]


def many_rollouts(talker):
    return [rollout(talker, f"one {it}") for it in up_to(talker, 1000)]


def full_modules(talker, count):
    """So many modules that no set names, each with nearly eight files."""
    found = []
    for it in range(2, count + 2):
        found.append(module(talker, it))
        found += [
            talker.ask(
                f"POST {routes.REST}/softwaremodules/{it}/artifacts?filename=f{file}", b"abc"
            )
            for file in range(talker.rng.choice((7, 8)))
        ]
    return found


def many_targets(talker):
    rows = "".join(f"t{it},t{it},token-{it:05},\n" for it in up_to(talker, 10_000 - 12))
    return [talker.ask(IMPORT, f"controllerid,name,token,tags\n{rows}".encode())]


def many_tags(talker):
    rows = [
        talker.row(it) | {"tags": [f"t{tag}" for tag in up_to(talker, 16)]} for it in talker.ids
    ]
    return [talker.ask(TARGETS, rows)]


def many_attributes(talker):
    return [
        talker.ask(
            f"PUT {routes.DEVICES.format(device=it)}/configData",
            {"data": {f"k{key}": "v" for key in up_to(talker, 32)}},
            it,
        )
        for it in talker.ids
    ]


def many_notes(talker):
    """Notes of both kinds on one action, with numbers and without."""
    steps = (
        f"POST {routes.REST}/rollouts/1/approve",
        f"POST {routes.REST}/rollouts/1/start",
        f"DELETE {routes.REST}/targets/dev-01/actions/1",
    )
    found = [rollout(talker, "r"), *map(talker.ask, steps)]
    return found + talker.said(
        lambda: talker.rng.choice((FEEDBACK, CANCEL_FEEDBACK)) for _ in range(150)
    )


FEW = ("dev-01", "dev-02")
NEW = tuple(f"f{it}" for it in range(24))
# of each limit what goes nearly up to it, the words that a talker then knows, and the calls that it then makes
LIMITS = {
    "modules": (
        many_modules,
        {},
        (MODULES,) * 6 + (SETS, f"GET {routes.REST}/softwaremodules", f"GET {routes.MODULE}"),
    ),
    "tags": (
        many_tags,
        {"ids": FEW, "tags": tuple(f"t{it}" for it in range(30))},
        (TAG,) * 8 + (f"DELETE {routes.TARGET}/tags/{{tag}}", f"GET {routes.TARGET}"),
    ),
    "sets": (many_sets, {}, (SETS,) * 6 + (MODULES, f"GET {routes.REST}/distributionsets")),
    "notes": (
        many_notes,
        {"ids": ("dev-01",), "ending": 0},
        (FEEDBACK, CANCEL_FEEDBACK) * 3 + (f"GET {routes.ACTION}/status",),
    ),
    "rollouts": (
        many_rollouts,
        {},
        (ROLLOUTS,) * 8 + (f"GET {routes.REST}/rollouts", f"POST {routes.ROLLOUT}/deny"),
    ),
    "attributes": (
        many_attributes,
        {"ids": FEW, "keys": tuple(f"k{it}" for it in range(40))},
        (ATTRIBUTES,) * 8 + (f"GET {routes.TARGET}",),
    ),
    "artifacts": (
        lambda talker: full_modules(talker, 34),
        {"files": NEW},
        (ARTIFACTS,) * 6 + (f"GET {routes.MODULE}/artifacts",),
    ),
    "files": (
        lambda talker: full_modules(talker, 2),
        {"files": NEW},
        (ARTIFACTS,) * 8 + (f"GET {routes.MODULE}/artifacts",),
    ),
    "targets": (
        many_targets,
        {"ids": tuple(f"u{it}" for it in range(40))},
        (TARGETS, IMPORT) * 4 + (TAG, f"GET {routes.REST}/targets"),
    ),
}


def talk(talker, limit):
    """Requests up to a limit and around it."""
    fill, words, calls = LIMITS[limit]
    vars(talker).update(words)
    found = firmware(talker) + fill(talker)
    return found + talker.said(lambda: talker.rng.choice(calls) for _ in range(AT_LIMIT))
