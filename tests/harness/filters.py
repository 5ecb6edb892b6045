"""Filters of targets by chance, and targets that are hard for them: for tests that compare who matches. Not run by itself."""
import random
import re
from dataclasses import dataclass

from differential import malformed

TARGETS, SEED = 48, 20261130
BARE = re.compile(r"[A-Za-z0-9._*-]+")
IDS = ("a", "A", "aa", "aba", "abab", "a.b", "a-b", "a_b", "dev-1", "dev-10", "DEV-1", "i" * 64)
# what a filter is made of, what Unicode writes in two ways, and what a piece may overlap
NAMES = (
    *(
        "*",
        "**",
        "a*b",
        "name==*",
        "tag==a;tag==b",
        "(a)",
        "a,b",
        "'",
        '"',
        'a"b',
        "\\",
        "a\\*",
        "%2A",
        "+",
    ),
    *(
        " ",
        " a ",
        "a b",
        "é",
        "e\u0301",
        "ß",
        "ss",
        "İ",
        "🚀",
        "\u202e",
        "\u2028",
        "\u00a0",
        "é" * 64,
    ),
    *("a", "aa", "aaa", "ab", "aba", "abaaba", "ababa", "n" * 128, "aab" * 42, "0", "None", "-"),
)
TAGS = ("lab", "Lab", "la", "lab2", "b", "a.b", "-", "_", "t" * 64, "aab" * 21)
KEYS = ("os", "OS", "o", "os.x", "k" * 64, "name", "tag")
VALUES = ("", "*", "linux", "Linux", "1.0", "a b", '"', "é", "v" * 128, "aba")


@dataclass(frozen=True)
class Target:
    controller: str
    name: str
    tags: tuple[str, ...]
    attributes: dict[str, str]


def hostile_targets(rng: random.Random) -> list[Target]:
    """Of each name one, and more of some."""
    ids = [*IDS, *(f"d{k}" for k in range(TARGETS - len(IDS)))]
    names = [*NAMES, *rng.choices(NAMES, k=TARGETS)][:TARGETS]
    return [
        Target(
            controller,
            name,
            tuple(rng.sample(TAGS, rng.choice((0, 0, 1, 2, len(TAGS))))),
            {it: rng.choice(VALUES) for it in rng.sample(KEYS, rng.choice((0, 1, 2, len(KEYS))))},
        )
        for controller, name in zip(ids, names)
    ]


def pattern_of(rng: random.Random, text: str) -> str:
    """A pattern that often matches: some pieces of the text left out for stars, or one that is there twice."""
    for _ in range(rng.choice((0, 0, 1, 1, 2, 3))):
        at = rng.randrange(len(text) + 1)
        end = min(len(text), at + rng.choice((0, 0, 1, 2, 5)))
        again = text[max(0, at - 1) : at] if rng.random() < 0.2 else ""
        text = f"{text[:at]}*{again}{text[end:]}"
    return text.swapcase() if rng.random() < 0.05 else text


def comparison(rng: random.Random, targets: list[Target]) -> str:
    target = rng.choice(targets)
    key = rng.choice(KEYS)
    found = rng.choice(
        (
            ("controllerid", target.controller),
            ("name", target.name),
            ("name", rng.choice(NAMES)),
            ("tag", rng.choice(target.tags or TAGS)),
            (f"attribute.{key}", target.attributes.get(key, "*")),
        )
    )
    value = pattern_of(rng, found[1]).replace('"', rng.choice(("", "*")))
    if not BARE.fullmatch(value) or rng.random() < 0.2:
        value = f'"{value}"'
    return f"{found[0]}{rng.choice(('==', '==', '!='))}{value}"


def a_filter(rng: random.Random, targets: list[Target], depth: int = 0) -> str:
    parts = []
    for _ in range(rng.choice((1, 1, 2, 3))):
        is_inner = depth < 3 and rng.random() < 0.25
        parts.append(
            f"({a_filter(rng, targets, depth + 1)})" if is_inner else comparison(rng, targets)
        )
    return "".join(it + rng.choice(";,") for it in parts)[:-1]


def texts(rng: random.Random, targets: list[Target], count: int) -> list[str]:
    """So many, of which each fourth is changed so that it mostly is none any more."""
    found = [a_filter(rng, targets) for _ in range(count)]
    return [malformed.mutated_filter(rng, it) if k % 4 == 3 else it for k, it in enumerate(found)]


def sample(count: int) -> tuple[list[Target], list[str]]:
    """Targets and texts that are the same in each run."""
    rng = random.Random(SEED)
    targets = hostile_targets(rng)
    return targets, texts(rng, targets, count)
