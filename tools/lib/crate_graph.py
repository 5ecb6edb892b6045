"""What crates.txt says: the crates of the repository, lowest first, each with those that it uses. For other tools;
not run by itself."""
from pathlib import Path

ROOT = Path(__file__).resolve().parents[2]


def listed(text):
    """The crates that a list names, in its order, each with all that it uses, the kit's crates too."""
    lines = [it.partition("#")[0] for it in text.splitlines()]
    return {
        head.split()[0]: tail.split()
        for head, colon, tail in (it.partition(":") for it in lines)
        if colon
    }


def uses():
    """The crates of the repository, lowest first, each with those of the repository that it uses."""
    found = listed((ROOT / "crates.txt").read_text(encoding="utf-8"))
    return {name: [it for it in below if it in found] for name, below in found.items()}
