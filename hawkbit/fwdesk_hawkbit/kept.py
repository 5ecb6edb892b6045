"""The few things that a pipeline makes by hawkBit's calls and that the desk has no room for.

Nothing of a device, an image or an action is among them. With the file are lost the names of tags that nobody has, and
which modules, sets, artifacts and rollouts are hidden."""

import contextlib
import json
import os
from pathlib import Path
from typing import Any


class Kept:
    """Names of tags, and what is hidden, in a file that is there whole or not at all."""

    def __init__(self, folder: Path | None) -> None:
        self.folder = folder
        self.path = None if folder is None else folder / "manage.json"
        self.tags: set[str] = set()
        self.hidden: set[tuple[str, int]] = set()
        if self.path is not None and self.path.exists():
            held: dict[str, Any] = json.loads(self.path.read_text(encoding="utf-8"))
            self.tags = set(held["tags"])
            self.hidden = {(kind, number) for kind, number in held["hidden"]}

    def of(self, fleet: str) -> "Kept":
        """What one of many fleets keeps, in a folder of its own that is made when there is something."""
        return Kept(self.folder and self.folder / "fleets" / fleet)

    def write(self) -> None:
        """Durable when this is over."""
        if self.path is None:
            return
        self.path.parent.mkdir(parents=True, exist_ok=True)
        beside = self.path.with_name(f".{self.path.name}.{os.getpid()}.new")
        with open(beside, "w", encoding="utf-8") as file:
            json.dump({"tags": sorted(self.tags), "hidden": sorted(self.hidden)}, file)
            file.flush()
            os.fsync(file.fileno())
        beside.replace(self.path)
        with contextlib.suppress(OSError):
            folder = os.open(self.path.parent, os.O_RDONLY)
            os.fsync(folder)
            os.close(folder)

    def add_tags(self, names: set[str]) -> None:
        self.tags |= names
        self.write()

    def drop_tag(self, name: str) -> None:
        self.tags.discard(name)
        self.write()

    def hide(self, kind: str, number: int) -> None:
        self.hidden.add((kind, number))
        self.write()

    def hides(self, kind: str, number: int) -> bool:
        return (kind, number) in self.hidden
