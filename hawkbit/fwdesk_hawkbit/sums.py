"""Sums of artifacts, counted once and kept by digest, and the images that lie with the proxy.

The desk tells the SHA-256 of an artifact alone. Of an image that is larger than it takes, it has a stub of 65 bytes:
the image's SHA-256 in 64 digits and a line feed. The image itself lies in the proxy's folder, by the artifact's name."""

import asyncio
import contextlib
import hashlib
import json
import os
import re
from collections.abc import AsyncIterator, Awaitable, Callable, Iterable, Iterator
from dataclasses import asdict, dataclass
from pathlib import Path
from typing import Any, BinaryIO

from fwdesk_hawkbit.faults import Fault

KINDS = ("md5", "sha1", "sha256")
# the greatest artifact that the desk itself takes, in bytes
LARGEST = 4_194_304
STUB = re.compile(rb"[0-9a-f]{64}\n")
STUB_SIZE = 65
PIECE = 1 << 20


@dataclass(frozen=True)
class Sums:
    """The sums of some bytes, in hexadecimal digits, and how many they are."""

    md5: str
    sha1: str
    sha256: str
    size: int

    @property
    def hashes(self) -> dict[str, str]:
        """In the order in which hawkBit tells them."""
        return {"sha1": self.sha1, "md5": self.md5, "sha256": self.sha256}

    @property
    def stub(self) -> bytes:
        """What the desk has in the place of a large image."""
        return f"{self.sha256}\n".encode()


class Count:
    """Sums of bytes that come by pieces."""

    def __init__(self) -> None:
        self.size, self.counts = 0, {it: hashlib.new(it) for it in KINDS}

    def add(self, piece: bytes) -> None:
        self.size += len(piece)
        for it in self.counts.values():
            it.update(piece)

    def sums(self) -> Sums:
        md5, sha1, sha256 = (self.counts[it].hexdigest() for it in KINDS)
        return Sums(md5, sha1, sha256, self.size)


def count(pieces: Iterable[bytes]) -> Sums:
    """The sums of all pieces."""
    counted = Count()
    for it in pieces:
        counted.add(it)
    return counted.sums()


def pieces_of(file: BinaryIO) -> Iterator[bytes]:
    """A file's bytes, 1 MiB at a time."""
    while piece := file.read(PIECE):
        yield piece


@dataclass(frozen=True)
class Image:
    """A file in the proxy's folder that was found to be the one of a stub."""

    path: Path
    sums: Sums


class Store:
    """Sums by the digest of what the desk has, in memory and in a folder, one small file for each.

    What can't be read there is counted again; what can't be written is counted again after a restart.
    """

    def __init__(self, folder: Path | None) -> None:
        self.folder = folder
        self.known: dict[str, dict[str, Any]] = {}
        if folder is not None:
            folder.mkdir(parents=True, exist_ok=True)

    def read(self, digest: str) -> dict[str, Any] | None:
        """What was kept under a digest: the sums, and of a file what it was told by."""
        if digest not in self.known and self.folder is not None:
            with contextlib.suppress(OSError, ValueError):
                held = json.loads((self.folder / f"{digest}.json").read_text(encoding="ascii"))
                if isinstance(held, dict) and set(held) >= {*KINDS, "size"}:
                    self.known[digest] = held
        return self.known.get(digest)

    def write(self, digest: str, held: dict[str, Any]) -> None:
        """Keeps it; the file is there whole or not at all."""
        self.known[digest] = held
        if self.folder is not None:
            beside = self.folder / f".{digest}.{os.getpid()}.new"
            with contextlib.suppress(OSError):
                beside.write_text(json.dumps(held), encoding="ascii")
                beside.replace(self.folder / f"{digest}.json")


class Artifacts:
    """Sums of what the desk has, and the images behind its stubs."""

    def __init__(self, firmware: Path, folder: Path | None) -> None:
        self.firmware, self.store = firmware, Store(folder)
        self.locks: dict[str, asyncio.Lock] = {}

    @contextlib.asynccontextmanager
    async def alone(self, digest: str) -> AsyncIterator[None]:
        """Nobody else counts the same meanwhile, and nothing is left of it when the last one is through."""
        lock = self.locks.setdefault(digest, asyncio.Lock())
        try:
            async with lock:
                yield
        finally:
            if not lock.locked() and not getattr(lock, "_waiters", None):
                self.locks.pop(digest, None)

    def find_image(self, name: str, held: str) -> Image | None:
        """The file by this name, if its stub has this SHA-256. It is read where it isn't known as it lies there now."""
        path = self.firmware / name
        try:
            with open(path, "rb") as file:
                at = os.fstat(file.fileno())
                mark = [name, at.st_size, at.st_mtime_ns, at.st_ino]
                known = self.store.read(held)
                if known is None or known.get("file") != mark:
                    sums = count(pieces_of(file))
                    if hashlib.sha256(sums.stub).hexdigest() != held:
                        return None
                    self.store.write(held, known := asdict(sums) | {"file": mark})
        except OSError:
            return None
        return Image(path, Sums(*(known[it] for it in (*KINDS, "size"))))

    async def image(self, name: str, size: int, held: str) -> Image | None:
        """The image behind an artifact of this size and SHA-256, if it is the stub of one that lies here."""
        if size != STUB_SIZE:
            return None
        async with self.alone(held):
            return await asyncio.to_thread(self.find_image, name, held)

    async def whole(
        self, name: str, size: int, held: str, fetch: Callable[[], Awaitable[bytes]]
    ) -> Sums:
        """The sums and the size that a device is told of an artifact.

        `fetch` gets the desk's bytes; it is called where they were never counted. A Fault where the desk's bytes aren't
        those that it told, and where the image of a stub isn't here: then it is better that a device asks later than
        that it fails."""
        if found := await self.image(name, size, held):
            return found.sums
        async with self.alone(held):
            known = self.store.read(held)
            if known is not None and "file" not in known:
                return Sums(*(known[it] for it in (*KINDS, "size")))
            data = await fetch()
            sums = await asyncio.to_thread(count, [data])
            if (sums.sha256, sums.size) != (held, size):
                raise Fault("desk", f"{name}: the desk sends other bytes than it tells")
            if STUB.fullmatch(data):
                raise Fault("desk", f"{name}: its image isn't in the folder of the proxy")
            self.store.write(held, asdict(sums))
            return sums
