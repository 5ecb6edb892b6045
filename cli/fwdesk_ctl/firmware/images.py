"""A file for devices, its sums, and what the server has of it."""
import hashlib
from dataclasses import dataclass

from fwdesk_ctl.upload import LARGEST


def digest(contents):
    return hashlib.sha256(contents).hexdigest()


def summed(pieces):
    """The sums of a file that comes in pieces, and its size."""
    kinds, size = {it: hashlib.new(it) for it in ("md5", "sha1", "sha256")}, 0
    for piece in pieces:
        size += len(piece)
        for it in kinds.values():
            it.update(piece)
    return {name: it.hexdigest() for name, it in kinds.items()} | {"size": size}


def pieces_of(path):
    with open(path, "rb") as file:
        while piece := file.read(1 << 20):
            yield piece


def stub(sums):
    """What the desk has in place of a large file: its SHA-256."""
    return f"{sums['sha256']}\n".encode()


@dataclass
class Image:
    """A file for devices: its sums, what the desk has of it, and whether the proxy sends it in its place."""

    sums: dict
    contents: bytes
    is_large: bool

    @property
    def held(self):
        return digest(self.contents)


def image_of(path):
    sums = summed(pieces_of(path))
    is_large = sums["size"] > LARGEST
    return Image(sums, stub(sums) if is_large else path.read_bytes(), is_large)
