"""Files that are there whole or not at all, written only where they aren't as they are to be."""
import os
from pathlib import Path

from fwdesk_ctl.atomic import placed, synced as sync_folder


def write_whole(path: Path, text: str, mode: int = 0o644, group: str | None = None) -> bool:
    """Makes a file have this text, and tells whether that changed it. Nobody but its owner reads it before its mode is set."""
    if path.is_file() and path.read_text(encoding="utf-8") == text:
        return False
    path.parent.mkdir(mode=0o755, parents=True, exist_ok=True)
    placed(path, [text.encode()], mode, group)
    return True


def point_to(link: Path, name: str) -> None:
    """Makes a link lead to a name beside it, at once."""
    beside = link.with_name(f".{link.name}.new")
    beside.unlink(missing_ok=True)
    beside.symlink_to(name)
    os.replace(beside, link)
    sync_folder(link.parent)
