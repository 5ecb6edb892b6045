"""The operator's own files as they were, for a set-up that doesn't come about."""
import os
import shutil
from pathlib import Path

from fwdesk_setup import places


class Snapshot:
    """All files of /etc/fwdesk, which are few and small, with owners and modes."""

    def __init__(self) -> None:
        self.files = {it: (it.read_bytes(), it.stat()) for it in self.present()}

    @staticmethod
    def present() -> list[Path]:
        return [it for it in places.ETC.rglob("*") if it.is_file() and not it.is_symlink()]

    def restore(self) -> None:
        """Makes the files as they were, and takes away what was added."""
        for it in self.present():
            if it not in self.files:
                it.unlink()
        for path, (text, about) in self.files.items():
            if path.exists() and path.read_bytes() == text:
                continue
            beside = path.with_name(f".{path.name}.new")
            beside.unlink(missing_ok=True)
            with open(os.open(beside, os.O_WRONLY | os.O_CREAT, 0o600), "wb") as file:
                file.write(text)
                os.fsync(file.fileno())
            shutil.chown(beside, about.st_uid, about.st_gid)
            beside.chmod(about.st_mode & 0o777)
            os.replace(beside, path)
