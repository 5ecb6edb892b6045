"""When each device was last answered, from HAProxy's table, at a socket that takes the one line which asks for it."""
import asyncio
import re

from .clock import Clock

LINE = r"key={}([A-Za-z0-9._-]{{1,64}}) .*?\bexp=(\d{{1,12}})\b"
KEPT = 24 * 86400  # seconds that the table keeps a device for: `expire` of backend seen
FRESH = 10.0  # seconds for which a reading is used
LARGEST = 16 * 2**20


class Unknown(Exception):
    """HAProxy doesn't tell it; the words say why."""


async def ask(path: str, line: str, seconds: float = 10.0) -> str:
    """What a socket of HAProxy answers to one line."""
    async with asyncio.timeout(seconds):
        reader, writer = await asyncio.open_unix_connection(path)
        try:
            writer.write(f"{line}\n".encode())
            told = bytearray()
            while piece := await reader.read(65536):
                told += piece
                if len(told) > LARGEST:
                    raise Unknown("the table is too large")
            return told.decode(errors="replace")
        finally:
            writer.close()


class Polls:
    """Asked at most once in ten seconds, however many want to know."""

    def __init__(self, path: str, clock: Clock, fleet: str = ""):
        """Of many fleets the table has each device by FLEET/ID."""
        self.path, self.clock = path, clock
        self._line = re.compile(LINE.format(re.escape(f"{fleet}/" if fleet else "")))
        self._known: dict[str, float] = {}
        self._at = -FRESH
        self._turn = asyncio.Lock()

    async def all(self) -> dict[str, float]:
        """By device, in seconds of the wall's clock; Unknown where HAProxy doesn't answer."""
        async with self._turn:
            if self.clock.steady() - self._at >= FRESH:
                try:
                    text = await ask(self.path, "show table seen")
                except (OSError, TimeoutError) as error:
                    raise Unknown(f"HAProxy doesn't tell it: {error or 'no answer'}") from None
                if not text.lstrip().startswith("# table: seen"):
                    raise Unknown("HAProxy has no table of last polls")
                now = self.clock.wall()
                self._known = {
                    it: now - KEPT + int(left) / 1000 for it, left in self._line.findall(text)
                }
                self._at = self.clock.steady()
            return self._known
