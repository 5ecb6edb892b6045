"""What only this machine tells: which commands are to come by its clock, and when the certificate of its proxy ends."""
import asyncio
import datetime
import json
import logging
import ssl
from collections.abc import Iterator
from typing import Any

from fwdesk_ctl import coming

from .clock import Clock

EVERY = 3600.0  # seconds between two looks at the certificate
PATIENCE = 5.0
SEQUENCE, VERSION, UTC_TIME, GENERALIZED_TIME = 0x30, 0xA0, 0x17, 0x18


def parts_of(der: bytes) -> Iterator[tuple[int, bytes]]:
    """The parts of a value of DER, each with its tag."""
    at = 0
    while at < len(der):
        tag, length, at = der[at], der[at + 1], at + 2
        if length & 0x80:
            size = length & 0x7F
            length, at = int.from_bytes(der[at : at + size], "big"), at + size
        if at + length > len(der):
            raise ValueError("it is cut short")
        yield tag, der[at : at + length]
        at += length


def end_of(der: bytes) -> float:
    """When a certificate ends: the second of its two times. ValueError where that can't be read."""
    try:
        (_, whole), *_ = parts_of(der)
        (_, signed), *_ = parts_of(whole)
        fields = [it for it in parts_of(signed) if it[0] != VERSION]
        _, (tag, last) = parts_of(fields[3][1])
    except (IndexError, ValueError):
        raise ValueError("it is no certificate") from None
    form = {UTC_TIME: "%y%m%d%H%M%SZ", GENERALIZED_TIME: "%Y%m%d%H%M%SZ"}[tag]
    moment = datetime.datetime.strptime(last.decode("ascii"), form)
    return moment.replace(tzinfo=datetime.timezone.utc).timestamp()


class Machine:
    def __init__(self, clock: Clock, tls: str, fleet: str = ""):
        """`tls` is where the proxy listens for devices, a host and a port, or nothing."""
        self.clock, self.tls, self.fleet = clock, tls, fleet
        self.certificate_ends: float | None = None

    async def coming(self) -> dict[str, Any]:
        """Scheduled commands, quiet hours, and what became of those that are over."""
        return await asyncio.to_thread(coming.of_fleet, self.fleet)

    async def orders(self) -> tuple[int, dict[str, int]] | None:
        """How many commands wait, and what became of the others; None where that can't be read."""
        try:
            return await asyncio.to_thread(coming.counts)
        except (OSError, ValueError, KeyError, json.JSONDecodeError):
            logging.exception("the scheduled commands can't be read")
            return None

    async def look_at_certificate(self) -> None:
        """As a device meets it; whether it may be trusted is the device's matter."""
        host, _, port = self.tls.rpartition(":")
        any_certificate = ssl.create_default_context()
        any_certificate.check_hostname, any_certificate.verify_mode = False, ssl.CERT_NONE
        try:
            async with asyncio.timeout(PATIENCE):
                _, writer = await asyncio.open_connection(host, int(port), ssl=any_certificate)
            try:
                shown = writer.get_extra_info("ssl_object").getpeercert(binary_form=True)
                self.certificate_ends = end_of(shown)
            finally:
                writer.close()
        except (OSError, TimeoutError, ValueError, KeyError) as error:
            self.certificate_ends = None
            logging.warning("the certificate at %s isn't known: %s", self.tls, error)

    async def keep(self) -> None:
        while True:
            if self.tls:
                await self.look_at_certificate()
            await asyncio.sleep(EVERY if self.certificate_ends or not self.tls else 60)
