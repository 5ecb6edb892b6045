"""Sums: those that coreutils make, counted once, kept, and never told of other bytes than the desk's."""

import asyncio
import hashlib
import os

import pytest

from fwdesk_hawkbit.faults import Fault
from fwdesk_hawkbit.sums import Artifacts

# of the three letters `abc`, as RFC 1321 and FIPS 180 give them
ABC = {
    "md5": "900150983cd24fb0d6963f7d28e17f72",
    "sha1": "a9993e364706816aba3e25717850c26c9cd0d89d",
    "sha256": "ba7816bf8f01cfea414140de5dae2223b00361a396177a9cb410ff61f20015ad",
}


class Desk:
    """Gives these bytes, and counts how often."""

    def __init__(self, data):
        self.data, self.calls = data, 0

    async def fetch(self):
        self.calls += 1
        await asyncio.sleep(0.01)
        return self.data


def whole(artifacts, desk, name="a.swu", size=None, held=None):
    size = len(desk.data) if size is None else size
    held = held or hashlib.sha256(desk.data).hexdigest()
    return artifacts.whole(name, size, held, desk.fetch)


def test_sums_are_right_and_kept_over_a_restart(tmp_path):
    desk = Desk(b"abc")
    sums = asyncio.run(whole(Artifacts(tmp_path, tmp_path / "kept"), desk))
    assert sums.hashes == ABC and sums.size == 3
    again = asyncio.run(whole(Artifacts(tmp_path, tmp_path / "kept"), desk))
    assert again == sums and desk.calls == 1


def test_thirty_at_once_are_counted_once(tmp_path):
    desk, artifacts = Desk(b"abc"), Artifacts(tmp_path, None)

    async def many():
        return await asyncio.gather(*(whole(artifacts, desk) for _ in range(30)))

    assert len({it.md5 for it in asyncio.run(many())}) == 1 and desk.calls == 1
    assert artifacts.locks == {}


def test_what_is_spoiled_in_the_folder_is_counted_again(tmp_path):
    desk = Desk(b"abc")
    asyncio.run(whole(Artifacts(tmp_path, tmp_path / "kept"), desk))
    (kept,) = (tmp_path / "kept").iterdir()
    kept.write_text(kept.read_text()[:20])
    assert asyncio.run(whole(Artifacts(tmp_path, tmp_path / "kept"), desk)).hashes == ABC
    assert desk.calls == 2


def test_other_bytes_than_the_desk_tells_are_not_summed(tmp_path):
    artifacts = Artifacts(tmp_path, None)
    for size, held in ((4, None), (3, "0" * 64)):
        with pytest.raises(Fault) as why:
            asyncio.run(whole(artifacts, Desk(b"abc"), size=size, held=held))
        assert why.value.kind == "desk"


def stub_of(data):
    return f"{hashlib.sha256(data).hexdigest()}\n".encode()


def test_a_stub_has_the_sums_of_its_image(tmp_path):
    (tmp_path / "a.swu").write_bytes(b"abc")
    artifacts = Artifacts(tmp_path, tmp_path / "kept")
    desk = Desk(stub_of(b"abc"))
    assert asyncio.run(whole(artifacts, desk)).hashes == ABC and desk.calls == 0


def test_a_stub_without_its_image_is_told_to_nobody(tmp_path):
    artifacts, desk = Artifacts(tmp_path, tmp_path / "kept"), Desk(stub_of(b"abc"))
    with pytest.raises(Fault):
        asyncio.run(whole(artifacts, desk))
    (tmp_path / "a.swu").write_bytes(b"abd")
    with pytest.raises(Fault):
        asyncio.run(whole(artifacts, desk))
    (tmp_path / "a.swu").write_bytes(b"abc")
    assert asyncio.run(whole(artifacts, desk)).hashes == ABC


def test_an_image_that_is_changed_is_no_longer_the_one_of_its_stub(tmp_path):
    image = tmp_path / "a.swu"
    image.write_bytes(b"abc")
    artifacts, desk = Artifacts(tmp_path, tmp_path / "kept"), Desk(stub_of(b"abc"))
    asyncio.run(whole(artifacts, desk))
    image.write_bytes(b"abd")
    os.utime(image, ns=(1, 1))
    with pytest.raises(Fault):
        asyncio.run(whole(artifacts, desk))


def test_an_image_is_read_once(tmp_path, monkeypatch):
    (tmp_path / "a.swu").write_bytes(b"abc")
    desk = Desk(stub_of(b"abc"))
    asyncio.run(whole(Artifacts(tmp_path, tmp_path / "kept"), desk))
    monkeypatch.setattr("fwdesk_hawkbit.sums.count", lambda _: pytest.fail("it is read again"))
    assert asyncio.run(whole(Artifacts(tmp_path, tmp_path / "kept"), desk)).hashes == ABC
