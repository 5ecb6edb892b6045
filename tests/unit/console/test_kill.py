"""Killed at each of its writes, before and after it is kept: nothing is told twice in the records, and nothing is lost."""
import pytest
from fakes import play


class Killed(BaseException):
    """What no handler of the console takes for a fault."""


def kill_at(store, write, is_kept):
    """The write of this number ends the process, kept or not."""
    count, real = 0, store.write

    def writes(them):
        nonlocal count
        count += 1
        if count < write:
            return real(them)
        if is_kept:
            real(them)
        raise Killed

    store.write = writes


@pytest.mark.parametrize("is_kept", [False, True])
@pytest.mark.parametrize("write", range(1, 7))
def test_a_kill_at_a_write_loses_and_doubles_nothing(tmp_path, write, is_kept):
    async def course(stand):
        await stand.look()
        stand.order("pause", "ben")
        stand.desk.rollouts[0]["status"] = "paused"
        stand.hear('audit 201 192.0.2.7 "anna" POST /rest/v1/rollouts\n')
        stand.desk.add_rollout("mend", "ready")
        kill_at(stand.service.store, write, is_kept)
        try:
            for _ in range(3):
                await stand.look(10)
            stand.service.store.prune()
            await stand.service.versions.read(1)
            killed = False
        except Killed:
            killed = True
        assert killed == (write <= 6), "as many writes as are tried here"
        await stand.anew()
        for _ in range(2):
            await stand.look(10)
        kept = stand.service.store.all("select kind, rollout from event where kind != 'clock'")
        assert sorted((it["kind"], it["rollout"]) for it in kept) == [("made", 2), ("paused", 1)]
        assert [it["kind"] for _, it in stand.service.history.waiting] == ["paused"]

    play(tmp_path, course, webhooks=("http://127.0.0.1:1/",))
