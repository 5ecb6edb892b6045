"""Which device has which set: what it finished last, also after the records are lost."""

import pytest
from fakes import START, play


async def versions(stand, device=None):
    stand.service.versions._next.clear()  # however long the machine took for the last table
    for number in stand.service.versions.due():
        await stand.service.versions.read(number)
    await stand.service.versions.name_sets()
    if device:
        return (await stand.get(f"/fwdesk/versions?device={device}"))[2]["has"]
    told = (await stand.get("/fwdesk/versions"))[2]["versions"]
    return [(it["set"]["version"], it["devices"]) for it in told]


def test_a_report_that_was_heard_gives_the_time(tmp_path):
    async def course(stand):
        await stand.look()
        await versions(stand)
        stand.desk.finish(1, 7)
        stand.clock.go(4)
        stand.hear(
            "audit 200 192.0.2.7 - POST /DEFAULT/controller/v1/dev-07/deploymentBase/107/feedback\n"
        )
        await stand.look(2)
        has = await versions(stand, "dev-07")
        assert (has["set"]["version"], has["at"], has["action"]) == ("1.0", START + 5, 107)
        assert await versions(stand) == [("1.0", 1)]

    play(tmp_path, course)


def test_what_finished_before_the_console_has_no_time_and_the_later_action_counts(tmp_path):
    async def course(stand):
        stand.desk.finish(1, 7)
        stand.desk.add_rollout("second", set_=2)
        stand.desk.finish(2, 7)
        await stand.look()
        has = await versions(stand, "dev-07")
        assert has["set"]["version"] == "2.0" and has["at"] is None

    play(tmp_path, course)


def test_what_is_seen_to_finish_later_counts_also_of_an_older_action(tmp_path):
    async def course(stand):
        stand.desk.add_rollout("second", set_=2)
        await stand.look()
        await versions(stand)
        stand.desk.finish(2, 7)
        await stand.look()
        await versions(stand)
        stand.desk.finish(1, 7)
        await stand.look()
        assert (await versions(stand, "dev-07"))["set"]["version"] == "1.0"

    play(tmp_path, course)


def test_lost_records_are_derived_again_but_for_times(tmp_path):
    async def course(stand):
        await stand.look()
        await versions(stand)
        for device in range(1, 6):
            stand.desk.finish(1, device)
        await stand.look()
        assert await versions(stand) == [("1.0", 5)]
        for it in tmp_path.glob("console.db*"):
            it.unlink()
        await stand.anew()
        await stand.look()
        assert await versions(stand) == [("1.0", 5)]
        assert (await versions(stand, "dev-01"))["at"] is None

    play(tmp_path, course)


@pytest.mark.parametrize("is_anew", [False, True])
def test_of_a_desk_that_was_restored_nothing_of_later_is_left(tmp_path, is_anew):
    """A backup has one rollout of two: neither the other one nor the version that it gave a device is shown any more."""

    async def course(stand):
        stand.desk.finish(1, 7)
        stand.desk.add_rollout("second", set_=2)
        await stand.look()
        stand.desk.finish(2, 7)
        await stand.look()
        assert (await versions(stand, "dev-07"))["set"]["version"] == "2.0"
        stand.desk.rollouts.pop()
        if is_anew:
            await stand.anew()
        await stand.look()
        assert "it was restored, or is another one" in stand.words("desk")
        assert [it["id"] for it in (await stand.get("/fwdesk/state"))[2]["rollouts"]] == [1]
        assert (await versions(stand, "dev-07"))["set"]["version"] == "1.0"
        # what is planned from then on is news as ever, and is told once
        stand.hear('audit 201 192.0.2.7 "anna" POST /rest/v1/rollouts\n')
        stand.desk.add_rollout("another", "ready")
        await stand.look()
        assert [it["kind"] for it in stand.service.history.recent][-2:] == ["desk", "made"]

    play(tmp_path, course)


def test_a_table_is_not_read_again_until_counts_change(tmp_path):
    async def course(stand):
        await stand.look()
        await versions(stand)
        assert stand.service.versions.due() == []
        await stand.anew()
        await stand.look()
        assert stand.service.versions.due() == []
        stand.desk.finish(1, 1)
        await stand.look()
        assert stand.service.versions.due() == [1]

    play(tmp_path, course)


def test_a_full_disk_has_the_table_read_again(tmp_path):
    async def course(stand):
        await stand.look()
        await versions(stand)
        stand.desk.finish(1, 1)
        stand.service.store.db.execute("pragma query_only=1")
        await stand.look(10)
        await versions(stand)
        assert stand.service.store.problem
        stand.service.store.db.execute("pragma query_only=0")
        stand.clock.go(60)
        assert await versions(stand) == [("1.0", 1)]

    play(tmp_path, course)
