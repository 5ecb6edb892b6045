"""What the console says of rollouts: when, who, why; a guess as a guess; what stands still; nothing twice."""
import pytest
from fakes import START, play
from fwdesk_console.texts import as_text


def test_a_pause_by_its_threshold_names_group_counts_and_counted_words(tmp_path):
    async def course(stand):
        await stand.look()
        for device, words in ((3, "disk full"), (4, "disk full")):
            stand.desk.finish(1, device, "error", words)
        stand.desk.rollouts[0]["status"] = "paused"
        await stand.look()
        assert "by itself: group 1: 2 of 10 failed, 2 are too many" in stand.words("paused")
        assert '2 × "disk full"' in stand.words("paused")
        act = stand.last("paused")["more"]
        assert (act["by"], act["guess"], act["words"], act["read"]) == (
            "itself",
            False,
            [["disk full", 2]],
            2,
        )

    play(tmp_path, course)


def test_the_failed_of_the_group_that_paused_are_counted_apart(tmp_path):
    async def course(stand):
        groups = stand.desk.groups[1]
        groups.append({**groups[0], "id": 2})
        await stand.look()
        groups[0]["bad"], groups[1]["bad"] = 1, 2
        stand.desk.rollouts[0]["status"] = "paused"
        await stand.look()
        shown = (await stand.get("/fwdesk/state"))[2]["rollouts"][0]
        assert (shown["counts"]["bad"], shown["pausedBad"]) == (3, 2)
        assert shown["acts"]["paused"]["group"] == 2
        groups[1]["bad"] = 3
        await stand.look(31)
        assert (await stand.get("/fwdesk/state"))[2]["rollouts"][0]["pausedBad"] == 3

    play(tmp_path, course)


def test_a_pause_that_was_ordered_names_who_and_the_moment_of_the_order(tmp_path):
    async def course(stand):
        await stand.look()
        stand.clock.go(3)
        ordered = stand.clock.wall()
        stand.order("pause", "ben")
        stand.desk.rollouts[0]["status"] = "paused"
        await stand.look(2)
        assert stand.words("paused") == 'rollout "spring" was paused by "ben"'
        shown = (await stand.get("/fwdesk/state?rollout=1"))[2]["rollout"]
        assert shown["since"] == shown["seenFrom"] == ordered
        assert shown["acts"]["paused"]["who"] == "ben"

    play(tmp_path, course)


def test_a_refused_order_explains_nothing(tmp_path):
    async def course(stand):
        await stand.look()
        stand.order("pause", "ben", status=403)
        stand.desk.rollouts[0]["status"] = "paused"
        await stand.look()
        assert "ben" not in stand.words("paused")
        assert "cause not seen" in stand.words("paused")

    play(tmp_path, course)


def test_an_order_explains_one_change_and_none_after_90_seconds(tmp_path):
    async def course(stand):
        await stand.look()
        stand.order("pause", "ben")
        await stand.look(91)
        stand.desk.rollouts[0]["status"] = "paused"
        await stand.look()
        assert "ben" not in stand.words("paused")

    play(tmp_path, course)


def test_a_pause_while_the_console_was_away_is_told_as_a_guess_between_two_looks(tmp_path):
    async def course(stand):
        await stand.look()
        await stand.look(10)
        stand.desk.finish(1, 3, "error", "x")
        stand.desk.finish(1, 4, "error", "x")
        stand.desk.rollouts[0]["status"] = "paused"
        await stand.anew()
        await stand.look(600)
        said = stand.words("paused")
        assert "between 2027-01-15 08:00:11 UTC and 2027-01-15 08:10:11 UTC" in said, said
        assert "cause not seen; perhaps by itself" in said
        act = stand.last("paused")["more"]
        assert act["guess"] and act["at"] - act["from"] == 600

    assert START == 1_800_000_000  # 2027-01-15 08:00:00 UTC
    play(tmp_path, course)


def test_a_pause_that_nothing_explains_says_so(tmp_path):
    async def course(stand):
        await stand.look()
        stand.desk.rollouts[0]["status"] = "paused"
        await stand.look()
        assert "cause not seen: no group is at its error threshold" in stand.words("paused")
        assert stand.last("paused")["more"]["by"] == "unknown"

    play(tmp_path, course)


def test_what_was_there_before_the_console_has_no_time_and_is_no_news(tmp_path):
    async def course(stand):
        stand.desk.rollouts[0]["status"] = "paused"
        await stand.look()
        shown = (await stand.get("/fwdesk/state?rollout=1"))[2]["rollout"]
        assert shown["since"] is None and shown["acts"] == {}
        assert not stand.service.history.recent

    play(tmp_path, course)


def test_who_planned_and_started_it_is_kept_over_a_restart(tmp_path):
    async def course(stand):
        await stand.look()
        stand.hear('audit 201 192.0.2.7 "anna" POST /rest/v1/rollouts\n')
        number = stand.desk.add_rollout("mend", "running")
        stand.order("start", "ben", number)
        await stand.look()
        await stand.anew()
        await stand.look()
        acts = (await stand.get(f"/fwdesk/state?rollout={number}"))[2]["rollout"]["acts"]
        assert (acts["made"]["who"], acts["start"]["who"]) == ("anna", "ben")
        kinds = [it["kind"] for it in stand.service.history.of(number)]
        assert kinds == ["running", "made"]

    play(tmp_path, course)


def test_who_asked_and_who_approved_are_both_named(tmp_path):
    async def course(stand):
        await stand.look()
        stand.hear('audit 201 192.0.2.7 "anna" POST /rest/v1/rollouts\n')
        number = stand.desk.add_rollout("mend", "waiting_for_approval")
        await stand.look()
        stand.order("approve", "chris", number)
        stand.desk.rollouts[-1]["status"] = "ready"
        await stand.look()
        acts = (await stand.get(f"/fwdesk/state?rollout={number}"))[2]["rollout"]["acts"]
        assert (acts["made"]["who"], acts["approve"]["who"]) == ("anna", "chris")

    play(tmp_path, course)


def test_a_group_has_when_it_began_by_whom_and_when_each_device_had_its_outcome(tmp_path):
    """Finished isn't successful: here six of ten are under the nine that are needed."""

    async def course(stand):
        group = stand.desk.groups[1][0]
        group["status"] = "scheduled"
        await stand.look()
        counts = (await stand.get("/fwdesk/state"))[2]["rollouts"][0]["counts"]
        assert (counts["size"], counts["waiting"]) == (10, 10)
        stand.order("triggerNextGroup", "ben")
        began, group["status"] = stand.clock.wall(), "running"
        await stand.look()
        assert 'rollout "spring": group 1 began by the order of "ben"' in stand.words("group")
        for device in range(1, 11):
            stand.desk.finish(1, device, "finished" if device < 7 else "error")
        group["status"] = "finished"
        await stand.look(30)
        counts = (await stand.get("/fwdesk/state"))[2]["rollouts"][0]["counts"]
        assert (counts["size"], counts["waiting"]) == (10, 0)
        said = 'rollout "spring": group 1 is finished: 6 of 10 succeeded, 4 failed'
        assert stand.words("group") == said
        await stand.anew()
        await stand.look()
        shown = (await stand.get("/fwdesk/state?rollout=1"))[2]["rollout"]
        assert shown["groupActs"] == {
            "1": {
                "began": {"at": began, "from": began, "who": "ben"},
                "ended": {"at": began + 31, "from": began + 1, "who": ""},
            }
        }
        # of all rollouts each has its own acts alone
        whole = (await stand.get("/fwdesk/state"))[2]["rollouts"][0]
        assert "groups" not in whole["acts"] and "groupActs" not in whole

    play(tmp_path, course)


def test_what_stands_still_is_told_once_with_who_is_silent_and_what_is_needed(tmp_path):
    async def course(stand):
        await stand.look()
        for device in range(1, 9):
            stand.desk.finish(1, device)
        await stand.look()
        for _ in range(4):
            await stand.look(50)
        told = [it for it in stand.service.history.recent if it["kind"] == "stands"]
        assert len(told) == 1
        assert "2 of 10 have reported no outcome; 8 succeeded, 9 are needed" in stand.words(
            "stands"
        )
        await stand.anew()
        await stand.look(50)
        assert len([it for it in stand.service.history.recent if it["kind"] == "stands"]) == 1
        stand.desk.finish(1, 9)
        await stand.look()
        assert (await stand.get("/fwdesk/state?rollout=1"))[2]["rollout"]["stands"] is None

    play(tmp_path, course, stands_after=100.0)


def test_a_clock_that_jumps_makes_nothing_stand_still_and_is_told(tmp_path):
    async def course(stand):
        await stand.look()
        stand.clock.set_wall(30 * 86400)
        await stand.look()
        assert [it["kind"] for it in stand.service.history.recent] == ["clock"]
        assert "was set by +2592000 s" in stand.words("clock")
        stand.clock.set_wall(-60 * 86400)
        await stand.look()
        await stand.anew()
        await stand.look(50)
        assert "stands" not in [it["kind"] for it in stand.service.history.recent]

    play(tmp_path, course, stands_after=100.0)


def test_the_desk_away_is_told_once_and_its_return_too(tmp_path):
    async def course(stand):
        await stand.look()
        stand.desk.fails = True
        for _ in range(3):
            await stand.look()
        state = (await stand.get("/fwdesk/state"))[2]
        assert state["away"] == "it answers 503" and state["awaySince"]
        stand.desk.fails = False
        await stand.look(7)
        said = [as_text(it["parts"]) for it in stand.service.history.recent if it["kind"] == "desk"]
        assert said == [
            'the desk doesn\'t answer: "it answers 503"',
            "the desk answers again, after 9 s",
        ]

    play(tmp_path, course)


def test_a_quiet_desk_with_a_paused_rollout_is_asked_at_most_nine_times_a_minute(tmp_path):
    async def course(stand):
        await stand.look()
        stand.desk.rollouts[0]["status"] = "paused"
        await stand.look()
        stand.desk.asked.clear()
        for _ in range(6):
            await stand.look(10)
            for _ in range(20):
                await stand.get("/fwdesk/state?rollout=1")
        asked = [it for it in stand.desk.asked if not it.startswith("/fwdesk/")]
        assert len(asked) <= 9, asked

    play(tmp_path, course)


def test_a_thousand_finished_rollouts_are_one_request_a_look(tmp_path):
    async def course(stand):
        stand.desk.rollouts[0]["status"] = "finished"
        for _ in range(999):
            stand.desk.add_rollout("old", "finished", size=0)
        await stand.look()
        stand.desk.asked.clear()
        await stand.look()
        assert [it for it in stand.desk.asked if not it.startswith("/fwdesk/")] == [
            "/rest/v1/rollouts"
        ]
        assert (await stand.get("/fwdesk/state"))[2]["rollouts"] == []

    play(tmp_path, course)


def test_holds_are_told_with_who_and_why(tmp_path):
    async def course(stand):
        stand.hear('audit 200 192.0.2.7 "anna" POST /fwdesk/brake?kind=brake&reason=it+burns\n')
        assert stand.words("held") == 'everything is held by "anna": "it burns"'
        stand.hear('audit 200 192.0.2.7 "ben" DELETE /fwdesk/brake?kind=brake\n')
        assert stand.words("released") == 'everything is released by "ben"'

    play(tmp_path, course)


def test_a_rollout_that_is_planned_started_and_paused_between_two_looks_is_no_guess(tmp_path):
    async def course(stand):
        await stand.look()
        stand.hear('audit 201 192.0.2.7 "anna" POST /rest/v1/rollouts\n')
        number = stand.desk.add_rollout("quick", "paused")
        stand.order("start", "ben", number)
        for device in (1, 2):
            stand.desk.finish(number, device, "error", "no space")
        await stand.look(5)
        act = stand.last("paused")["more"]
        assert (act["by"], act["guess"]) == ("itself", False)
        acts = (await stand.get(f"/fwdesk/state?rollout={number}"))[2]["rollout"]["acts"]
        assert (acts["made"]["who"], acts["start"]["who"]) == ("anna", "ben")
        # the start was over when it was looked at, and is told all the same
        happened = [(it["kind"], it["who"]) for it in stand.service.history.of(number)]
        assert happened == [("paused", ""), ("running", "ben"), ("made", "anna")]

    play(tmp_path, course)


@pytest.mark.parametrize("written", ['unix ""', '- ""', "- -"])
def test_who_orders_on_the_machine_is_somebody_there(tmp_path, written):
    """Without a login HAProxy 2.6 writes an empty name in quotes, and `unix` for the address."""

    async def course(stand):
        await stand.look()
        stand.hear(f"audit 200 {written} POST /rest/v1/rollouts/1/pause\n")
        stand.desk.rollouts[0]["status"] = "paused"
        await stand.look()
        assert stand.words("paused") == 'rollout "spring" was paused by somebody on the machine'
        assert (await stand.get("/fwdesk/audit"))[2][0]["who"] == "-"

    play(tmp_path, course)
