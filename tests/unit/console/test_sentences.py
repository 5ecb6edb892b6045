"""Each sentence of an event: in English, and as its key with its values, by which the web UI says it in German."""
import json

import pytest
from fakes import play
from fwdesk_console.sentences import MACHINE, SENTENCES, as_parts, cleaned, say
from fwdesk_console.texts import as_text


def test_strangers_words_are_quoted_and_ours_are_not():
    said = [say("start", name="pump", who="anna"), say("why", reason="it burns")]
    assert as_text(as_parts(said)) == 'rollout "pump" was started by "anna": "it burns"'
    assert as_parts(said)[1] == ["pump"]
    assert (
        as_text(as_parts([say("pause", name="x", who="-")]))
        == f'rollout "x" was paused by {MACHINE}'
    )
    told = as_text(as_parts([say("paused", name="x"), say("between", from_=0, to=60)]))
    assert told == 'rollout "x" paused between 1970-01-01 00:00:00 UTC and 1970-01-01 00:01:00 UTC'


@pytest.mark.parametrize("key", SENTENCES)
def test_no_value_of_a_sentence_can_be_markup_or_turn_the_line(key):
    names = [it for n, it in enumerate(SENTENCES[key].replace("}", "{").split("{")) if n % 2]
    values = {it: 7 if it in ("from", "to") else "\u202e\nx" for it in names}
    for _, kept in cleaned([(key, values)]):
        for name in names:
            if name in ("name", "who", "words", "reason", "path"):
                assert kept[name] == "??x"


def test_an_event_has_its_sentences_beside_its_words(tmp_path):
    async def course(stand):
        await stand.look()
        stand.desk.rollouts[0]["status"] = "paused"
        await stand.look()
        event = stand.last("paused")
        assert [key for key, _ in event["more"]["say"]] == ["paused", "unseen"]
        kept = (await stand.get("/fwdesk/history?kind=paused"))[2][0]
        assert json.loads(json.dumps(event["more"])) == kept["more"]
        assert kept["words"] == as_text(as_parts([tuple(it) for it in kept["more"]["say"]]))

    play(tmp_path, course)
