"""Strangers' words: in HAProxy's lines, in the journal, in what is answered, in mails, chats and metrics."""
import json
import logging

import pytest
from fakes import Stand, play
from fwdesk_console.texts import as_chat, as_text, clean

LINES = [
    b'audit 401 192.0.2.7 "x\naudit 200 192.0.2.9 "anna" POST /rest/v1/rollouts/1/start\nz" GET /a',
    b"",
    b"\xff" * 4000,
    b'audit 200 1.2.3.4 "' + b"\\" * 3000,
    b'audit 200 1.2.3.4 "a" POST /' + b"x" * 9000,
    b'audit 200 1.2.3.4 "a" POST /rest/v1/rollouts/99999999999/start\n',
    b"audit 200 1.2.3.4 - POST /DEFAULT/controller/v1/a/../b/deploymentBase/1/feedback",
    b'audit 999 [::] "a" POST /rest/v1/rollouts/1/start',
]


@pytest.mark.parametrize("line", LINES)
def test_no_line_makes_two_records_or_an_order(tmp_path, line):
    async def course(stand):
        stand.hear(line)
        assert len(stand.service.ear._audits) <= 1
        assert not stand.service.ear._orders and not stand.service.ear._reports

    play(tmp_path, course)


def test_a_login_name_with_a_line_feed_is_one_record_on_one_line(tmp_path):
    async def course(stand):
        stand.hear(b'audit 401 192.0.2.7 "x\naudit?200" GET /rest/v1/targets\n')
        rows = (await stand.get("/fwdesk/audit"))[2]
        assert [it["who"] for it in rows] == ["x?audit?200"]

    play(tmp_path, course)


ADDRESSES = ("192.0.2.7", "2001:db8::7", "::ffff:192.0.2.7", "unix", "-")


@pytest.mark.parametrize("address", [*ADDRESSES, "<b>", "192.0.2.7,x", "a" * 46, "fe80::1%<b>"])
def test_an_address_of_each_kind_is_kept_and_no_other_text(tmp_path, address):
    async def course(stand):
        stand.hear(f'audit 200 {address} "anna" POST /rest/v1/targets\n')
        rows = (await stand.get("/fwdesk/audit"))[2]
        assert [it["address"] for it in rows] == [address] * (address in ADDRESSES)

    play(tmp_path, course)


def test_what_turns_or_hides_text_is_a_question_mark():
    assert clean("a\u202eb\u0000c\u2028d\u200be\ud800") == "a?b?c?d?e?"
    assert clean("Pümpe 泵 🚰") == "Pümpe 泵 🚰"
    assert clean("x" * 300, 10) == "x" * 10 + "…"


HOSTILE = "<!channel> <https://evil.example|click> @here *b* `x` \u202e [a](http://b) </script>"


def test_a_stranger_steers_no_chat(tmp_path):
    said = as_chat(["rollout ", [HOSTILE], " paused & <x>"])
    inner = said.split("`")
    assert len(inner) == 3, said  # one code span, and the words can't end it
    assert "<" not in said and ">" not in said
    assert inner[0] == "rollout " and inner[2] == " paused &amp; &lt;x&gt;"


def test_names_and_details_are_text_everywhere(tmp_path, caplog):
    caplog.set_level(logging.INFO)

    async def course(stand: Stand):
        await stand.look()
        stand.desk.rollouts[0]["name"] = "a\r\nBcc: x@evil.example\n" + HOSTILE
        await stand.look()
        for device in (1, 2):
            stand.desk.finish(1, device, "error", "b\r\nX: y\n" + HOSTILE)
        stand.desk.rollouts[0]["status"] = "paused"
        await stand.look()
        event = stand.last("paused")
        mail = stand.service.teller.as_mail(event)
        assert "\n" not in mail["Subject"] and "Bcc" not in mail.keys()
        assert mail["To"] == "ops@example.org"
        told = stand.service.teller.as_json(event)
        assert told["words"].count("\n") == 0 and "\u202e" not in json.dumps(
            told, ensure_ascii=False
        )
        metrics = (await stand.get("/metrics"))[2]
        line = next(it for it in metrics.splitlines() if it.startswith("fwdesk_rollout{"))
        assert line.endswith('",status="paused"} 1')
        for it in caplog.messages:
            assert "\n" not in it and "\u202e" not in it

    play(tmp_path, course, mail_to=("ops@example.org",))


def test_a_label_ends_neither_quotes_nor_line():
    from fwdesk_console.metrics import label

    assert label('a"b\\c\nd') == 'a\\"b\\\\c?d'


def test_a_table_calculator_is_given_no_formula(tmp_path):
    async def course(stand):
        stand.hear('audit 401 192.0.2.7 "=cmd|calc" POST /rest/v1/targets\n')
        status, fields, text = await stand.get("/fwdesk/audit?format=csv")
        assert status == 200 and "'=cmd|calc" in text
        assert fields["Content-Disposition"] == 'attachment; filename="audit.csv"'

    play(tmp_path, course)


def test_plain_text_has_strangers_words_in_quotes():
    assert as_text(["by ", ["anna"], "."]) == 'by "anna".'
