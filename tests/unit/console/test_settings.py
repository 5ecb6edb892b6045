"""The settings: each value with a range, and words for what is wrong."""
import pytest
from fwdesk_console import __main__, settings


@pytest.mark.parametrize(
    "text, words",
    [
        ("every = 0", "every is a number from 1 to 60"),
        ("every = true", "every is a number"),
        ('rows = "many"', "rows is a number"),
        ("colour = 1", "unknown: colour"),
        ('webhooks = "ftp://x/"', "webhooks, chats and link"),
        ('webhooks = ["https://"]', "webhooks, chats and link"),
        ('mail_to = "a b@c"', "mail_to and mail_from"),
        ('mail_to = "ops@example.org\\nBcc: x@y"', "mail_to and mail_from"),
        ('smtp = "host"', "smtp is a host and a port"),
        ('tell = ["everything"]', "tell has some of"),
        ("listen = 1", "listen is a text"),
        ("x", "Expected"),
    ],
)
def test_a_wrong_value_is_told(tmp_path, text, words):
    path = tmp_path / "console.toml"
    path.write_text(text)
    with pytest.raises(settings.Wrong, match=words.replace("(", ".")):
        settings.read(str(path))


def test_one_text_is_a_list_of_one(tmp_path):
    path = tmp_path / "console.toml"
    path.write_text('chats = "https://chat.example/x"\nevery = 5\n')
    made = settings.read(str(path))
    assert made.chats == ("https://chat.example/x",) and made.every == 5.0


def test_the_file_that_is_delivered_is_taken_and_says_the_defaults():
    from harness import ROOT

    path = ROOT / "console/console.toml"
    assert settings.read(str(path)) == settings.Settings()
    named = [it.lstrip("# ").split(" = ")[0] for it in path.read_text().splitlines() if " = " in it]
    assert {"webhooks", "chats", "mail_to", "link", "stands_after"} <= set(named)


def test_messages_lead_to_the_address_that_was_set_up(tmp_path, monkeypatch):
    monkeypatch.setenv("FWDESK_LINK", "https://desk.example/page/")
    silent, telling = tmp_path / "silent.toml", tmp_path / "telling.toml"
    silent.write_text("")
    telling.write_text('link = "https://other.example/page/"')
    assert settings.read(str(silent)).link == "https://desk.example/page/"
    assert settings.read(str(telling)).link == "https://other.example/page/"


def test_what_leads_to_the_consoles_reads_no_file_of_theirs(tmp_path, monkeypatch):
    """Their webhooks are secrets, in a file that root alone reads."""
    theirs, handed = tmp_path / "console.toml", tmp_path / "handed"
    handed.mkdir()
    theirs.write_text("")
    monkeypatch.setattr(__main__, "PLACES", (str(theirs),))
    assert __main__.find_settings(None) == str(theirs)
    assert __main__.find_settings(None, leads=True) is None
    monkeypatch.setenv("CREDENTIALS_DIRECTORY", str(handed))
    (handed / "console.toml").write_text("")
    assert __main__.find_settings(None) == str(handed / "console.toml")
    assert __main__.find_settings(None, leads=True) is None
    assert __main__.find_settings("own.toml", leads=True) == "own.toml"
