"""Sentences with strangers' words in them: names, details, paths and logins are shown as text, never as markup.

A sentence is a list of parts. A part is our own text, or a list of one string: a stranger's words."""
import unicodedata
from collections.abc import Sequence

Part = str | list[str]

# control characters, what turns or hides text, surrogates, private use, line and paragraph ends
REFUSED = ("Cc", "Cf", "Cs", "Co", "Zl", "Zp")


def clean(text: str, longest: int = 200) -> str:
    """One line of at most so many characters; what can't be seen or turns the line is a question mark."""
    shown = "".join("?" if unicodedata.category(it) in REFUSED else it for it in text[:longest])
    return shown + ("…" if len(text) > longest else "")


def as_text(parts: Sequence[Part]) -> str:
    """The sentence as plain text; a stranger's words stand in quotes."""
    return "".join(it if isinstance(it, str) else f'"{it[0]}"' for it in parts)


def escape(text: str) -> str:
    """For a chat that reads `&`, `<` and `>` as marks, as Slack and those like it do."""
    return text.replace("&", "&amp;").replace("<", "&lt;").replace(">", "&gt;")


def as_chat(parts: Sequence[Part]) -> str:
    """The sentence for a chat: a stranger's words stand as code, in which no chat looks for links, people or markup."""

    def coded(words: str) -> str:
        return f"`{escape(words.replace('`', chr(39))) or '(nothing)'}`"

    return "".join(escape(it) if isinstance(it, str) else coded(it[0]) for it in parts)


def many(count: int, one: str) -> str:
    """`1 device`, `2 devices`."""
    return f"{count} {one}{'' if count == 1 else 's'}"
