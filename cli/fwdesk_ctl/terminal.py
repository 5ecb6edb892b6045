"""What may be written to a terminal or to the journal: printable characters alone, whoever chose them.

Devices, operators and foreign servers choose names, details, file names and error messages. A control character or a
mark that changes the direction of writing, as it is, could forge a line or steer the reader's terminal."""
import sys
from typing import Any, TextIO

REPLACEMENT = "\N{REPLACEMENT CHARACTER}"


def make_printable(text: object, keep: str = "") -> str:
    """The text in one line: each character that `str.isprintable` rejects is U+FFFD, but for those in `keep`."""
    text = str(text)
    if text.isprintable():
        return text
    return "".join(it if it.isprintable() or it in keep else REPLACEMENT for it in text)


class PrintableStream:
    """A text stream that writes printable characters, line feeds and tabs, and nothing else."""

    def __init__(self, stream: TextIO) -> None:
        self.stream = stream

    def write(self, text: str) -> int:
        return self.stream.write(make_printable(text, keep="\n\t"))

    def writelines(self, lines: Any) -> None:
        for line in lines:
            self.write(line)

    def __getattr__(self, name: str) -> Any:
        return getattr(self.stream, name)


def guard_output() -> None:
    """Lets this process write printable characters alone to its standard output and error. A character that the
    terminal's encoding lacks is written by its number."""
    for name in ("stdout", "stderr"):
        stream = getattr(sys, name)
        if stream is not None and not isinstance(stream, PrintableStream):
            stream.reconfigure(errors="backslashreplace")
            setattr(sys, name, PrintableStream(stream))
