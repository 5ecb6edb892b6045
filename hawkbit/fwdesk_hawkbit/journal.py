"""What is written to the journal: printable characters alone, whoever chose them, and a line of its own for each record."""

import logging


def make_printable(line: str) -> str:
    """The line without what would end it, steer a terminal or turn the direction of writing."""
    return "".join(it if it.isprintable() else "\N{REPLACEMENT CHARACTER}" for it in line)


class Lines(logging.Formatter):
    """A record as one line; the trace of an exception is behind it, further in, so no line of it looks like a record."""

    def format(self, record: logging.LogRecord) -> str:
        lines = [f"{record.levelname} {record.getMessage()}"]
        if record.exc_info:
            trace = self.formatException(record.exc_info)
            lines += [f"    {it}" for it in trace.splitlines()]
        return "\n".join(map(make_printable, lines))


def begin() -> None:
    """Has this process write so to standard error, which is the journal."""
    handler = logging.StreamHandler()
    handler.setFormatter(Lines())
    logging.basicConfig(level=logging.WARNING, handlers=[handler])
