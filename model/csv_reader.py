"""Reads CSV as the crate `csv` does: records end at CR, LF or both, and empty lines are none."""

START, FIELD, QUOTED, QUOTE = (
    "at the start of a field",
    "in a field",
    "within quotes",
    "behind a quote",
)
MARK = b"\xef\xbb\xbf"


def records(text):
    """The records of a file, each a list of fields as bytes."""
    found, record, part, state = [], [], bytearray(), START
    for byte in text.removeprefix(MARK):
        if state == QUOTED:
            if byte == ord('"'):
                state = QUOTE
            else:
                part.append(byte)
        elif byte == ord('"') and state in (START, QUOTE):
            if state == QUOTE:
                part.append(byte)
            state = QUOTED
        elif byte == ord(","):
            record.append(bytes(part))
            part, state = bytearray(), START
        elif byte not in b"\r\n":
            part.append(byte)
            state = FIELD
        elif record or state != START:
            found.append([*record, bytes(part)])
            record, part, state = [], bytearray(), START
    if record or state != START:
        found.append([*record, bytes(part)])
    return found
