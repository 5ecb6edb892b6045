"""What a word, a token, a name and a number may be, and the limits, whose numbers are in reference.py."""
import re

from . import reference

BODY = reference.BODY_LENGTH_LIMIT
HEAD, FIELDS = reference.HEAD_LENGTH_LIMIT, reference.FIELD_LIMIT
MODULES, SETS, ROLLOUTS = reference.MODULE_LIMIT, reference.SET_LIMIT, reference.ROLLOUT_LIMIT
TARGETS, TARGETS_OF_REQUEST = reference.TARGET_LIMIT, reference.POSTED_TARGET_LIMIT
ARTIFACTS_OF_MODULE, ARTIFACTS = reference.MODULE_ARTIFACT_LIMIT, reference.ARTIFACT_LIMIT
MODULES_OF_SET, GROUPS = reference.SET_MODULE_LIMIT, reference.GROUP_LIMIT
TAGS, ATTRIBUTES, NOTES = reference.TAG_LIMIT, reference.ATTRIBUTE_LIMIT, reference.NOTE_LIMIT
DETAILS, DETAIL = reference.DETAIL_LIMIT, reference.DETAIL_LENGTH_LIMIT
FILTER, DEPTH = reference.FILTER_LENGTH_LIMIT, reference.FILTER_DEPTH_LIMIT
LETTERS, TEXT = reference.WORD_LENGTH_LIMIT, reference.TEXT_LENGTH_LIMIT
LARGEST = reference.NUMBER_LIMIT
LARGEST_OF_FEEDBACK = reference.FEEDBACK_NUMBER_LIMIT
PAGE, USUAL_PAGE = reference.PAGE_LIMIT, reference.PAGE_DEFAULT


def letters(least, most):
    """The pattern of so many of the letters that ids are made of."""
    return f"[A-Za-z0-9._-]{{{least},{most}}}"


WORD = re.compile(letters(1, LETTERS))
TOKEN = re.compile(letters(reference.TOKEN_LENGTH_LEAST, reference.TOKEN_LENGTH_LIMIT))
FILENAME = re.compile(letters(1, reference.FILENAME_LENGTH_LIMIT))
DIGEST = re.compile(r"[0-9A-Fa-f]{64}")
NUMBER = re.compile(r"[1-9][0-9]{0,9}")
CONTROL = re.compile(r"[\x00-\x1f\x7f]")


def is_word(text):
    return bool(WORD.fullmatch(text))


def is_token(text):
    return bool(TOKEN.fullmatch(text))


def is_filename(text):
    return bool(FILENAME.fullmatch(text))


def is_line(text, least, most):
    """Whether a text has so many bytes of UTF-8, and no control character."""
    return least <= len(text.encode()) <= most and not CONTROL.search(text)


def is_text(text):
    return is_line(text, 1, TEXT)


def is_value(text):
    return is_line(text, 0, TEXT)


def is_detail(text):
    return is_line(text, 0, DETAIL)


def number(text, most=LARGEST):
    """The number from 1 that these digits without a leading zero are, or None."""
    return int(text) if NUMBER.fullmatch(text) and int(text) <= most else None
