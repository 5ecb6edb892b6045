"""The exception that carries a refusal with its reason. Its name and status are in the table of reference.py."""
from .reference import REFUSALS


class Refused(Exception):
    """A refusal by its number, why it is one, and for a faulty file of targets its line."""

    def __init__(self, number, why, line=None):
        super().__init__(f"{number}: {why}")
        self.number, self.why, self.line = number, why, line

    @property
    def name(self):
        return REFUSALS[self.number][0]

    @property
    def status(self):
        return REFUSALS[self.number][1]


def must(holds, number, why):
    """Refuses by this number where something doesn't hold."""
    if not holds:
        raise Refused(number, why)
