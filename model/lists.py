"""Lists of accepted commands, and what remembers what was said of them.

A list shares its commands with its prefixes. Of a rollout, an action or a target only the commands about it can change
anything: so a definition looks at the prefixes that end in one of these, and its answer is kept once for each of them.
"""
from bisect import bisect_right
from functools import wraps


class Course:
    """The commands of a list, and for each subject the lengths of the prefixes that end in a command about it."""

    def __init__(self):
        self.commands, self.places, self.known = [], {}, {}


class CommandList:
    __slots__ = ("course", "length")

    def __init__(self, course=None, length=0):
        self.course, self.length = course or Course(), length

    @property
    def last(self):
        """Its last command."""
        return self.course.commands[self.length - 1]

    @property
    def before(self):
        """The list without its last command."""
        return CommandList(self.course, self.length - 1)

    def commands(self):
        return self.course.commands[: self.length]

    def followed_by(self, command, subjects):
        """The list and one more command, which is about these."""
        if len(self.course.commands) != self.length:
            raise ValueError("another command follows here already: begin a new list")
        self.course.commands.append(command)
        for it in subjects:
            self.course.places.setdefault(it, []).append(self.length + 1)
        return CommandList(self.course, self.length + 1)

    def count(self, subject):
        """How many of its commands are about something."""
        return bisect_right(self.course.places.get(subject, ()), self.length)

    def prefixes(self, subject):
        """Its prefixes that end in a command about something, shortest first."""
        return [
            CommandList(self.course, it)
            for it in self.course.places.get(subject, ())[: self.count(subject)]
        ]


def by(subject):
    """Keeps each answer for as long as no command about the subject follows."""

    def keeping(definition):
        @wraps(definition)
        def asked(h, *about):
            key = definition, about, h.count(subject(*about))
            if key not in h.course.known:
                h.course.known[key] = definition(h, *about)
            return h.course.known[key]

        return asked

    return keeping


def some_prefix(subject):
    """Of a definition `holds(p, ..)`: some prefix p of the list has it."""

    def found(holds):
        @wraps(holds)
        def asked(h, *about):
            said = h.course.known.setdefault((holds, about), [False])
            places = h.course.places.get(subject(*about), ())
            count = h.count(subject(*about))
            while len(said) <= count:
                p = CommandList(h.course, places[len(said) - 1])
                said.append(said[-1] or holds(p, *about))
            return said[count]

        return asked

    return found
