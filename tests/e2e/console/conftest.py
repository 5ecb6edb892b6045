"""What the tests of the console end to end share: environments, one for a file where a test needs none of its own."""

import pytest


from .browser import Browser
from .environment import Environment


@pytest.fixture(scope="module")
def console(program, tmp_path_factory):
    """The console behind the edge before the program, with twenty devices: one for a file."""
    made = Environment(tmp_path_factory.mktemp("env"))
    made.make_fleet(20)
    yield made
    made.end()


@pytest.fixture(scope="module")
def env(console):
    """The same by the name that the tests of the console have for it."""
    return console


@pytest.fixture
def open_browser():
    """Opens a place of a env in a browser of its own."""
    made = []

    def make(env, place, who="anna"):
        made.append(Browser(env, who))
        made[-1].open(place)
        return made[-1]

    yield make
    for it in made:
        it.end()
