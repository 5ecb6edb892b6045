"""Tests of how HAProxy is asked whether it takes a stage: with the servers of many fleets, where it starts with them."""
import tempfile
from pathlib import Path

from harness.asserting import same

from fwdesk_ctl import operators
from fwdesk_setup import parts

OWN, SHARE = Path("/etc/fwdesk/haproxy.d"), Path("/usr/share/fwdesk/haproxy")


def words_of(stage, has_servers):
    kept = operators.SERVERS
    with tempfile.TemporaryDirectory() as folder:
        operators.SERVERS = Path(folder) / "servers.cfg"
        if has_servers:
            operators.SERVERS.touch()
        try:
            return operators.check_words(OWN, SHARE / stage), str(operators.SERVERS)
        finally:
            operators.SERVERS = kept


def test_the_queue_of_many_fleets_is_checked_with_their_servers():
    words, servers = words_of("desks", True)
    same(words, ["haproxy", "-c", "-f", str(OWN), "-f", str(SHARE / "desks"), "-f", servers])


def test_the_edge_and_a_single_server_are_checked_without():
    for stage, has_servers in (("edge", True), ("edge", False), ("desks", False)):
        words, servers = words_of(stage, has_servers)
        assert servers not in words, (stage, words)


def test_setup_asks_in_the_same_words():
    assert parts.check_words is operators.check_words
