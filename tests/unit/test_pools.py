"""A pool of processes ends without a signal, which one that begins to wait for a lock might never get."""

import multiprocessing

from harness.processes import pool_of


def test_ends_by_itself():
    with pool_of(3, int) as pool:
        workers = multiprocessing.active_children()
        assert pool.map(abs, [-1, 2, -3]) == [1, 2, 3]
    assert [it.exitcode for it in workers] == [0, 0, 0]
