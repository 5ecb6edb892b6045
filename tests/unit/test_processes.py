"""A port that a test is given is nobody's until its server listens."""
import os
import socket

from harness.processes import HOST, free_port, is_free


def test_a_child_that_is_being_started_answers_nobody():
    """Until it runs its program it has each socket that another thread of the test had open."""
    of_child = []

    class Inherited(socket.socket):
        def close(self):
            of_child.append(os.dup(self.fileno()))
            super().close()

    own = socket.socket
    socket.socket = Inherited
    try:
        port = free_port()
    finally:
        socket.socket = own
    assert of_child
    try:
        socket.create_connection((HOST, port), timeout=5).close()
        raise AssertionError(f"somebody listens to {port}")
    except ConnectionRefusedError:
        pass
    # and the server can take it
    socket.create_server((HOST, port)).close()
    for it in of_child:
        os.close(it)


def test_one_that_is_listened_to_is_taken():
    with socket.create_server((HOST, 0)) as held:
        port = held.getsockname()[1]
        assert not is_free(port)
    assert is_free(port)
