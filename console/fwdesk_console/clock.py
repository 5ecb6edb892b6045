"""Two clocks: the wall's says when, the steady one how long. The wall's may be set at any time."""
import time
from collections.abc import Callable

# seconds of difference from which on the wall's clock was set
JUMP = 5.0


class Clock:
    def __init__(
        self, wall: Callable[[], float] = time.time, steady: Callable[[], float] = time.monotonic
    ):
        self.wall, self.steady = wall, steady
        self._apart = wall() - steady()

    def jumped(self) -> float:
        """By how many seconds the wall's clock was set since this was asked last; 0 for less than five."""
        apart = self.wall() - self.steady()
        moved = apart - self._apart
        if abs(moved) < JUMP:
            return 0.0
        self._apart = apart
        return moved
