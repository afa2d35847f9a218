"""A clock for long tests that runs faster than the machine's, and can be set forward, as if the machine had slept.

Run as a program, it runs bacsite with this clock: fast_clock.py FILE BACSITE WORD .., where FILE has the clock.
"""

import mmap
import os
import struct
import sys
import threading
import time
from contextlib import contextmanager

FORM = struct.Struct("<dqq")  # its speed; when it began, in nanoseconds; how far it was set forward


class Clock:
    """The clock in a file, which several programs read."""

    def __init__(self, path, speed=0.0):
        if speed:
            with open(path, "wb") as file:
                file.write(FORM.pack(speed, time.time_ns(), 0))
        with open(path, "r+b") as file:
            self._shared = mmap.mmap(file.fileno(), FORM.size)
        self.speed, self.begun, _ = FORM.unpack(self._shared[:])

    def put_on(self, seconds):
        """Lets a machine sleep for this long, by its clock: only the time goes on."""
        on = FORM.unpack(self._shared[:])[2] + int(seconds * 1e9)
        self._shared[:] = FORM.pack(self.speed, self.begun, on)

    def monotonic(self):
        """The seconds since the clock began, without those in which the machine slept."""
        return (time.time_ns() - self.begun) / 1e9 * self.speed

    def time_ns(self):
        """The time of the day."""
        return self.begun + int(self.monotonic() * 1e9) + FORM.unpack(self._shared[:])[2]

    def localtime(self, seconds):
        return time.localtime(seconds)

    strftime = staticmethod(time.strftime)


@contextmanager
def running_by(clock, *modules):
    """These modules of bacsite run with the clock, and wait for events no longer than it says."""
    wait = threading.Event.wait
    threading.Event.wait = lambda self, timeout=None: wait(self, timeout and timeout / clock.speed)
    for module in modules:
        module.time = clock
    yield


def main(path, bacsite, *words):
    sys.path.insert(0, bacsite)
    sys.argv = ["bacsite", *words]
    from bacsite import main as program, page, watch

    watch.PAGE_EVERY = 60.0
    with running_by(Clock(path), watch, page):
        program.main()


if __name__ == "__main__":
    main(*sys.argv[1:])
