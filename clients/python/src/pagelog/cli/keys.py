"""A terminal's keys, one by one: for the q of `top`."""

from __future__ import annotations

import os
import select
import sys
import termios
import time
import tty
from contextlib import contextmanager
from typing import Iterator


@contextmanager
def raw_keys() -> Iterator[None]:
    """Keys come at once and are not shown. A standard input that is not a terminal is left alone."""
    if not sys.stdin.isatty():
        yield
        return
    before = termios.tcgetattr(sys.stdin)
    tty.setcbreak(sys.stdin)
    try:
        yield
    finally:
        termios.tcsetattr(sys.stdin, termios.TCSADRAIN, before)


def pressed_q(seconds: float) -> bool:
    """Waits this long at most, and says whether q was pressed meanwhile. All keys that came are taken, and no other is kept."""
    if not sys.stdin.isatty():
        time.sleep(seconds)
        return False
    deadline, poll = time.monotonic() + seconds, select.poll()
    poll.register(sys.stdin, select.POLLIN)
    while True:
        left = deadline - time.monotonic()
        # Not by sys.stdin.read, which would keep what it reads too much where no poll sees it.
        if poll.poll(1000 * max(0.0, min(left, 0.2))) and b"q" in os.read(sys.stdin.fileno(), 1024):
            return True
        if left <= 0:
            return False
