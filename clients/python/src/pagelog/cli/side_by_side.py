"""Looks at many databases side by side, each in a thread of its own, with an end to the wait for them."""

from __future__ import annotations

import threading
import time
from typing import Callable, Generic, Iterable, TypeVar

Found = TypeVar("Found")
Key = TypeVar("Key")


class NotInTime(Exception):
    """The look has not ended yet. No other one is begun meanwhile."""


class Task(Generic[Found]):
    """A look that is made in a thread, again and again, one at a time. A thread that hangs does not keep the program."""

    def __init__(self, look: Callable[[], Found]) -> None:
        self._look = look
        self._thread: threading.Thread | None = None
        self._found: Found | None = None
        self._error: Exception | None = None
        self._has_found = False

    def begin(self) -> None:
        """Begins a look, unless one has not ended."""
        if self._thread is None:
            self._has_found, self._found, self._error = False, None, None
            self._thread = threading.Thread(target=self._run, daemon=True)
            self._thread.start()

    def _run(self) -> None:
        try:
            self._found = self._look()
            self._has_found = True
        except Exception as error:  # it is raised where the result is taken
            self._error = error

    def result(self, deadline: float) -> Found:
        """What the look found. Raises what it raised, and `NotInTime` where it has not ended by then, by the monotonic clock."""
        assert self._thread is not None
        self._thread.join(max(0.0, deadline - time.monotonic()))
        if self._thread.is_alive():
            raise NotInTime("it has not answered in time")
        self._thread = None
        if self._error is not None:
            raise self._error
        assert self._has_found
        return self._found  # type: ignore[return-value]


def look_at_all(
    tasks: Iterable[tuple[Key, Task[Found]]], seconds: float
) -> dict[Key, Found | Exception]:
    """What each found within so many seconds, or why it did not."""
    listed = list(tasks)
    for _, task in listed:
        task.begin()
    deadline = time.monotonic() + seconds
    found: dict[Key, Found | Exception] = {}
    for key, task in listed:
        try:
            found[key] = task.result(deadline)
        except Exception as error:
            found[key] = error
    return found
