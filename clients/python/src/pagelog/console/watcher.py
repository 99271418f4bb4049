"""The thread that looks: once a second while somebody watches, else every few seconds, whatever the number of browsers."""

from __future__ import annotations

import threading
import time
from typing import Callable

from pagelog.console.source import NoLook, SourceLook, Source

PACE = 1.0
"""Seconds between the beginnings of two looks, at least."""
IDLE = 5.0
"""Seconds, while nobody watches: so a plot has a past when somebody comes."""


class Watcher(threading.Thread):
    """Looks, and hands each look to `take`, or to `miss` why there is none, with the time. Both are called in this thread.

    It is no thread that the program waits for: a connection that is being made cannot be cut.
    """

    def __init__(
        self,
        source: Source,
        take: Callable[[SourceLook, float], None],
        miss: Callable[[str, float], None],
    ) -> None:
        super().__init__(name="console-watcher", daemon=True)
        self._source, self._take, self._miss = source, take, miss
        self._is_watched = threading.Event()

    def watch(self, is_watched: bool) -> None:
        """Says whether anybody watches."""
        (self._is_watched.set if is_watched else self._is_watched.clear)()

    def run(self) -> None:
        while True:
            began = time.monotonic()
            try:
                seen = self._source.look()
            except NoLook as error:
                self._miss(str(error), time.time())
            except (
                Exception
            ) as error:  # as of another version's rows: else nobody would be told that it looks no more
                self._miss(f"{type(error).__name__}: {error}", time.time())
            else:
                self._take(seen, time.time())
            self._is_watched.wait(max(0.0, began + IDLE - time.monotonic()))
            time.sleep(max(0.0, began + PACE - time.monotonic()))
