"""A poll of the keepers of a database, for all who read it in this process: which run is the holder's now.

A service that lives on without its keeper serves its log for ever, and says nothing of the run that has superseded it.
"""

from __future__ import annotations

import os
import threading
import time
from typing import Sequence
from weakref import WeakValueDictionary

from pagelog.errors import PagelogError
from pagelog.place import Dropped, Keepers, Place
from pagelog.repeating import Backoff
from pagelog.secure import Trust

EACH = 1.0
"""Seconds between two rounds of questions, as long as somebody reads."""
SLOWEST = 8.0
"""The longest, where keepers say no place: each wait is twice the one before."""
_IDLE = 2 * EACH
"""Seconds without a read after which nobody is asked any more. The first read after that waits for an answer."""
_ANSWER = 3.0
"""Seconds for which it waits at most: a keeper that stands still takes one of them."""


class HolderPoll:
    """Asks all keepers of one database in a thread of its own, while `superseding` is called."""

    def __init__(
        self, name: str, addresses: Sequence[str], place: Place, trust: Trust | None = None
    ) -> None:
        self._keepers = Keepers(name, addresses, trust=trust)
        self._keepers.is_of(place)
        self._told = threading.Condition()
        self._newest = place
        self._dropped: Dropped | None = None
        self._read = 0.0
        """When somebody read last."""
        self._since = self._asked = 0.0
        """When somebody read first after nobody had for a while; and when the last round that has ended began."""
        self._thread: threading.Thread | None = None

    def superseding(self, place: Place, known: float) -> Place | None:
        """The place of a later generation than this one, which keepers named at the time `known`; None where there is none, as far as
        they said last. It waits for them only where nobody has read for a while. Raises `Dropped`.
        """
        with self._told:
            now = time.monotonic()
            if (
                now - self._read >= _IDLE
            ):  # also where this process stood still, and its thread with it
                self._since = now
                self._told.notify_all()
            self._read = now
            if self._thread is None:
                self._thread = threading.Thread(
                    target=self._poll, name="pagelog-holder", daemon=True
                )
                self._thread.start()
            if known < now - _IDLE:
                self._told.wait_for(lambda: self._asked >= self._since, _ANSWER)
            if self._dropped is not None:
                raise self._dropped
            return self._newest if self._newest.generation > place.generation else None

    @property
    def page_servers(self) -> int:
        """How many page servers the database has, as keepers said last."""
        with self._told:
            return self._newest.pages

    def _poll(self) -> None:
        silence, is_wanted = (
            Backoff(2 * EACH, SLOWEST),
            True,
        )  # who has begun it waits for a round, however late this comes to it
        while is_wanted:
            began, found, dropped = time.monotonic(), None, None
            try:
                found = self._keepers.where()
            except Dropped as error:
                dropped = error
            except PagelogError:
                pass  # those that answer may know less than others
            with self._told:
                self._asked = began
                self._newest = found or self._newest
                self._dropped = dropped or (
                    self._dropped if found is None else None
                )  # a PostgreSQL that went back undoes a drop
                self._told.notify_all()
            if found is not None:
                silence.reset()
            is_wanted = self._is_wanted(began, EACH if found is not None else silence.next())

    def _is_wanted(self, began: float, pause: float) -> bool:
        """After a pause since the round that began then, or once somebody waits for the next one."""
        with self._told:
            self._told.wait_for(lambda: self._since > began, pause)
            if time.monotonic() - self._read < _IDLE:
                return True
            self._keepers.close()
            self._thread = None
            return False


_polls: WeakValueDictionary[tuple[object, ...], HolderPoll] = WeakValueDictionary()


def poll_of(
    name: str, addresses: Sequence[str], place: Place, trust: Trust | None = None
) -> HolderPoll:
    """The one of this process, of who believes the same. A child that a fork made begins its own."""
    key = (os.getpid(), name, tuple(sorted(addresses)), place.database, trust and trust.files)
    return _polls.get(key) or _polls.setdefault(key, HolderPoll(name, addresses, place, trust))
