"""What follows a service into an archive goes on, however often one of them is lost for a moment."""

from __future__ import annotations

import time
from typing import Callable

import click

from pagelog.cli.options import NOT_YET, first_line_of, is_lost_archive, is_of_the_archive
from pagelog.errors import ConnectionLost, OutOfMemory, Unreachable
from pagelog.repeating import Backoff, Repeats
from pagelog.rules import UnknownPrincipal

LONGEST = 2.0
"""Seconds between two tries where the service or the archive stays away. As long a stop may be waited for."""


class Losses:
    """Those of one who follows, which are said at once and then once a minute. `was_let_in` is whether it was, by this service or an earlier
    one: else nobody lets it in."""

    def __init__(self, was_let_in: Callable[[], bool]) -> None:
        self._was_let_in = was_let_in
        self._waits = Backoff(0.25, LONGEST)
        self._repeats = Repeats(lambda _, text: warn(text))

    def bear(self, follow: Callable[[], object]) -> None:
        """Follows, until it is to end, or until the service or the archive is lost; then it waits before the next try. Raises what does not
        pass."""
        try:
            follow()
        except (ConnectionLost, Unreachable, OutOfMemory) as error:
            self.wait(f"service: {error}; trying again")
        except UnknownPrincipal:
            if not self._was_let_in():
                raise
            self.be_denied()
        except Exception as error:
            if not is_of_the_archive(error) or not is_lost_archive(error):
                raise
            self.wait(f"archive: {first_line_of(error)}; trying again")

    def be_denied(self) -> None:
        """The service was restarted, and waits for its restore."""
        self.wait(NOT_YET)

    def wait(self, text: str) -> None:
        """Says why, once a minute, and waits before the next try."""
        self._repeats.say("", text)
        self.rest()

    def rest(self) -> None:
        """Waits, each time longer."""
        time.sleep(self._waits.next())

    def end(self) -> None:
        """It goes on."""
        self._waits.reset()


def warn(text: str) -> None:
    """Says it to who has started this."""
    click.echo(f"pagelogctl: {text}", err=True)
