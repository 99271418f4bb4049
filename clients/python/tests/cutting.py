"""A keeper whose succession is cut off at the end of a step, once: `cutting.py STEP DEED MARK keep ..`, MARK a file to be made then.

What is done is that somebody is killed: the keeper itself, the present service or the next one; or that PostgreSQL goes away; or, at
a step of the event loop, that the succession waits until the mark is gone.
"""

from __future__ import annotations

import asyncio
import functools
import os
import signal
import sys
from pathlib import Path
from typing import Any, Callable

sys.path.insert(0, str(Path(__file__).resolve().parent.parent / "src"))

from pagelog.keeper import succession  # noqa: E402
from pagelog.referee.referee import Doubt  # noqa: E402
from pagelog.keeper.served import Served  # noqa: E402
from pagelog.keeper.succession import Succession  # noqa: E402

STEPS = {
    "based": (Succession, "_make_base"),
    "filled": (Served, "load"),
    "made": (Succession, "_made"),
    "opened": (Served, "open"),
    "fenced": (Served, "close"),
    "pulled": (succession, "_pulled"),
    "loaded": (succession, "_closed"),
    "switched": (succession, "succeed"),
}
DEEDS = ("keeper", "present", "next", "away")
_successions: list[Succession] = []


def _kill(process: Any) -> None:
    if process is not None:
        os.kill(process.facts.pid, signal.SIGKILL)
        while process.is_alive:
            pass


def _do(deed: str, mark: Path) -> None:
    """Of the one succession that is under way."""
    [one] = _successions
    mark.touch()
    if deed == "keeper":
        os.kill(os.getpid(), signal.SIGKILL)
    elif deed == "present":
        _kill(one._database.own.process)
    elif deed == "next" and one._successor is not None:
        _kill(one._successor.process)
    elif deed == "away" and one._referee is not None:  # the reply is lost, and so is the connection
        one._referee.cut()


def cut(step: str, deed: str, mark: Path) -> None:
    """Plants it."""
    where, name = STEPS[step]
    original: Callable[..., Any] = getattr(where, name)
    prepare = Succession.prepare
    was_done = [True] if mark.exists() else []

    def noted(self: Succession) -> None:
        _successions[:] = [self]
        prepare(self)

    @functools.wraps(original)
    def done(*arguments: Any) -> Any:
        found = original(*arguments)
        if _successions and not was_done:
            was_done.append(True)
            _do(deed, mark)
            if step == "switched" and deed == "away":
                raise Doubt("the connection was lost before the reply")
        return found

    @functools.wraps(original)
    async def done_later(*arguments: Any) -> None:
        await original(*arguments)
        if not was_done:
            was_done.append(True)
            _do(deed, mark)
            while deed == "wait" and mark.exists():
                await asyncio.sleep(0.01)

    setattr(Succession, "prepare", noted)
    setattr(where, name, done_later if step in ("based", "made") else done)


if __name__ == "__main__":
    from pagelog.command import main

    cut(sys.argv[1], sys.argv[2], Path(sys.argv[3]))
    sys.argv[1:4] = []
    main()
