"""The mover of a keeper: a process that moves blocks of what the keeper holds into the store. It is begun again where it ends."""

from __future__ import annotations

import asyncio
import json
from contextlib import suppress
from typing import Any, Callable, Mapping

from pagelog.child import child
from pagelog.keeper.settings import Settings
from pagelog.objects.settings import StoreSettings
from pagelog.repeating import Backoff
from pagelog.store.moving import LONGEST, Wish

_LINE = 16 << 20
"""Bytes of one line of the mover at most: a report of all databases."""


def check_libraries(store: StoreSettings) -> None:
    """Raises `StoreError` where what the store needs is not installed. It is loaded now, and not amid a takeover."""
    import pagelog.objects.segment  # noqa: F401

    if store.url.startswith("s3:"):
        import pagelog.objects.s3  # noqa: F401


class Storing:
    """It is told what to say by `say`, as a subject and a sentence."""

    def __init__(self, settings: Settings, say: Callable[[str, str], None]) -> None:
        assert settings.store is not None
        self._wish = Wish(settings.url, settings.name, settings.store, settings.require_standby)
        self._say = say
        self._reports: Mapping[str, Mapping[str, Any]] = {}
        self._said: dict[str, tuple[Any, ...]] = {}

    def report(self, name: str) -> Mapping[str, Any]:
        """What the mover has last said of a database; nothing where it is not at it."""
        return self._reports.get(name, {})

    async def run(self) -> None:
        """Until it is cancelled."""
        waits = Backoff(1.0, LONGEST)
        while True:
            began = asyncio.get_running_loop().time()
            status = await self._run_once()
            self._reports = {}
            if asyncio.get_running_loop().time() - began > LONGEST:
                waits.reset()
            self._say("the store", f"the mover ended with status {status}, and is begun again")
            await asyncio.sleep(waits.next())

    async def _run_once(self) -> int | None:
        async with child("pagelog.store.moving", _LINE) as process:
            assert process.stdin is not None and process.stdout is not None
            with suppress(OSError):  # it has ended
                process.stdin.write(f"{self._wish.line}\n".encode())
                await process.stdin.drain()
            async for line in process.stdout:
                self._take(line)
            return await process.wait()

    def _take(self, line: bytes) -> None:
        try:
            found = json.loads(line)
        except ValueError:
            return
        for kind in ("away", "error"):
            if kind in found:
                self._say("the store", f"nothing is moved: {found[kind]}")
        if "logs" in found:
            self._reports = found["logs"]
            for name, report in self._reports.items():
                self._say_of(name, report)

    def _say_of(self, name: str, report: Mapping[str, Any]) -> None:
        """Where something is another than before."""
        now = report["broken"], report["away"], report["foreign"]
        before = self._said.get(name, (None, None, 0))
        self._said[name] = now
        if now == before:
            return
        if report["broken"]:
            self._say(name, f"nothing more goes to the store: {report['broken']}")
        elif report["away"]:
            self._say(name, f"what goes to the store waits: {report['away']}")
        elif before[0] or before[1]:
            self._say(
                name, f"blocks go to the store again: it has all up to position {report['stored']}"
            )
        if report["foreign"] != before[2] and report["foreign"]:
            self._say(
                name,
                f"the store has {report['foreign']} objects that PostgreSQL does not know, up to position {report['foreign_end']}: it went "
                "back, and they may be the only copy of something: they are left alone",
            )
