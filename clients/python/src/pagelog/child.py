"""Work of a keeper that is done in a process of its own, by a module of this package: what is wanted is a line of JSON at its input, so that no
password is among its arguments.
"""

from __future__ import annotations

import asyncio
import json
import os
import sys
from contextlib import asynccontextmanager
from pathlib import Path
from typing import Any, AsyncIterator, Self

from pagelog.objects.settings import StoreSettings


class LineOfInput:
    """Of a dataclass: what is wanted, as its process reads it."""

    store: StoreSettings | None

    @property
    def line(self) -> str:
        """The line."""
        return json.dumps({**vars(self), "store": None if self.store is None else self.store.json})

    @classmethod
    def read(cls, line: str) -> Self:
        """Of the line."""
        found: dict[str, Any] = json.loads(line)
        found["store"] = None if found["store"] is None else StoreSettings(**found["store"])
        return cls(**found)


@asynccontextmanager
async def child(module: str, longest: int = 1 << 16) -> AsyncIterator[asyncio.subprocess.Process]:
    """The process of a module. A line of its output has so many bytes at most. At the end of the `with` it is killed, if it has not ended."""
    source = str(Path(__file__).resolve().parents[1])
    process = await asyncio.create_subprocess_exec(
        sys.executable,
        "-m",
        module,
        stdin=asyncio.subprocess.PIPE,
        stdout=asyncio.subprocess.PIPE,
        limit=longest,
        env={
            **os.environ,
            "PYTHONPATH": os.pathsep.join(filter(None, (source, os.environ.get("PYTHONPATH")))),
        },
    )
    try:
        yield process
    finally:
        if process.returncode is None:
            process.kill()
