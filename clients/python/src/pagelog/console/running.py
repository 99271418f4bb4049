"""A console's life: a thread that looks, and a loop that answers, until a signal, or for as long as a keeper runs."""

from __future__ import annotations

import asyncio
import logging
import signal
import ssl
from concurrent.futures import Future
from contextlib import suppress
from functools import partial
from threading import Thread
from typing import Callable, Iterable

from aiohttp import web
from aiohttp.http_exceptions import HttpProcessingError

from pagelog.console.board import Board, Limits
from pagelog.console.door import Door
from pagelog.console.source import Source
from pagelog.console.watcher import Watcher
from pagelog.console.web import WebPages


class _OwnFaults(logging.Filter):
    """Leaves out what somebody has sent that is no HTTP: a traceback for each would fill the log."""

    def filter(self, record: logging.LogRecord) -> bool:
        return not (record.exc_info and isinstance(record.exc_info[1], HttpProcessingError))


_log = logging.getLogger("pagelog.console")
_log.addFilter(_OwnFaults())


async def run(
    source: Source,
    limits: Limits,
    door: Door,
    host: str,
    port: int,
    listening: Callable[[int], None],
    signals: Iterable[int] = (signal.SIGTERM, signal.SIGINT),
    *,
    context: ssl.SSLContext | None = None,
) -> None:
    """Serves until one of the signals, by TLS where there is a context. `listening` is told the port. Raises `OSError` where it cannot
    listen there."""
    loop, board, ended = asyncio.get_running_loop(), Board(limits), asyncio.Event()
    watcher = Watcher(source, partial(_tell, loop, board.take), partial(_tell, loop, board.miss))
    runner = web.AppRunner(
        WebPages(board, door, watcher.watch, is_secure=context is not None).application(),
        access_log=None,
        logger=_log,
    )
    await runner.setup()
    try:
        await web.TCPSite(runner, host, port, ssl_context=context).start()
        for number in signals:
            loop.add_signal_handler(number, ended.set)
        watcher.start()
        listening(runner.addresses[0][1])
        await ended.wait()
    finally:
        await runner.cleanup()


def begin(
    source: Source,
    limits: Limits,
    door: Door,
    host: str,
    port: int,
    context: ssl.SSLContext | None = None,
) -> int:
    """Serves in a thread, with a loop of its own, for as long as the program runs. Returns the port. Raises `OSError`, or
    `UnicodeError` for a host that is no name."""
    listening: Future[int] = Future()

    def serve() -> None:
        try:
            asyncio.run(
                run(source, limits, door, host, port, listening.set_result, (), context=context)
            )
        except BaseException as error:  # whatever it is: who began it waits for its word
            if listening.done():
                raise
            listening.set_exception(error)

    Thread(target=serve, name="console", daemon=True).start()
    return listening.result()


def _tell(loop: asyncio.AbstractEventLoop, call: Callable[..., None], *arguments: object) -> None:
    with suppress(RuntimeError):  # the loop has ended
        loop.call_soon_threadsafe(call, *arguments)
