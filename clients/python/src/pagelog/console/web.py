"""Serves the page, its JSON and its events. Nothing that a browser asks for changes anything but its own login."""

from __future__ import annotations

import asyncio
import hashlib
import json
import socket
from importlib.resources import files
from typing import Any, Awaitable, Callable

from aiohttp import web

from pagelog.console.board import Board
from pagelog.console.door import COOKIE, LASTS, Door

LISTENERS = 200
"""How many browsers may follow at once."""
PATIENCE = 20.0
"""Seconds after which a browser that takes nothing is left."""
BUFFER = 1 << 17
"""Bytes that the system keeps for one browser."""
_KINDS = {"html": "text/html", "css": "text/css", "js": "text/javascript", "svg": "image/svg+xml"}
_OPEN = ("/login", "/logout", "/static/style.css", "/static/icon.svg")
"""What is answered to those who have no token yet."""
_HEADERS = {
    "Content-Security-Policy": "default-src 'none'; script-src 'self'; style-src 'self'; img-src 'self'; connect-src 'self'; "
    "form-action 'self'; base-uri 'none'; frame-ancestors 'none'",
    "X-Content-Type-Options": "nosniff",
    "X-Frame-Options": "DENY",
    "Referrer-Policy": "no-referrer",
    "Cross-Origin-Opener-Policy": "same-origin",
    "Cross-Origin-Resource-Policy": "same-origin",
    "Server": "pagelog console",
}
Handler = Callable[[web.Request], Awaitable[web.StreamResponse]]


class WebPages:
    """The answers. `watched` is told whether anybody follows, and `is_secure` is whether browsers come by TLS."""

    def __init__(
        self, board: Board, door: Door, watched: Callable[[bool], None], *, is_secure: bool = False
    ) -> None:
        self.board, self.door, self._watched, self._is_secure = board, door, watched, is_secure
        self._files = {
            entry.name: entry.read_bytes()
            for entry in files(__package__).joinpath("static").iterdir()
        }
        self._following: set[asyncio.Task[Any]] = set()

    def application(self) -> web.Application:
        """The application, for any runner."""
        made = web.Application(middlewares=[self._guard], client_max_size=4096)
        made.on_response_prepare.append(_add_headers)
        made.on_shutdown.append(self._leave)
        made.add_routes(
            [
                web.get("/", self.page),
                web.get("/static/{name}", self.file),
                web.get("/login", self.login_page),
                web.post("/login", self.login),
                web.post("/logout", self.logout),
                web.get("/api/state", self.state),
                web.get("/api/databases/{name}", self.database),
                web.get("/api/events", self.events, allow_head=False),
            ]
        )
        return made

    @web.middleware
    async def _guard(self, request: web.Request, handler: Handler) -> web.StreamResponse:
        if self.door.lets_in(request) or (self.door.wants_token and request.path in _OPEN):
            return await handler(request)
        if not self.door.wants_token:
            raise web.HTTPMisdirectedRequest(
                text="this console is for this machine alone: ask for it as localhost\n"
            )
        if request.path == "/":
            raise web.HTTPSeeOther("/login")
        raise web.HTTPUnauthorized(
            text="a token is wanted\n", headers={"WWW-Authenticate": "Bearer"}
        )

    # The page.

    def _file(self, request: web.Request, name: str) -> web.StreamResponse:
        found = self._files.get(name)
        if found is None:
            raise web.HTTPNotFound(text="there is no such file\n")
        tag = hashlib.sha256(found).hexdigest()[:32]
        if any(each.value == tag for each in request.if_none_match or ()):
            return web.Response(status=304, headers={"ETag": f'"{tag}"'})
        return web.Response(
            body=found,
            content_type=_KINDS[name.rpartition(".")[2]],
            charset="utf-8",
            headers={"ETag": f'"{tag}"', "Cache-Control": "no-cache"},
        )

    async def page(self, request: web.Request) -> web.StreamResponse:
        """The one page."""
        return self._file(request, "index.html")

    async def file(self, request: web.Request) -> web.StreamResponse:
        """A file of it."""
        return self._file(request, request.match_info["name"])

    # Logins.

    async def login_page(self, request: web.Request) -> web.StreamResponse:
        """Where the token is given."""
        return self._file(request, "login.html")

    async def login(self, request: web.Request) -> web.StreamResponse:
        """Gives a cookie for the token."""
        if not self.door.is_token(str((await request.post()).get("token", "")).strip()):
            wrong = self._files["login.html"].replace(b'class="wrong" hidden', b'class="wrong"')
            return web.Response(status=403, body=wrong, content_type="text/html", charset="utf-8")
        response = web.HTTPSeeOther("/")
        response.set_cookie(
            COOKIE,
            self.door.cookie(),
            max_age=LASTS,
            httponly=True,
            samesite="Strict",
            secure=self._is_secure,
        )
        return response

    async def logout(self, request: web.Request) -> web.StreamResponse:
        """Takes the cookie away, also from who has a copy of it."""
        self.door.end(request.cookies.get(COOKIE, ""))
        response = web.HTTPSeeOther("/login")
        response.del_cookie(COOKIE)
        return response

    # Data.

    async def state(self, _: web.Request) -> web.StreamResponse:
        """All that the table shows, and the latest events."""
        await self.board.newer_than(0)
        return _json(self.board.state())

    async def database(self, request: web.Request) -> web.StreamResponse:
        """What is shown of one database."""
        await self.board.newer_than(0)
        found = self.board.detail(request.match_info["name"])
        return _json({"error": "there is no such database"}, 404) if found is None else _json(found)

    async def events(self, request: web.Request) -> web.StreamResponse:
        """An event `look` for each look: first all, then what is other than at the event before."""
        if len(self._following) >= LISTENERS:
            raise web.HTTPServiceUnavailable(
                text=f"{LISTENERS} browsers follow already\n", headers={"Retry-After": "10"}
            )
        task = asyncio.current_task()
        assert task is not None
        self._following.add(task)
        self._watched(True)
        try:
            return await self._follow(request)
        finally:
            self._following.discard(task)
            self._watched(bool(self._following))

    async def _follow(self, request: web.Request) -> web.StreamResponse:
        response = web.StreamResponse(
            headers={"Content-Type": "text/event-stream", "X-Accel-Buffering": "no"}
        )
        await response.prepare(request)
        assert request.transport is not None
        request.transport.get_extra_info("socket").setsockopt(
            socket.SOL_SOCKET, socket.SO_SNDBUF, BUFFER
        )
        number, lead = 0, "retry: 1000\n"
        while True:
            await self.board.newer_than(number)
            message, number = self.board.since(number), self.board.number
            try:
                await asyncio.wait_for(
                    response.write(
                        f"{lead}id: {number}\nevent: look\ndata: {message}\n\n".encode()
                    ),
                    PATIENCE,
                )
            except (asyncio.TimeoutError, ConnectionError):
                if request.transport is not None:
                    request.transport.abort()
                return response
            lead = ""

    async def _leave(self, _: web.Application) -> None:
        for task in list(self._following):
            task.cancel()


async def _add_headers(_: web.Request, response: web.StreamResponse) -> None:
    for name, value in _HEADERS.items():
        response.headers[name] = value
    response.headers.setdefault("Cache-Control", "no-store")


def _json(found: dict[str, Any], status: int = 200) -> web.Response:
    return web.Response(text=json.dumps(found), status=status, content_type="application/json")
