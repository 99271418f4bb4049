"""A small server that speaks as much of S3 as a store needs: put with MD5, get with a range, versions, list, delete. It checks no key."""

from __future__ import annotations

import base64
import hashlib
import socket
import threading
from contextlib import suppress
from http.server import BaseHTTPRequestHandler, ThreadingHTTPServer
from typing import Any
from urllib.parse import parse_qs, unquote, urlsplit
from xml.sax.saxutils import escape

_PAGE = 3
"""Keys of one page of a list: few, so that there are more pages."""


class S3(ThreadingHTTPServer):
    """Its buckets are there from the start. `answers` are statuses that come in place of the next replies."""

    def __init__(self) -> None:
        super().__init__(("127.0.0.1", 0), _Handler)
        self.objects: dict[str, list[bytes | None]] = {}
        """By path the versions, the oldest first; None is a delete."""
        self.answers: list[int] = []
        self.requests: list[str] = []
        self.confirms = True
        self.locks = False
        """Whether its buckets have object lock."""
        self.holds: set[tuple[str, int]] = set()
        """Versions that have a legal hold, by path and number."""
        self.writes_once = False
        """Whether what has a key is never written again."""
        self.loses = 0
        """So many replies to puts that are done are lost."""
        self.is_silent, self.ends_silence = False, threading.Event()
        self.silent = 0
        """Requests that were taken in silence: none of them is done, and who still waits at its end is hung up."""
        threading.Thread(target=self.serve_forever, daemon=True).start()

    def __exit__(self, *_: object) -> None:
        self.ends_silence.set()
        self.shutdown()
        self.server_close()

    @property
    def url(self) -> str:
        return f"http://127.0.0.1:{self.server_port}"


class _Handler(BaseHTTPRequestHandler):
    server: S3
    protocol_version = "HTTP/1.1"

    def log_message(self, *_: Any) -> None:
        pass

    def _say(self, status: int, data: bytes = b"", **headers: str) -> None:
        self.send_response(status)
        for name, value in headers.items():
            self.send_header(name.replace("_", "-"), value)
        self.send_header("Content-Length", str(len(data)))
        self.end_headers()
        self.wfile.write(data)

    def _fail(self, status: int, code: str) -> None:
        self._say(status, f"<Error><Code>{code}</Code><Message>so it is</Message></Error>".encode())

    def _begin(self) -> tuple[str, dict[str, list[str]], bytes] | None:
        parts = urlsplit(self.path)
        data = self.rfile.read(int(self.headers.get("Content-Length", 0)))
        self.server.requests.append(f"{self.command} {parts.path}")
        if self.server.is_silent:
            self.server.silent += 1
            self.server.ends_silence.wait()
            return self._hang_up()
        if self.server.answers:
            status = self.server.answers.pop(0)
            self._fail(status, "NotImplemented" if status == 501 else "ServiceUnavailable")
            return None
        return unquote(parts.path), parse_qs(parts.query, keep_blank_values=True), data

    def _hang_up(self) -> None:
        self.close_connection = True
        with suppress(OSError):  # who asked may have
            self.connection.shutdown(socket.SHUT_RDWR)

    def do_PUT(self) -> None:
        if (found := self._begin()) is None:
            return
        path, query, data = found
        if "legal-hold" in query:
            return self._hold((path, int(query["versionId"][0])), data)
        wanted = self.headers.get("Content-MD5")
        if wanted is not None and base64.b64decode(wanted) != hashlib.md5(data).digest():
            return self._fail(400, "BadDigest")
        if self.server.writes_once and self.server.objects.get(path, [None])[-1] is not None:
            return self._fail(412, "PreconditionFailed")
        self.server.objects.setdefault(path, []).append(data)
        if self.server.loses:
            self.server.loses -= 1
            return self._hang_up()
        sse = self.headers.get("x-amz-server-side-encryption")
        self._say(
            200, **({"x_amz_server_side_encryption": sse} if sse and self.server.confirms else {})
        )

    def do_GET(self) -> None:
        if (found := self._begin()) is None:
            return
        path, query, _ = found
        if "versions" in query:
            return self._versions(path, query)
        if "object-lock" in query and self.server.locks:
            enabled = b"<ObjectLockEnabled>Enabled</ObjectLockEnabled>"
            return self._say(
                200, b"<ObjectLockConfiguration>%b</ObjectLockConfiguration>" % enabled
            )
        if "versioning" in query or "object-lock" in query:
            return self._fail(404, "ObjectLockConfigurationNotFoundError")
        if "legal-hold" in query:
            if (path, int(query["versionId"][0])) not in self.server.holds:
                return self._fail(404, "NoSuchObjectLockConfiguration")
            return self._say(200, b"<LegalHold><Status>ON</Status></LegalHold>")
        if "list-type" in query:
            return self._list(path, query)
        versions = self.server.objects.get(path, [])
        data = (
            versions[int(query["versionId"][0])]
            if "versionId" in query
            else versions[-1]
            if versions
            else None
        )
        if data is None:
            return self._fail(404, "NoSuchKey")
        if part := self.headers.get("Range"):
            start, _, end = part.removeprefix("bytes=").partition("-")
            if int(start) >= len(data):
                return self._fail(416, "InvalidRange")
            return self._say(206, data[int(start) : int(end) + 1 if end else None])
        self._say(200, data)

    def do_DELETE(self) -> None:
        if (found := self._begin()) is None:
            return
        path, query, _ = found
        if "versionId" not in query:
            self.server.objects.setdefault(path, []).append(None)
        elif (path, number := int(query["versionId"][0])) in self.server.holds:
            return self._fail(403, "AccessDenied")
        else:
            self.server.objects[path][number] = None
        self._say(204)

    def _hold(self, version: tuple[str, int], data: bytes) -> None:
        if not self.server.locks:
            return self._fail(400, "InvalidRequest")
        if self.server.confirms:
            (self.server.holds.add if b">ON<" in data else self.server.holds.discard)(version)
        self._say(200)

    def _list(self, path: str, query: dict[str, list[str]]) -> None:
        prefix, after = query.get("prefix", [""])[0], max(
            query.get("start-after", [""])[0], query.get("continuation-token", [""])[0]
        )
        bucket = path.rstrip("/") + "/"
        there = {
            key[len(bucket) :]: versions[-1]
            for key, versions in self.server.objects.items()
            if versions[-1] is not None
        }
        keys = sorted(key for key in there if key.startswith(prefix) and key > after)
        page = keys[:_PAGE]
        each = "".join(
            f"<Contents><Key>{escape(key)}</Key><Size>{len(there[key] or b'')}</Size></Contents>"
            for key in page
        )
        more = (
            f"<IsTruncated>true</IsTruncated><NextContinuationToken>{escape(page[-1])}</NextContinuationToken>"
            if len(keys) > _PAGE
            else ""
        )
        self._say(200, f"<ListBucketResult>{each}{more}</ListBucketResult>".encode())

    def _versions(self, path: str, query: dict[str, list[str]]) -> None:
        bucket, prefix = path.rstrip("/") + "/", query.get("prefix", [""])[0]
        each = "".join(
            f"<Version><Key>{escape(key[len(bucket) :])}</Key><VersionId>{number}</VersionId></Version>"
            for key, versions in self.server.objects.items()
            if key.startswith(bucket + prefix)
            for number, data in reversed(list(enumerate(versions)))
            if data is not None
        )
        self._say(200, f"<ListVersionsResult>{each}</ListVersionsResult>".encode())
