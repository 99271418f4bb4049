"""TLS of connections to services and keepers: TLS 1.3 alone, by Python's `ssl`.

    trust = Trust("ca.pem")
    primary = Primary.named("shop", keepers=["10.0.0.1:7500"], principal=2, token=.., operator=(1, ..), trust=trust)

The words are libpq's: `sslmode`, `sslrootcert`, `sslcert`, `sslkey`.
"""

from __future__ import annotations

import os
import select
import socket
import ssl
import stat
import threading
import time
from pathlib import Path
from typing import Any, Mapping, NamedTuple

from pagelog.errors import CredentialsError

WORDS = ("sslmode", "sslrootcert", "sslcert", "sslkey")
_FILES = WORDS[1:]
_RECORD = 16384
"""The most bytes of a record of TLS."""
_PEERS = 32
"""Of so many peers the newest session is kept."""


class SecurityError(OSError):
    """TLS with a peer has failed: its certificate is not what was asked for, it refuses this client's, or it speaks none."""


class _Session(NamedTuple):
    session: ssl.SSLSession
    ends: float
    """When the certificate that it stands for does."""


class Trust:
    """Whom a client believes, and who it is.

    The peer has to show a certificate of a CA in `sslrootcert`, for the very host that was asked for, a DNS name or an IP address of
    its subjectAltName. `sslcert` is this client's certificate, with the chain above it, and `sslkey` its key, which nobody else may
    read. All are PEM files. They are read now, and again before a connection where one of them has changed since; where what has
    changed cannot be used, what was read before stays in force. It may be shared by threads.
    """

    def __init__(
        self,
        sslrootcert: str | Path,
        sslcert: str | Path | None = None,
        sslkey: str | Path | None = None,
    ) -> None:
        """Raises `CredentialsError`, which begins with the name of the word that is wrong."""
        self._paths = tuple(
            None if path is None else str(path) for path in (sslrootcert, sslcert, sslkey)
        )
        if (sslcert is None) != (sslkey is None):
            raise CredentialsError(f"{'sslkey' if sslkey is None else 'sslcert'}: it is missing")
        self._lock = threading.Lock()
        self._seen = self._looks()
        self._context = _context(*self._paths)
        self._sessions: dict[tuple[str, int], _Session] = {}

    @property
    def files(self) -> tuple[str | None, ...]:
        """The paths of `sslrootcert`, `sslcert` and `sslkey`. Who has the same ones believes the same."""
        return self._paths

    def wrap(self, made: socket.socket, host: str, timeout: float) -> ssl.SSLSocket:
        """The socket with TLS over it, once a handshake of so many seconds at most has shown that it leads to this host. It is closed where
        that fails. Raises `SecurityError`, a `TimeoutError`, or another `OSError`."""
        try:
            made.settimeout(timeout)
        except BaseException:
            made.close()
            raise
        found = self.begin(made, host)
        try:
            found.do_handshake()
        except BaseException as error:
            found.close()
            raise _told(error) from error
        return found

    def begin(self, made: socket.socket, host: str) -> Secured:
        """The connected socket with TLS over it, once `shake` has shown that it leads to this host. It is closed where that cannot be begun.
        Raises `SecurityError`, or another `OSError`."""
        try:
            peer = host, int(made.getpeername()[1])
            context, session = self._current(peer)
            found = context.wrap_socket(
                made, server_hostname=host, do_handshake_on_connect=False, session=session
            )
        except BaseException as error:
            made.close()
            raise _told(error) from error
        assert isinstance(found, Secured)
        found.keeps = lambda: self._keep(peer, found)
        return found

    def _looks(self) -> list[object]:
        return [_look(path) for path in self._paths]

    def _current(self, peer: tuple[str, int]) -> tuple[ssl.SSLContext, ssl.SSLSession | None]:
        """The context of the files as they are, and the session that is known of the peer."""
        with self._lock:
            looks = self._looks()
            if looks != self._seen:
                self._seen = looks
                try:
                    self._context = _context(*self._paths)
                    self._sessions.clear()
                except CredentialsError:
                    pass  # as where the key of a new certificate has not been written yet
            known = self._sessions.get(peer)
            return (
                self._context,
                known.session if known is not None and known.ends > time.time() else None,
            )

    def _keep(self, peer: tuple[str, int], found: ssl.SSLSocket) -> None:
        """Keeps the session of a connection: one that is taken up again is not verified again, so it is of this host alone."""
        certificate: Mapping[str, Any] = found.getpeercert() or {}
        session, ends = found.session, certificate.get("notAfter")
        with self._lock:
            if (
                session is not None
                and session.has_ticket
                and ends is not None
                and found.context is self._context
            ):
                self._sessions.pop(peer, None)
                self._sessions[peer] = _Session(session, ssl.cert_time_to_seconds(ends))
                if len(self._sessions) > _PEERS:
                    del self._sessions[next(iter(self._sessions))]


def trust_of(*layers: Mapping[str, str]) -> Trust | None:
    """What these words ask for, those of the first layer before those of the next; None for no TLS. Raises `CredentialsError`.

    Where a CA or a certificate is named the mode is verify-full. `disable` stands where it is nearer than each of these names, and is
    refused beside them: nothing takes TLS away silently.
    """
    found = {
        word: (rank, layer[word])
        for rank, layer in reversed(list(enumerate(layers)))
        for word in WORDS
        if word in layer
    }
    files = {word: found[word][1] for word in _FILES if word in found}
    rank, mode = found.get("sslmode", (0, None))
    if mode not in (None, "disable", "verify-full"):
        raise CredentialsError(f"sslmode is disable or verify-full, and not {mode}")
    if mode == "disable":
        if any(found[word][0] <= rank for word in files):
            raise CredentialsError(
                "sslmode=disable contradicts a CA or a certificate that is named beside it"
            )
        return None
    if mode is None and not files:
        return None
    for word, path in files.items():
        if not isinstance(path, str) or not path:
            raise CredentialsError(f"{word}: its path is empty")
    if "sslrootcert" not in files:
        raise CredentialsError("sslrootcert: it is missing")
    return Trust(**files)


def of_environment(environment: Mapping[str, str]) -> dict[str, str]:
    """The words of PAGELOG_SSLMODE and the like."""
    return {
        word: environment[name]
        for word in WORDS
        if (name := f"PAGELOG_{word.upper()}") in environment
    }


class Secured(ssl.SSLSocket):
    """A socket with TLS over it, that says what a plain one says: `BlockingIOError` where there is nothing yet, and nothing at the end. Once
    it has been ended, as by another thread, what comes is not read any more, encrypted or not."""

    keeps: Any = None
    """Called once, with what has come first: by then the peer has given its sessions."""
    _failed: OSError | None = None

    def shake(self) -> int:
        """Goes on with the handshake, and waits for nothing: 0 once it is done, or else what of `select` is to be waited for. Raises `OSError`."""
        try:
            self.do_handshake()
        except ssl.SSLWantReadError:
            return select.POLLIN
        except ssl.SSLWantWriteError:
            return select.POLLOUT
        except BaseException as error:
            raise _told(error) from error
        return 0

    def recv(self, buflen: int = _RECORD, flags: int = 0) -> bytes:
        """What has come, as far as `buflen` bytes, or one record: nothing is left that no poll tells of."""
        if self._failed is not None:
            raise self._failed
        data = part = self._received(max(buflen, _RECORD))
        while len(part) == _RECORD and len(data) < buflen:
            try:
                part = self._received(_RECORD)
            except BlockingIOError:
                break
            except OSError as error:
                self._failed = error  # first what came before
                break
            data += part
        if data and self.keeps is not None:
            keeps, self.keeps = self.keeps, None
            keeps()
        return data

    def _received(self, most: int) -> bytes:
        try:
            data = self._object().read(most)
        except ssl.SSLError as error:
            if isinstance(error, (ssl.SSLZeroReturnError, ssl.SSLEOFError)):
                return b""
            raise _told(error) from error
        assert isinstance(data, bytes)
        return data

    def send(self, data: Any, flags: int = 0) -> int:
        """Sends as much as goes at once."""
        sent = 0
        while sent < len(data):
            try:
                sent += self._object().write(data[sent : sent + _RECORD])
            except (ssl.SSLWantReadError, ssl.SSLWantWriteError):
                if sent:
                    break
                raise BlockingIOError() from None
            except OSError as error:
                raise self._last_word() or _told(error) from error
        return sent

    def _last_word(self) -> SecurityError | None:
        """Why the peer has ended the connection, if it has said so: one that refuses a certificate does after the handshake."""
        try:
            self._object().read(1)
        except ssl.SSLError as error:
            told = _told(error)
            return told if isinstance(told, SecurityError) else None
        except OSError:
            pass
        return None

    def _object(self) -> Any:
        """OpenSSL's: without it nothing is sent or read. That of the base class would go on in plain text."""
        if self._sslobj is None:  # type: ignore[attr-defined]
            raise OSError("the connection is closed")
        return self._sslobj  # type: ignore[attr-defined]

    def shutdown(self, how: int) -> None:
        """Ends the connection, for who waits for it too. That of the base class forgets that it was encrypted."""
        socket.socket.shutdown(self, how)


def _told(error: BaseException) -> BaseException:
    """The exception in place of one of `ssl`."""
    if isinstance(error, (ssl.SSLWantReadError, ssl.SSLWantWriteError)):
        return BlockingIOError()
    if isinstance(error, ssl.SSLCertVerificationError):
        return SecurityError(f"TLS: {error.verify_message}")
    if isinstance(error, (ssl.SSLEOFError, ssl.SSLZeroReturnError)):
        return SecurityError("TLS: unexpected eof while reading")
    if isinstance(error, ssl.SSLError):
        return SecurityError(f"TLS: {(error.reason or str(error)).replace('_', ' ').lower()}")
    return error


def _look(path: str | None) -> object:
    try:
        told = os.stat(path or "")
        return told.st_dev, told.st_ino, told.st_size, told.st_mtime_ns
    except (OSError, ValueError):
        return None


def _no_passphrase() -> str:
    """Of a key that has one: nobody is asked for it."""
    return ""


def _context(sslrootcert: str | None, sslcert: str | None, sslkey: str | None) -> ssl.SSLContext:
    context = ssl.SSLContext(ssl.PROTOCOL_TLS_CLIENT)
    context.sslsocket_class = Secured
    context.minimum_version = context.maximum_version = ssl.TLSVersion.TLSv1_3
    context.hostname_checks_common_name = False
    assert context.check_hostname and context.verify_mode is ssl.CERT_REQUIRED
    word, path = "sslrootcert", sslrootcert
    try:
        context.load_verify_locations(sslrootcert)
        if sslcert is not None and sslkey is not None:
            word, path = "sslkey", sslkey
            _check_key(sslkey)
            word, path = "sslcert", sslcert
            ssl.SSLContext(ssl.PROTOCOL_TLS_CLIENT).load_verify_locations(
                sslcert
            )  # that it has certificates
            word, path = "sslkey", sslkey
            context.load_cert_chain(sslcert, sslkey, _no_passphrase)
    except ssl.SSLError as error:
        raise CredentialsError(
            f"{word}: {path}: {(error.reason or 'not readable').replace('_', ' ').lower()}"
        ) from error
    except (OSError, ValueError) as error:
        raise CredentialsError(
            f"{word}: {path}: {getattr(error, 'strerror', None) or error}"
        ) from error
    return context


def _check_key(path: str) -> None:
    """As libpq: a group may read a key where the system's administrator says so."""
    with open(path, "rb") as opened:
        told = os.fstat(opened.fileno())
    if stat.S_ISREG(told.st_mode) and told.st_mode & (0o027 if told.st_uid == 0 else 0o077):
        raise CredentialsError(f"sslkey: {path}: others may read it")
