"""A certificate with its key, in one file: read, tried before anybody is shown it, and shown by servers of this process. And those of
the authorities whose clients are let in."""

from __future__ import annotations

import logging
import os
import ssl
from contextlib import contextmanager
from dataclasses import dataclass, field
from datetime import timezone
from fnmatch import fnmatchcase
from pathlib import Path
from typing import TYPE_CHECKING, Generic, Iterator, TypeVar

from pagelog.errors import PagelogError

if TYPE_CHECKING:
    from cryptography import x509


_log = logging.getLogger("pagelog.keeper")


class CertificateError(PagelogError):
    """A file has no certificate that can be used."""


@contextmanager
def in_memory(data: bytes) -> Iterator[int]:
    """A descriptor of these bytes, which are on no disk. Others open it as `path_of` it."""
    made = os.memfd_create("pagelog", os.MFD_CLOEXEC)
    try:
        with os.fdopen(os.dup(made), "wb") as file:
            file.write(data)
        yield made
    finally:
        os.close(made)


def path_of(descriptor: int) -> str:
    """The path of a descriptor that this process, or one that inherits it, has open."""
    return f"/proc/self/fd/{descriptor}"


@dataclass(frozen=True)
class Pair:
    """A certificate, with what is to be sent with it, and its key. It `ends` at a time of `time.time`, and is good for the `hosts`."""

    pem: bytes = field(repr=False)
    shown: bytes = field(repr=False)
    """The certificate itself, as a peer sees it."""
    ends: float = 0.0
    hosts: frozenset[str] = frozenset()

    @classmethod
    def read(cls, file: Path) -> Pair:
        """Raises `CertificateError`."""
        pem = _private(file)
        try:
            context_of(pem)  # whether the key is that of the certificate
            found = _parsed(pem)
        except (OSError, ValueError) as error:  # an `ssl.SSLError` is an `OSError`
            reason = getattr(error, "reason", None) or "it has no certificate"
            raise CertificateError(f"{file}: no certificate with its key: {reason}") from error
        ends = found.not_valid_after.replace(tzinfo=timezone.utc).timestamp()
        return cls(pem, ssl.PEM_cert_to_DER_cert(_first(pem)), ends, _hosts(found))

    def is_for(self, host: str) -> bool:
        """Whether who asks for this host takes it."""
        return any(
            fnmatchcase(host.lower(), known.lower()) and host.count(".") == known.count(".")
            for known in self.hosts
        )


@dataclass(frozen=True)
class Authorities:
    """The certificates that clients' are to be signed by."""

    pem: bytes = field(repr=False)

    @classmethod
    def read(cls, file: Path) -> Authorities:
        """Raises `CertificateError`."""
        try:
            pem = file.read_bytes()
            ssl.SSLContext(ssl.PROTOCOL_TLS_CLIENT).load_verify_locations(
                cadata=pem.decode("ascii")
            )
        except (OSError, ValueError) as error:
            raise CertificateError(
                f"{file}: no certificates of authorities: {getattr(error, 'strerror', None) or error}"
            ) from error
        return cls(pem)


Read = TypeVar("Read", Pair, Authorities)


class Watched(Generic[Read]):
    """A file that may be replaced. What was read last and could be used stays, whatever comes after it."""

    def __init__(self, file: Path, kind: type[Read]) -> None:
        self.file = file
        self._kind: type[Read] = kind
        self.now: Read | None = None
        self._seen: object = None

    def changed(self) -> bool:
        """Whether it has something else now that can be used. Raises `CertificateError`, once for each content that cannot be."""
        seen = self._signature()
        if seen == self._seen:
            return False
        self._seen = seen
        before, self.now = self.now, self._kind.read(self.file)
        return self.now != before

    def read(self) -> Read:
        """What can be used. Raises `CertificateError`, each time."""
        if self.now is None:
            self._seen = None
            self.changed()
        assert self.now is not None
        return self.now

    def _signature(self) -> object:
        try:
            told = self.file.stat()
        except OSError as error:
            return error.errno
        return told.st_mtime_ns, told.st_size, told.st_ino


class Shown:
    """What servers in this process show: the newest pair to each new connection. Those that are open go on."""

    def __init__(self) -> None:
        self.context = ssl.SSLContext(ssl.PROTOCOL_TLS_SERVER)
        """For the servers. Until there is a pair every handshake fails."""
        self.context.minimum_version = ssl.TLSVersion.TLSv1_3
        self._newest = self.context
        self.context.sni_callback = self._choose

    def renew(self, pair: Pair) -> None:
        """From now on this one."""
        self._newest = context_of(pair.pem)

    def _choose(
        self, line: ssl.SSLSocket | ssl.SSLObject, name: str | None, context: ssl.SSLContext
    ) -> None:
        line.context = (
            self._newest
        )  # to load another into a context that is in use would be seen half


class ShownFile(Shown):
    """The same of a file, which is looked at with each new connection. What cannot be used leaves the one before in force."""

    def __init__(self, file: Path) -> None:
        """Raises `CertificateError`."""
        super().__init__()
        self._file = Watched(file, Pair)
        self.renew(self._file.read())

    def _choose(
        self, line: ssl.SSLSocket | ssl.SSLObject, name: str | None, context: ssl.SSLContext
    ) -> None:
        try:
            if self._file.changed() and self._file.now is not None:
                self.renew(self._file.now)
        except CertificateError as error:
            _log.warning("%s; what was read before stays in force", error)
        super()._choose(line, name, context)


def context_of(pem: bytes) -> ssl.SSLContext:
    """A fresh one of a server. Raises `ssl.SSLError` where the key is not the certificate's."""
    made = ssl.SSLContext(ssl.PROTOCOL_TLS_SERVER)
    made.minimum_version = ssl.TLSVersion.TLSv1_3
    with in_memory(pem) as descriptor:
        made.load_cert_chain(
            path_of(descriptor), password=lambda: ""
        )  # else it would ask at the terminal
    return made


def _private(file: Path) -> bytes:
    try:
        with file.open("rb") as opened:
            if os.fstat(opened.fileno()).st_mode & 0o007:
                raise CertificateError(f"others may read {file}, which has a key: chmod 640 {file}")
            return opened.read()
    except OSError as error:
        raise CertificateError(f"{file}: {error.strerror}") from error


def _first(pem: bytes) -> str:
    begin, end = b"-----BEGIN CERTIFICATE-----", b"-----END CERTIFICATE-----"
    return pem[pem.index(begin) : pem.index(end) + len(end)].decode("ascii") + "\n"


def _parsed(pem: bytes) -> x509.Certificate:
    """Raises `ValueError`, or `CertificateError`."""
    try:
        from cryptography import x509  # who needs no certificate needs no such package
    except ImportError as error:
        raise CertificateError(
            "certificates cannot be read: apt-get install python3-cryptography"
        ) from error
    return x509.load_pem_x509_certificate(pem)


def _hosts(found: x509.Certificate) -> frozenset[str]:
    from cryptography import x509

    try:
        names = found.extensions.get_extension_for_class(x509.SubjectAlternativeName).value
    except x509.ExtensionNotFound:
        return frozenset()
    return frozenset(
        [
            *names.get_values_for_type(x509.DNSName),
            *map(str, names.get_values_for_type(x509.IPAddress)),
        ]
    )
