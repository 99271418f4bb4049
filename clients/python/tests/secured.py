"""What the tests of TLS use: certificates of a CA of their own, clients by Python's `ssl`, and keepers behind fronts."""

from __future__ import annotations

import os
import select
import shutil
import socket
import ssl
import subprocess
import tempfile
import threading
from contextlib import contextmanager, suppress
from pathlib import Path
from typing import Any, Callable, Iterator

from by_tls import VARIABLE, trust
from keepers import Keeping, end_left
from pagelog import NamedPrimary, NamedReader, connection, dialing, place
from pagelog.keeper.front import end_fronts
from pagelog.place import Keepers
from pagelog.secure import Trust
from service import PATIENCE, Port

_folders: list[tempfile.TemporaryDirectory[str]] = []


class Certificates:
    """A CA, and what it has signed; each file `NAME.both` has a certificate and its key."""

    def __init__(self) -> None:
        if not _folders:
            _folders.append(tempfile.TemporaryDirectory(prefix="pagelog-certificates-"))
            self._make(Path(_folders[0].name))
        self.folder = Path(_folders[0].name)
        self.ca = self.folder / "ca.pem"

    def _make(self, folder: Path) -> None:
        for ca in ("ca", "other-ca"):
            _openssl(
                folder,
                "req",
                "-x509",
                *_KEY,
                "-nodes",
                "-keyout",
                f"{ca}.key",
                "-out",
                f"{ca}.pem",
                "-days",
                "30",
                "-subj",
                f"/CN={ca}",
            )
        _sign(folder, "good", "ca", "/CN=good")
        _sign(folder, "renewed", "ca", "/CN=renewed")

    def __getitem__(self, name: str) -> Path:
        return self.folder / f"{name}.both"

    def client(self, identity: str) -> Path:
        """That of a client of this database."""
        if not self[identity].exists():
            _sign(self.folder, identity, "ca", f"/O=pagelog/CN={identity}", client=True)
        return self[identity]

    def context(self, client: Path | None = None) -> ssl.SSLContext:
        """What a client trusts, and shows."""
        made = ssl.create_default_context(cafile=str(self.ca))
        if client is not None:
            made.load_cert_chain(client)
        return made


_KEY = ("-newkey", "ec", "-pkeyopt", "ec_paramgen_curve:P-256")


def _openssl(folder: Path, *words: str) -> None:
    subprocess.run(["openssl", *words], cwd=folder, check=True, capture_output=True)


def _sign(folder: Path, name: str, ca: str, subject: str, *, client: bool = False) -> None:
    _openssl(
        folder,
        "req",
        *_KEY,
        "-nodes",
        "-keyout",
        f"{name}.key",
        "-out",
        f"{name}.csr",
        "-subj",
        subject,
    )
    hosts = "" if client else "subjectAltName=DNS:localhost,IP:127.0.0.1\n"
    (folder / f"{name}.ext").write_text(
        f"{hosts}extendedKeyUsage={'clientAuth' if client else 'serverAuth'}\n"
    )
    _openssl(
        folder,
        "x509",
        "-req",
        "-in",
        f"{name}.csr",
        "-CA",
        f"{ca}.pem",
        "-CAkey",
        f"{ca}.key",
        "-CAcreateserial",
        "-days",
        "20",
        "-extfile",
        f"{name}.ext",
        "-out",
        f"{name}.pem",
    )
    (folder / f"{name}.both").touch(mode=0o600)
    (folder / f"{name}.both").write_bytes(
        (folder / f"{name}.pem").read_bytes() + (folder / f"{name}.key").read_bytes()
    )


class Wire:
    """What clients have sent and got over public sockets, byte by byte."""

    def __init__(self) -> None:
        self.bytes = bytearray()
        self.places: set[tuple[str, int]] = set()

    def has(self, *secrets: bytes) -> bool:
        """Whether any of them was to be seen."""
        return any(each in self.bytes for each in secrets)


class _Tunnel:
    """A connection whose far end goes over TLS, if there is a context, and over the wire that is looked at."""

    def __init__(
        self,
        near: socket.socket,
        far: socket.socket,
        context: ssl.SSLContext | None,
        host: str,
        wire: Wire,
    ) -> None:
        self._near, self._far, self._wire = near, far, wire
        self._in, self._out = ssl.MemoryBIO(), ssl.MemoryBIO()
        self._tls = (
            None if context is None else context.wrap_bio(self._in, self._out, server_hostname=host)
        )
        if self._tls is not None:
            self._until(self._tls.do_handshake)

    def _until(self, call: Callable[[], Any]) -> None:
        while True:
            try:
                call()
                return self._flush()
            except ssl.SSLWantReadError:
                self._flush()
                if not self._take():
                    raise ConnectionResetError("cut amid a handshake") from None

    def _flush(self) -> None:
        if data := self._out.read():
            self._wire.bytes += data
            self._far.sendall(data)

    def _take(self) -> bytes:
        data = self._far.recv(1 << 16)
        self._wire.bytes += data
        self._in.write(data)
        return data

    def run(self) -> None:
        with self._near, self._far, suppress(OSError, ValueError):
            while self._pass(select.select([self._near, self._far], [], [])[0]):
                pass

    def _pass(self, ready: list[Any]) -> bool:
        if self._near in ready:
            data = self._near.recv(1 << 16)
            if not data:
                return False
            if self._tls is None:
                self._wire.bytes += data
                self._far.sendall(data)
            else:
                self._tls.write(data)
                self._flush()
        if self._far not in ready:
            return True
        data = self._take()
        if self._tls is None:
            self._near.sendall(data)
        else:
            with suppress(ssl.SSLWantReadError):
                while part := self._tls.read(1 << 16):
                    self._near.sendall(part)
                return False
        return bool(data)


@contextmanager
def clients_by(context: ssl.SSLContext | None) -> Iterator[Wire]:
    """All that this process's clients dial meanwhile goes by TLS, if there is a context, and is looked at."""
    wire, dialed = Wire(), dialing.dial

    def dial(host: str, port: int, timeout: float, trust: Trust | None = None) -> socket.socket:
        far = dialed(host, port, timeout, trust)
        wire.places.add((host, port))
        with socket.create_server(("127.0.0.1", 0)) as listener:
            near = socket.create_connection(listener.getsockname())
            other, _ = listener.accept()
        try:
            tunnel = _Tunnel(other, far, context, host, wire)
        except BaseException:
            for each in (near, other, far):
                each.close()
            raise
        far.settimeout(None)
        threading.Thread(target=tunnel.run, daemon=True).start()
        near.settimeout(timeout)
        for each in (near, other, far):
            each.setsockopt(socket.IPPROTO_TCP, socket.TCP_NODELAY, 1)
        return near

    before = connection.dial, place.dial
    connection.dial = place.dial = dial
    try:
        yield wire
    finally:
        connection.dial, place.dial = before


def answer_of(address: str, line: str | bytes, context: ssl.SSLContext | None) -> str:
    """What a keeper answers at an address to a line; nothing where it ends the connection."""
    host, _, port = address.rpartition(":")
    try:
        with socket.create_connection((host, int(port)), PATIENCE) as plain:
            made = plain if context is None else context.wrap_socket(plain, server_hostname=host)
            with made:
                made.sendall((line.encode() if isinstance(line, str) else line) + b"\n")
                return made.makefile().readline().strip()
    except (ConnectionError, ssl.SSLError):
        return ""


class Secured(Keeping):
    """Keepers with fronts; `also` are further lines of each one's [keeper]."""

    tls_ports = 8

    def __init__(self, *, also: str = "", **options: Any) -> None:
        super().__init__(**options)
        self.certificates = Certificates()
        self.pair = self.folder / "pair.pem"
        self.put("good")
        self.also = also
        self.secure = {name: Port() for name in "abcd"}

    def put(self, name: str) -> None:
        """The keepers' certificate from now on, whole."""
        fresh = self.folder / "pair.new"
        shutil.copy(self.certificates[name], fresh)
        fresh.chmod(0o600)
        fresh.replace(self.pair)

    def lines_of(self, name: str) -> str:
        return self.secure[name].address if "plain = false" in self.also else super().lines_of(name)

    def file_of(self, name: str) -> Path:
        file = self.folder / f"{name}.toml"
        file.touch(mode=0o600)
        file.write_text(
            f'{self.file.read_text()}\ntls = "{self.pair}"\ntls_lines = "{self.secure[name].address}"\ntls_ports = {self.tls_ports}\n{self.also}\n'
        )
        return file

    def __exit__(self, *error: object) -> None:
        for process in self.processes.values():
            process.kill()
            process.wait()
        for name in self.processes:
            end_left(self.folder / name)
            end_fronts(self.folder / name)
        for port in self.secure.values():
            port.close()
        super().__exit__(*error)

    @property
    def secure_addresses(self) -> list[str]:
        return [self.secure[name].address for name in self.processes]


class SecureAlone(Secured):
    """Keepers that nobody reaches but by TLS, and whose clients find whom they trust in their environment."""

    tls_ports = 64

    def __init__(self, **options: Any) -> None:
        super().__init__(also="plain = false", **options)
        os.environ[VARIABLE] = str(self.certificates.ca)
        trust.cache_clear()

    def __exit__(self, *error: object) -> None:
        super().__exit__(*error)
        os.environ.pop(VARIABLE, None)
        trust.cache_clear()

    @property
    def addresses(self) -> list[str]:
        return self.secure_addresses

    def keepers(self, name: str = "shop") -> Keepers:
        return Keepers(name, self.addresses, PATIENCE, trust())

    def primary(self, name: str = "shop", id: int = 2, **options: Any) -> NamedPrimary:
        return super().primary(name, id, **{"trust": trust(), **options})

    def reader(self, name: str = "shop", **options: Any) -> NamedReader:
        return super().reader(name, **{"trust": trust(), **options})
