"""For tests: certificates, made by openssl when they are needed, and peers that speak TLS as OpenSSL does, well or not.

A `Terminator` takes TLS off connections and carries what is inside to a service, as haproxy does before a keeper's. It is OpenSSL itself,
called by ctypes, so that it can do what Python's `ssl` cannot: records of any size, tickets and key updates where they are not expected.
"""

from __future__ import annotations

import contextlib
import ctypes
import select
import socket
import subprocess
import threading
from pathlib import Path

_HOSTS = "DNS:localhost,IP:127.0.0.1,IP:::1"
_CA_FILE = """[ca]
default_ca = d
[d]
database = index
serial = serial
new_certs_dir = .
default_md = sha256
policy = p
unique_subject = no
[p]
commonName = supplied
"""


class Authority:
    """A folder of PEM files: `NAME.pem` and `NAME.key`. Its CA is `ca`; `other` is another one."""

    def __init__(self, folder: str | Path, host: str | None = None) -> None:
        """`host` is one more address of this machine that a good certificate is for."""
        self.folder = Path(folder)
        self.hosts = _HOSTS + (f",IP:{host}" if host else "")
        for name in ("ca", "other"):
            self._openssl(
                "req",
                "-x509",
                *_KEY,
                "-keyout",
                f"{name}.key",
                "-out",
                f"{name}.pem",
                "-days",
                "3650",
                "-subj",
                f"/CN={name}",
                "-addext",
                "basicConstraints=critical,CA:TRUE",
                "-addext",
                "keyUsage=critical,keyCertSign,cRLSign",
            )

    def __truediv__(self, name: str) -> str:
        return str(self.folder / name)

    def make(
        self,
        name: str,
        hosts: str | None = None,
        *,
        usage: str = "serverAuth",
        ca: str = "ca",
        common: str | None = None,
        dates: tuple[str, str] = ("20200101000000Z", "20991231000000Z"),
    ) -> str:
        """A certificate and its key. Returns the path of both without the suffix."""
        (self.folder / "ca.cnf").write_text(_CA_FILE)
        (self.folder / "index").write_text("")
        if not (self.folder / "serial").exists():
            (self.folder / "serial").write_text("01\n")
        wanted = hosts if hosts is not None else self.hosts
        names = f"subjectAltName={wanted}\n" if wanted else ""
        (self.folder / "extensions").write_text(
            f"{names}extendedKeyUsage={usage}\nkeyUsage=digitalSignature\n"
        )
        self._openssl(
            "req",
            *_KEY,
            "-keyout",
            f"{name}.key",
            "-out",
            "request",
            "-subj",
            f"/CN={common or name}",
        )
        self._openssl(
            "ca",
            "-batch",
            "-notext",
            "-config",
            "ca.cnf",
            "-cert",
            f"{ca}.pem",
            "-keyfile",
            f"{ca}.key",
            "-in",
            "request",
            "-out",
            f"{name}.pem",
            "-extfile",
            "extensions",
            "-startdate",
            dates[0],
            "-enddate",
            dates[1],
        )
        (self.folder / f"{name}.key").chmod(0o600)
        return str(self.folder / name)

    def _openssl(self, *words: str) -> None:
        done = subprocess.run(["openssl", *words], cwd=self.folder, capture_output=True, text=True)
        if done.returncode != 0:
            raise RuntimeError(f"openssl {' '.join(words)}: {done.stderr}")


_KEY = ("-newkey", "ec", "-pkeyopt", "ec_paramgen_curve:P-256", "-nodes")


def _load() -> ctypes.CDLL:
    lib = ctypes.CDLL("libssl.so.3")
    pointers = {
        "TLS_server_method": (),
        "SSL_CTX_new": (ctypes.c_void_p,),
        "SSL_new": (ctypes.c_void_p,),
    }
    for name, arguments in pointers.items():
        getattr(lib, name).restype, getattr(lib, name).argtypes = ctypes.c_void_p, arguments
    text, number, pointer, long = ctypes.c_char_p, ctypes.c_int, ctypes.c_void_p, ctypes.c_long
    numbers = {
        "SSL_CTX_use_certificate_chain_file": (pointer, text),
        "SSL_CTX_use_PrivateKey_file": (pointer, text, number),
        "SSL_CTX_load_verify_file": (pointer, text),
        "SSL_CTX_ctrl": (pointer, number, long, pointer),
        "SSL_set_fd": (pointer, number),
        "SSL_accept": (pointer,),
        "SSL_read": (pointer, text, number),
        "SSL_write": (pointer, text, number),
        "SSL_pending": (pointer,),
        "SSL_key_update": (pointer, number),
        "SSL_new_session_ticket": (pointer,),
        "SSL_do_handshake": (pointer,),
        "SSL_session_reused": (pointer,),
        "SSL_shutdown": (pointer,),
        "SSL_CTX_set_session_id_context": (pointer, text, ctypes.c_uint),
        "SSL_get_error": (pointer, number),
    }
    for name, arguments in numbers.items():
        getattr(lib, name).argtypes = arguments
    for name in ("SSL_free", "SSL_CTX_free"):
        getattr(lib, name).argtypes, getattr(lib, name).restype = (pointer,), None
    lib.SSL_CTX_set_verify.argtypes, lib.SSL_CTX_set_verify.restype = (
        pointer,
        number,
        pointer,
    ), None
    return lib


_NO_AUTO_RETRY, _WANTS_TO_READ = (
    78,
    4,
), 2  # SSL_CTRL_CLEAR_MODE with SSL_MODE_AUTO_RETRY; SSL_ERROR_WANT_READ
_LOWEST, _HIGHEST, _VERSION = (
    123,
    124,
    {"1.2": 0x303, "1.3": 0x304},
)  # SSL_CTRL_SET_MIN_PROTO_VERSION, and of TLS


class Terminator:
    """Listens with a certificate, and carries what is inside to `target`. Ends with the `with`."""

    def __init__(
        self,
        certificate: str,
        target: str,
        *,
        clients: str | None = None,
        version: str = "1.3",
        record: int = 16384,
        odd: bool = False,
        host: str = "127.0.0.1",
    ) -> None:
        """`certificate` is the path of both files without the suffix, and `clients` the CA of certificates that clients have to show.
        A record has at most so many bytes; where it is `odd`, tickets and key updates come between them.
        """
        self.lib, self.record, self.odd = _load(), record, odd
        self.context = self.lib.SSL_CTX_new(self.lib.TLS_server_method())
        good = self.lib.SSL_CTX_use_certificate_chain_file(
            self.context, f"{certificate}.pem".encode()
        )
        good = good and self.lib.SSL_CTX_use_PrivateKey_file(
            self.context, f"{certificate}.key".encode(), 1
        )
        if clients:
            good = good and self.lib.SSL_CTX_load_verify_file(self.context, clients.encode())
            self.lib.SSL_CTX_set_verify(
                self.context, 3, None
            )  # SSL_VERIFY_PEER, and it fails without a certificate
            self.lib.SSL_CTX_set_session_id_context(self.context, b"pagelog", 7)
        self.lib.SSL_CTX_ctrl(self.context, *_NO_AUTO_RETRY, None)
        for which in (_LOWEST, _HIGHEST):
            self.lib.SSL_CTX_ctrl(self.context, which, _VERSION[version], None)
        if not good:
            raise RuntimeError(f"{certificate} cannot be used")
        self.target = target.rsplit(":", 1)[0].strip("[]"), int(target.rsplit(":", 1)[1])
        self.listener = socket.create_server((host, 0), backlog=128)
        self.host, self.port = host, self.listener.getsockname()[1]
        self.address = f"{host}:{self.port}"
        self.shaken = self.reused = self.failed = self.written = 0
        self.ends: list[socket.socket] = []
        self.thread = threading.Thread(target=self._accept, daemon=True)
        self.thread.start()

    def __enter__(self) -> Terminator:
        return self

    def __exit__(self, *_: object) -> None:
        with contextlib.suppress(OSError):
            self.listener.shutdown(socket.SHUT_RDWR)
        self.listener.close()
        self.cut()

    def cut(self) -> None:
        """Ends each connection."""
        for end in self.ends:
            with contextlib.suppress(OSError):
                end.shutdown(socket.SHUT_RDWR)
        self.ends = []

    def _accept(self) -> None:
        while True:
            try:
                client, _ = self.listener.accept()
            except OSError:
                return
            threading.Thread(target=self._serve, args=(client,), daemon=True).start()

    def _serve(self, client: socket.socket) -> None:
        client.setsockopt(socket.IPPROTO_TCP, socket.TCP_NODELAY, 1)
        self.ends.append(client)
        ssl = self.lib.SSL_new(self.context)
        self.lib.SSL_set_fd(ssl, client.fileno())
        try:
            if self.lib.SSL_accept(ssl) == 1:
                self.shaken += 1
                self.reused += self.lib.SSL_session_reused(ssl)
                with socket.create_connection(self.target, 20) as service:
                    service.setsockopt(socket.IPPROTO_TCP, socket.TCP_NODELAY, 1)
                    self.ends.append(service)
                    self._carry(ssl, client, service)
                self.lib.SSL_shutdown(ssl)
            else:
                self.failed += 1
        except OSError:
            pass
        finally:
            self.lib.SSL_free(ssl)
            client.close()

    def _carry(self, ssl: int, client: socket.socket, service: socket.socket) -> None:
        room = ctypes.create_string_buffer(65536)
        while True:
            for source in select.select([client, service], [], [])[0]:
                if source is service:
                    data = service.recv(65536)
                    if not data or not self._write(ssl, data):
                        return
                    continue
                while True:
                    count = self.lib.SSL_read(ssl, room, len(room))
                    if count <= 0 and self.lib.SSL_get_error(ssl, count) == _WANTS_TO_READ:
                        break  # it was a key update
                    if count <= 0:
                        return
                    service.sendall(room.raw[:count])
                    if not self.lib.SSL_pending(ssl):
                        break

    def _write(self, ssl: int, data: bytes) -> bool:
        for number, at in enumerate(range(0, len(data), self.record)):
            piece = data[at : at + self.record]
            if self.lib.SSL_write(ssl, piece, len(piece)) <= 0:
                return False
            self.written += len(piece)
            if self.odd and number % 3 == 0:
                self.lib.SSL_key_update(
                    ssl, number // 3 % 2
                )  # it asks for one of the client each second time
                self.lib.SSL_do_handshake(ssl)
            elif self.odd and number % 3 == 1:
                self.lib.SSL_new_session_ticket(ssl)
                self.lib.SSL_do_handshake(ssl)
        return True


class Halting:
    """Carries the bytes of connections to `target`, and of each connection so many of those that come back, and of those that go there: then
    it cuts it, or where it `stands` is silent."""

    def __init__(self, target: str, stands: bool = False) -> None:
        self.target, self.stands = (target.rsplit(":", 1)[0], int(target.rsplit(":", 1)[1])), stands
        self.left, self.toward = 0, 1 << 60
        self.listener = socket.create_server(("127.0.0.1", 0), backlog=128)
        self.address = f"127.0.0.1:{self.listener.getsockname()[1]}"
        self.came = self.went = 0
        """The most bytes that one has had to carry back, and there."""
        self.held: list[socket.socket] = []
        threading.Thread(target=self._accept, daemon=True).start()

    def __enter__(self) -> Halting:
        return self

    def __exit__(self, *_: object) -> None:
        with contextlib.suppress(OSError):
            self.listener.shutdown(socket.SHUT_RDWR)
        self.listener.close()
        for end in self.held:
            end.close()

    def _accept(self) -> None:
        while True:
            try:
                client, _ = self.listener.accept()
            except OSError:
                return
            threading.Thread(
                target=self._carry, args=(client, self.left, self.toward), daemon=True
            ).start()

    def _carry(self, client: socket.socket, left: int, toward: int) -> None:
        came = went = 0
        with contextlib.ExitStack() as ends, contextlib.suppress(OSError):
            ends.callback(client.close)
            server = ends.enter_context(socket.create_connection(self.target, 20))
            for end in (client, server):
                end.setsockopt(socket.IPPROTO_TCP, socket.TCP_NODELAY, 1)
            while came < left and went < toward:
                for source in select.select([client, server], [], [])[0]:
                    data = source.recv(65536)
                    if not data:
                        return
                    if source is client:
                        server.sendall(data[: toward - went])
                        went += len(data)
                    else:
                        client.sendall(data[: left - came])
                        came += len(data)
                    self.came, self.went = max(self.came, came), max(self.went, went)
            if self.stands:
                self.held += [client, server]
                ends.pop_all()
