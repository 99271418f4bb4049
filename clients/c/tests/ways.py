"""What stands between clients and their peers: it notes, gathers, spoils or cuts what passes."""

import contextlib
import random
import socket
import threading

from generations import until
from service import others_sleep


class Recorder:
    """Notes the first byte of each connection, and ends it."""

    def __init__(self):
        self.listener, self.first = socket.create_server(("127.0.0.1", 0)), []
        self.address = "127.0.0.1:%d" % self.listener.getsockname()[1]
        threading.Thread(target=self.accept, daemon=True).start()

    def __enter__(self):
        return self

    def __exit__(self, *_):
        self.listener.shutdown(socket.SHUT_RDWR)
        self.listener.close()

    def accept(self):
        with contextlib.suppress(OSError):
            while True:
                client, _ = self.listener.accept()
                with client, contextlib.suppress(OSError):
                    self.first.append(client.recv(1))


class Gathering:
    """Between a client of lines and a keeper: its answer to the greeting comes together with the next, made 1,020 bytes long."""

    def __init__(self, keeper):
        self.keeper = keeper.rsplit(":", 1)[0], int(keeper.rsplit(":", 1)[1])
        self.listener = socket.create_server(("127.0.0.1", 0))
        self.address = "127.0.0.1:%d" % self.listener.getsockname()[1]
        threading.Thread(target=self.accept, daemon=True).start()

    def __enter__(self):
        return self

    def __exit__(self, *_):
        self.listener.shutdown(socket.SHUT_RDWR)
        self.listener.close()

    def accept(self):
        with contextlib.suppress(OSError):
            while True:
                client, _ = self.listener.accept()
                threading.Thread(
                    target=self.carry,
                    args=(client, socket.create_connection(self.keeper)),
                    daemon=True,
                ).start()

    def carry(self, client, keeper):
        with client, keeper, client.makefile("rb") as asked, keeper.makefile(
            "rb"
        ) as told, contextlib.suppress(OSError):
            held = b""
            for question in asked:
                keeper.sendall(question)
                held += (
                    told.readline()
                    if question.startswith(b"hello")
                    else (told.readline().rstrip(b"\n") + b" key=").ljust(1020, b"x") + b"\n"
                )
                if not question.startswith(b"hello"):
                    client.sendall(held)
                    held = b""


class Spoiler:
    """Carries the bytes between a client and a front, and spoils some: they are turned, cut, given twice, or have others between them."""

    def __init__(self, target, seed):
        self.target, self.random, self.lock = target, random.Random(seed), threading.Lock()
        self.listener = socket.create_server(("127.0.0.1", 0))
        self.address = "127.0.0.1:%d" % self.listener.getsockname()[1]
        threading.Thread(target=self.accept, daemon=True).start()

    def __enter__(self):
        return self

    def __exit__(self, *_):
        self.listener.shutdown(socket.SHUT_RDWR)
        self.listener.close()

    def accept(self):
        with contextlib.suppress(OSError):
            while True:
                client, _ = self.listener.accept()
                front = socket.create_connection(
                    (self.target.rsplit(":", 1)[0], int(self.target.rsplit(":", 1)[1]))
                )
                for source, target in ((client, front), (front, client)):
                    threading.Thread(
                        target=self.carry, args=(source, target, source is front), daemon=True
                    ).start()

    def carry(self, source, target, spoils):
        with contextlib.suppress(OSError):
            while data := source.recv(65536):
                target.sendall(self.spoiled(data) if spoils else data)
        for end in (source, target):
            with contextlib.suppress(OSError):
                end.shutdown(socket.SHUT_RDWR)

    def spoiled(self, data):
        with self.lock:
            kind, at = self.random.randrange(60), self.random.randrange(len(data))
            noise = self.random.randbytes(1 + self.random.randrange(40))
        match kind:
            case 0:
                return data[:at] + bytes([data[at] ^ 1 << at % 8]) + data[at + 1 :]
            case 1:
                return data[:at] + noise + data[at:]
            case 2:
                return data + data
            case 3:
                raise ConnectionError("it is cut")
            case 4:
                return (
                    bytes([21, 3, 3, 0, 2, 2, at % 120]) + data
                )  # an alert that nobody has encrypted
        return data


class Chopper(Spoiler):
    """Of what comes back, the last bytes come once the client waits for them."""

    def carry(self, source, target, spoils):
        target.setsockopt(socket.IPPROTO_TCP, socket.TCP_NODELAY, 1)
        with contextlib.suppress(OSError):
            while data := source.recv(65536):
                last = 10 if spoils and len(data) > 500 else 0
                target.sendall(data[: len(data) - last])
                until(lambda: not last or others_sleep(), "the client waits")
                target.sendall(data[len(data) - last :])
