"""Measures the front of a keeper with many runs: its memory, and how soon a run is served. By hand.

Usage: python3 -B clients/python/tests/many_fronts.py [RUNS]      (1000; clients have certificates, and then none)
"""

from __future__ import annotations

import os
import selectors
import shutil
import socket
import sys
import tempfile
import threading
import time
from contextlib import ExitStack
from pathlib import Path

sys.path.insert(0, str(Path(__file__).resolve().parent.parent / "src"))

from pagelog.keeper.front import Front, Tls, end_fronts  # noqa: E402
from secured import Certificates  # noqa: E402
from service import Port  # noqa: E402


def serve(listeners: list[socket.socket]) -> None:
    """Says a word to who comes, and keeps it."""
    chosen, kept = selectors.DefaultSelector(), []
    for each in listeners:
        chosen.register(each, selectors.EVENT_READ)
    while True:
        for key, _ in chosen.select():
            kept.append(key.fileobj.accept()[0])  # type: ignore[union-attr]
            kept[-1].sendall(b"here")


def milliseconds(times: list[float]) -> str:
    times = sorted(1000 * each for each in times)
    return f"p50 {times[len(times) // 2]:.1f}, p99 {times[len(times) * 99 // 100]:.1f}, most {times[-1]:.1f} ms"


def main(runs: int, *, have_certificates: bool) -> None:
    """`have_certificates`: clients need one, and show it."""
    certificates, folder = Certificates(), Path(tempfile.mkdtemp(prefix="pagelog-fronts-"))
    with ExitStack() as stack:
        stack.callback(shutil.rmtree, folder)
        stack.callback(end_fronts, folder)
        listeners = [
            stack.enter_context(socket.create_server(("127.0.0.1", 0))) for _ in range(runs)
        ]
        threading.Thread(target=serve, args=(listeners,), daemon=True).start()
        port = Port()
        stack.callback(port.close)
        front = Front(
            Tls(
                certificates["good"],
                "127.0.0.1",
                port.address,
                certificates.ca if have_certificates else None,
                ports=runs,
            ),
            folder,
            lambda _: None,
        )
        began = time.monotonic()
        front.begin()
        assert front.process is not None
        print(
            f"{runs} ports, clients {'with' if have_certificates else 'without'} certificates: it answers after {time.monotonic() - began:.2f} s, {front.process.memory >> 20} MiB"
        )
        led, heard, before, identity = [], [], 0, "11111111-1111-4111-8111-111111111111"
        context = certificates.context(certificates.client(identity) if have_certificates else None)
        for number, each in enumerate(listeners):
            began = time.monotonic()
            front.serve(f"run{number}", f"127.0.0.1:{each.getsockname()[1]}", identity)
            led.append(time.monotonic() - began)
        print(f"a run is led to: {milliseconds(led)}; {front.process.memory >> 20} MiB")
        for number in range(runs):
            host, _, at = str(front.place(f"run{number}")).rpartition(":")
            began = time.monotonic()
            line = stack.enter_context(
                context.wrap_socket(
                    socket.create_connection((host, int(at))), server_hostname="localhost"
                )
            )
            assert line.recv(4) == b"here"
            heard.append(time.monotonic() - began)
            before = before or (front.process.memory if number + 1 >= runs // 5 else 0)
        each = (front.process.memory - before) / 1024 / (runs - max(1, runs // 5))
        print(
            f"connect, handshake and a word: {milliseconds(heard)}; {front.process.memory >> 20} MiB with {runs} connections, one a run; "
            f"{each:.1f} KiB an idle connection"
        )
        began = time.monotonic()
        front.tend()
        print(
            f"a look at it: {1000 * (time.monotonic() - began):.1f} ms; load {os.getloadavg()[0]:.0f}"
        )


if __name__ == "__main__":
    for have_certificates in (True, False):
        main(int(sys.argv[1]) if sys.argv[1:] else 1000, have_certificates=have_certificates)
