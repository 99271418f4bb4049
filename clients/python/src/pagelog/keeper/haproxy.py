"""The process of a keeper's front, Debian's haproxy: how it is started and told something. It outlives its keeper, as services do.

It inherits its sockets, its certificate and its configuration: they are bound, and read, by the keeper, and the key is on no disk. It
waits for its configuration until it is noted, and ends where its keeper is killed before.
"""

from __future__ import annotations

import os
import resource
import socket
import subprocess
import time
from contextlib import ExitStack, suppress
from pathlib import Path
from typing import Mapping, Sequence

from pagelog.errors import PagelogError
from pagelog.keeper.certificate import in_memory, path_of
from pagelog.keeper.run import FRONT, Run, environment, new_run, said_in, text_of
from pagelog.keeper.unix import near, private_socket

ASKED, LINES = "front.sock", "lines.sock"
"""Where it is told something, and where the keeper hears the lines that come through it."""
PATIENCE = 10.0
"""Seconds for which it is waited for."""
MOST_THREADS = 4
"""Of half of the processors: services and PostgreSQL need the others to keep up with it."""
MAPS = ("ports", "hosts", "owners")
"""What it knows of each port: the port of the service that it leads to, the host of that, and which database's clients may come."""
_MOST = 1 << 16
_SPARE = 64
"""Descriptors that it has beside those of its ports and connections."""
_FORM = """global
  nbthread {threads}
  maxconn {most}
  stats socket fd@{asked} level admin
  ssl-default-bind-options ssl-min-ver TLSv1.3
defaults
  mode tcp
  timeout connect 5s
  timeout client 10s
  timeout server 10s
  timeout client-fin 60s
  timeout server-fin 60s
  timeout tunnel 24d
  option clitcpka
  option srvtcpka
frontend runs
  bind {ports} ssl crt {certificate}{verify}
  maxconn {most_runs}
  tcp-request content set-var(sess.port) dst_port,map_int(front.ports,0)
  tcp-request content reject if {{ var(sess.port) -m int 0 }}
{owned}  tcp-request content set-dst dst_port,map_int_ip(front.hosts)
  tcp-request content set-dst-port var(sess.port)
  default_backend runs
backend runs
  server run 0.0.0.0:0
frontend lines
  bind fd@{lines} ssl crt {certificate}{verify}
  maxconn {most_lines}
  default_backend lines
backend lines
  server lines unix@{heard} send-proxy-v2{names}
"""
"""A handshake has the time of `timeout client`, and what goes on then that of `timeout tunnel`: haproxy's longest is 24.8 days."""
_OWNED = """  tcp-request content set-var(sess.owner) dst_port,map_int(front.owners)
  tcp-request content reject unless { ssl_c_s_dn(CN),strcmp(sess.owner) -m int 0 }
"""


class FrontError(PagelogError):
    """The front cannot be had, or does not do what it is told."""

    may_pass = True


class Haproxy:
    """One process of it. `certificate` and `authorities` are the names by which it knows its own, and those of its clients."""

    def __init__(self, folder: Path, process: Run, certificate: str, authorities: str = "") -> None:
        self._folder, self.process = folder, process
        self.certificate, self.authorities = certificate, authorities

    @classmethod
    def start(
        cls,
        folder: Path,
        ports: Sequence[socket.socket],
        lines: socket.socket,
        pem: bytes,
        authorities: bytes,
        maps: Mapping[str, Mapping[int, str]],
    ) -> Haproxy:
        """Starts it with sockets that are bound, and waits until it can be told something. It lets in who has a certificate of these
        authorities, or everybody if there are none. Raises `FrontError`."""
        for name in MAPS:
            (folder / f"front.{name}").write_text(
                "".join(f"{port} {value}\n" for port, value in maps[name].items())
            )
        run = new_run()
        try:
            with ExitStack() as stack:
                asked = stack.enter_context(private_socket(folder, ASKED))
                own, theirs = (stack.enter_context(in_memory(each)) for each in (pem, authorities))
                open_files = [
                    asked.fileno(),
                    own,
                    theirs,
                    lines.fileno(),
                    *(each.fileno() for each in ports),
                ]
                with said_in(folder, FRONT, run).open("wb") as errors:
                    child = subprocess.Popen(
                        ["haproxy", "-db", "-f", "/dev/stdin"],
                        stdin=subprocess.PIPE,
                        stdout=subprocess.DEVNULL,
                        cwd=folder,
                        stderr=errors,
                        start_new_session=True,
                        env=environment(),
                        pass_fds=open_files,
                    )
                made = cls(
                    folder,
                    Run.of_front(folder, run, child),
                    path_of(own),
                    path_of(theirs) if authorities else "",
                )
                made._give(child, made._text(ports, lines, asked))
        except OSError as error:
            said_in(folder, FRONT, run).unlink(missing_ok=True)
            reason = (
                "haproxy is not installed: apt-get install haproxy"
                if isinstance(error, FileNotFoundError)
                else error
            )
            raise FrontError(f"it did not start: {reason}") from error
        made._wait()
        return made

    def _text(
        self, ports: Sequence[socket.socket], lines: socket.socket, asked: socket.socket
    ) -> str:
        limit = resource.getrlimit(resource.RLIMIT_NOFILE)[0]
        limit = _MOST if limit == resource.RLIM_INFINITY else min(limit, _MOST)
        most = max(
            8, (limit - len(ports) - _SPARE) // 2
        )  # a connection has two descriptors; it raises no limit
        verify = f" ca-file {self.authorities} verify required" if self.authorities else ""
        return _FORM.format(
            threads=max(1, min(MOST_THREADS, len(os.sched_getaffinity(0)) // 2)),
            most=most,
            most_runs=most - most // 4,
            most_lines=most // 4,
            asked=asked.fileno(),
            ports=",".join(f"fd@{each.fileno()}" for each in ports),
            lines=lines.fileno(),
            certificate=self.certificate,
            verify=verify,
            owned=_OWNED if verify else "",
            heard=LINES,
            names=" proxy-v2-options ssl,cert-cn" if verify else "",
        )

    def _give(self, child: subprocess.Popen[bytes], text: str) -> None:
        assert child.stdin is not None
        with suppress(BrokenPipeError), child.stdin as line:  # it has ended: why is in its file
            line.write(text.encode())

    def _wait(self) -> None:
        """Until it answers. One that does not is ended."""
        deadline = time.monotonic() + PATIENCE
        while True:
            try:
                self.ask("show version")
                return
            except FrontError as error:
                if not self.process.is_alive or time.monotonic() >= deadline:
                    said = text_of(said_in(self._folder, FRONT, self.process.name))
                    why = [line for line in said.splitlines() if "ALERT" in line]
                    self.process.end()
                    raise FrontError(f"it did not start: {why[0] if why else error}") from error

    def ask(self, command: str, payload: bytes = b"") -> str:
        """What it answers. Raises `FrontError` where it does not."""
        lines = [line for line in payload.splitlines() if line.strip()]  # an empty one would end it
        text = command.encode() + (b" <<\n" + b"\n".join(lines) + b"\n" if lines else b"") + b"\n"
        try:
            with near(self._folder, ASKED) as path, socket.socket(socket.AF_UNIX) as line:
                line.settimeout(PATIENCE)
                line.connect(path)
                line.sendall(text)
                parts = []
                while part := line.recv(1 << 16):
                    parts.append(part)
        except OSError as error:
            raise FrontError(f"it does not answer: {error}") from error
        return b"".join(parts).decode(errors="replace").strip()

    def tell(self, *commands: str) -> None:
        """Has it do what is answered by nothing. Raises `FrontError`."""
        if answer := self.ask("; ".join(commands)):
            raise FrontError(f"it refuses {commands[0].split()[0]}: {answer.splitlines()[0]}")

    def renew(self, kind: str, name: str, pem: bytes) -> None:
        """Has it take another certificate (`cert`) or other authorities (`ca-file`) under this name: new connections find that, and those
        that are open go on. Raises `FrontError`: then it is as before."""
        answers = self.ask(f"set ssl {kind} {name}", pem), self.ask(f"commit ssl {kind} {name}")
        if "Success!" not in answers[1]:  # a broken one is answered by an empty text
            with suppress(FrontError):
                self.ask(f"abort ssl {kind} {name}")
            raise FrontError(
                f"it does not take another {kind}: {' '.join(' '.join(answers).split())}"
            )

    def shown(self, name: str) -> dict[int, str]:
        """What one of its maps has."""
        found = {}
        for line in self.ask(f"show map front.{name}").splitlines():
            _, port, value = line.split()
            found[int(port)] = value
        return found
