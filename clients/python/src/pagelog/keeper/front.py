"""The front of a keeper: one haproxy, which speaks TLS to clients, before the services of all its runs and before its lines.

Each run has a port of the front's, which leads to where its service listens. The ports are bound once, so that a front which has died
is started again with the same ones, and a later instance of the keeper finds them. No call of this waits for clients.
"""

from __future__ import annotations

import json
import socket
import ssl
import threading
import time
from collections import deque
from contextlib import ExitStack, suppress
from dataclasses import dataclass, replace
from pathlib import Path
from typing import Callable, Sequence

from pagelog.connection import Address
from pagelog.errors import PagelogError
from pagelog.keeper.certificate import Authorities, CertificateError, Pair, Shown, Watched
from pagelog.keeper.haproxy import ASKED, LINES, MAPS, PATIENCE, FrontError, Haproxy
from pagelog.keeper.run import Run, fronts_of, services_of
from pagelog.repeating import Backoff

PORTS = 1024
"""Runs at most, where nothing else is said."""
LONGEST_REST = 10.0
"""Seconds after which a front that does not start is tried again in any case."""
_FORM = 1
"""Of what a front is told as it starts: one of another form is ended by who adopts it."""


@dataclass(frozen=True)
class Tls:
    """What [keeper] says of it: the `file` with certificate and key, the `host` and the `lines` that clients come to, and who has signed
    the certificates that `clients` need, if they need any. Unless it is `plain`, there is no other way to the lines and the services.
    `ports` are FIRST-LAST, or how many of the system's."""

    file: Path
    host: str
    lines: str
    clients: Path | None = None
    plain: bool = True
    ports: str | int = PORTS

    @property
    def form(self) -> list[object]:
        """What a front has to have been started with."""
        return [_FORM, self.host, self.lines, self.clients is not None, self.ports]

    @property
    def numbers(self) -> Sequence[int]:
        """The ports; 0 is any free one."""
        if isinstance(self.ports, int):
            return [0] * self.ports
        first, _, last = self.ports.partition("-")
        return range(int(first), int(last) + 1)


@dataclass(frozen=True)
class Led:
    """Where a run's service listens, and the identity of its database."""

    address: str
    owner: str
    port: int = 0
    """That of the front which leads there; 0 while none does."""


class Front:
    """Threads may call it side by side; `place` waits for nobody."""

    def __init__(self, tls: Tls, folder: Path, say: Callable[[str], None]) -> None:
        self.tls, self._folder, self._say = tls, folder, say
        self._state = folder / "front"
        self.certificate = Watched(tls.file, Pair)
        self._authorities = None if tls.clients is None else Watched(tls.clients, Authorities)
        self._in_force: tuple[Pair | None, Authorities | None] = None, None
        """What the process has, as far as this life knows."""
        self.shown, self._shown = Shown(), self.certificate.now
        """For the servers of this process."""
        self._led: dict[str, Led] = {}
        """By runs."""
        self._free: deque[int] = deque()
        """First the ports that have led nowhere for the longest time: an old address finds no other service."""
        self._process: Haproxy | None = None
        self._lock = threading.Lock()
        self._rests, self._not_before = Backoff(0.1, LONGEST_REST), 0.0
        self._away_since = time.monotonic()

    # What is asked of it.

    @property
    def process(self) -> Run | None:
        """Its process."""
        return None if self._process is None else self._process.process

    @property
    def lines(self) -> str | None:
        """Where the lines are reached, while the front is there."""
        return None if self._process is None else self.tls.lines

    @property
    def away(self) -> float:
        """For how many seconds there has been none."""
        return 0.0 if self._process is not None else time.monotonic() - self._away_since

    def place(self, run: str) -> str | None:
        """The address of a run; None where no port leads there."""
        led = self._led.get(run)
        is_led = led is not None and led.port != 0 and self._process is not None
        return (
            str(Address(self.tls.host.strip("[]"), led.port))
            if is_led and led is not None
            else None
        )

    def serve(self, run: str, address: str, owner: str) -> None:
        """Leads a port to a run's service, after it has seen that the front answers there. Where that cannot be done now, `tend` does it.
        Raises `FrontError`."""
        with self._lock:
            if (known := self._led.get(run)) is None or (known.address, known.owner) != (
                address,
                owner,
            ):
                self._led[run] = Led(address, owner, 0 if known is None else known.port)
            elif known.port and self._process is not None:
                return
            self._revived()
            try:
                self._lead(run)
            except FrontError:
                self._see()
                if self._process is not None:
                    raise
                self._revived()  # it has died just now
                self._lead(run)

    def drop(self, run: str) -> None:
        """No port leads to it any more."""
        with self._lock:
            led = self._led.pop(run, None)
            if led is None or not led.port:
                return
            self._free.append(led.port)
            if self._process is not None:
                with suppress(FrontError):  # the next front does not know it
                    self._process.ask(self._forget(led.port))

    # Its life.

    def begin(self) -> None:
        """Adopts the front that a previous instance of the keeper has left, or starts one. Raises `FrontError`, and `tend` tries again."""
        with self._lock:
            self._read_files()
            for left in fronts_of(self._folder):
                if self._process is None and self._adopted(left):
                    continue
                left.end()
            self._revived()

    def tend(self) -> None:
        """Sees that it is there, renews its certificate where the file has another, and leads ports to runs that have none yet. Raises
        `PagelogError`, with what is not as it should be."""
        with self._lock:
            self._see()
            error = self._read_files()
            self._revived()
            self._renew()
            for run, led in list(self._led.items()):
                if not led.port:
                    self._lead(run)
            if error is not None:
                raise error

    def end(self) -> None:
        """Ends it. Nobody is served by it any more."""
        with self._lock:
            if self._process is not None:
                self._process.process.end()
                self._gone()
            _remove(self._folder)

    def leave(self) -> None:
        """Leaves it to the keeper's next instance."""
        with self._lock:
            if self._process is not None:
                self._process.process.leave()
                self._gone()

    @property
    def is_idle(self) -> bool:
        """Whether it leads nowhere."""
        return not self._led

    def _gone(self) -> None:
        self._process, self._in_force, self._away_since = None, (None, None), time.monotonic()

    def _see(self) -> None:
        if self._process is None:
            return
        try:
            self._process.ask("show version")
        except FrontError as error:
            self._say(
                f"the front, process {self._process.process.facts.pid}, {'hangs' if self._process.process.is_alive else 'has ended'}: {error}"
            )
            self._process.process.end()
            self._gone()

    def _revived(self) -> None:
        """Starts it where it is not there. Raises `FrontError`."""
        if self._process is not None and not self._process.process.is_alive:
            self._see()
        if self._process is not None:
            return
        if time.monotonic() < self._not_before:
            raise FrontError("the front is not there: it is tried again soon")
        try:
            self._start()
        except PagelogError as error:
            self._not_before = time.monotonic() + self._rests.next()
            raise error if isinstance(error, FrontError) else FrontError(str(error)) from error
        self._rests.reset()

    def _adopted(self, left: Run) -> bool:
        """Whether it is as this one is to be; then it is this keeper's, with the ports that lead to services which are there."""
        try:
            noted = json.loads(self._state.read_text())
            if (noted["run"], noted["form"]) != (left.name, self.tls.form):
                return False
            process = Haproxy(self._folder, left, noted["certificate"], noted["authorities"])
            ports, hosts, owners = (
                process.shown(name) if name in self._maps else {} for name in MAPS
            )
            runs = {
                _numeric(facts.address): facts
                for facts in services_of(self._folder)
                if not facts.kept and facts.address is not None
            }
            for port in ports:
                facts = runs.get((hosts[port], ports[port]))
                if facts is None:
                    process.ask(self._forget(port))
                else:
                    self._led[facts.run] = Led(str(facts.address), owners.get(port, ""), port)
            taken = {led.port for led in self._led.values()}
            self._free.extend(port for port in noted["ports"] if port not in taken)
        except (OSError, ValueError, KeyError, TypeError, FrontError):
            self._led.clear()
            self._free.clear()
            return False
        self._process = process
        self._say(f"adopted the front, process {left.facts.pid}, with {len(self._led)} runs")
        with suppress(FrontError):  # it has the one that it had
            self._renew()
        return True

    def _start(self) -> None:
        """With the ports that it had before, as far as they can be had: a run whose port is another program's by now gets another."""
        pair, authorities = (
            self.certificate.read(),
            None if self._authorities is None else self._authorities.read(),
        )
        with ExitStack() as stack:
            host, _, number = self.tls.lines.rpartition(":")
            lines = stack.enter_context(_bound(host, int(number)))
            ports: dict[int, socket.socket] = {}
            for wanted in (*self._known_ports(), *self.tls.numbers):
                if (wanted not in ports or wanted == 0) and len(ports) < len(self.tls.numbers):
                    with suppress(OSError):
                        made = stack.enter_context(_bound(self.tls.host, wanted))
                        ports[made.getsockname()[1]] = made
            if not ports:
                raise FrontError(f"none of its ports at {self.tls.host} can be had")
            self._settle(list(ports))
            maps = {
                name: {
                    led.port: value
                    for led in self._led.values()
                    if led.port and (value := self._value(name, led))
                }
                for name in MAPS
            }
            process = Haproxy.start(
                self._folder,
                list(ports.values()),
                lines,
                pair.pem,
                b"" if authorities is None else authorities.pem,
                maps,
            )
        self._process, self._in_force = process, (pair, authorities)
        try:
            self._check(int(number), host)
        except FrontError:
            process.process.end()
            self._gone()
            raise
        self._note(list(ports))
        self._say(
            f"the front is process {process.process.facts.pid}, with {len(ports)} ports; its certificate ends at {_time(pair.ends)}"
        )

    def _known_ports(self) -> list[int]:
        """Those that runs have, and those of an earlier front."""
        try:
            noted = [int(port) for port in json.loads(self._state.read_text())["ports"]]
        except (OSError, ValueError, KeyError, TypeError):
            noted = []
        return [
            *(led.port for led in self._led.values() if led.port),
            *self._free,
            *(noted if isinstance(self.tls.ports, int) else ()),
        ]

    def _settle(self, ports: list[int]) -> None:
        free = deque(port for port in self._free if port in ports)
        taken = {led.port for led in self._led.values()}
        free.extend(port for port in ports if port not in taken and port not in free)
        for run, led in list(self._led.items()):
            if led.port not in ports:
                self._led[run] = replace(led, port=free.popleft() if free else 0)
        self._free = free

    def _value(self, name: str, led: Led) -> str:
        host, port = _numeric(led.address)
        return {"ports": port, "hosts": host, "owners": led.owner}[name]

    def _note(self, ports: list[int]) -> None:
        assert self._process is not None
        text = json.dumps(
            {
                "run": self._process.process.name,
                "form": self.tls.form,
                "certificate": self._process.certificate,
                "authorities": self._process.authorities,
                "ports": ports,
            }
        )
        fresh = self._state.with_name("front.new")
        try:
            fresh.write_text(text)
            fresh.replace(self._state)
        except OSError as error:
            self._say(
                f"the front could not be noted, so that a later instance of the keeper starts another: {error}"
            )

    # Its ports.

    def _lead(self, run: str) -> None:
        """Leads a port to a run."""
        assert self._process is not None
        led = self._led[run]
        port = led.port or (self._free.popleft() if self._free else 0)
        if not port:
            raise FrontError(f"all ports of the front lead to runs: tls_ports is {self.tls.ports}")
        try:
            self._check(port, self.tls.host)
            self._process.ask(self._forget(port))
            words = [
                f"add map front.{name} {port} {self._value(name, led)}"
                for name in reversed(self._maps)
            ]
            self._process.tell(*words)  # last where it leads to: nobody is let through without
        except BaseException:
            self._free.append(port)
            self._led[run] = replace(led, port=0)
            raise
        self._led[run] = replace(led, port=port)

    @property
    def _maps(self) -> Sequence[str]:
        return MAPS if self.tls.clients is not None else MAPS[:-1]

    def _forget(self, port: int) -> str:
        """Tells it that a port leads nowhere: first that, then where it led to."""
        return "; ".join(f"del map front.{name} {port}" for name in self._maps)

    def _check(self, port: int, host: str) -> None:
        """Raises `FrontError` unless the front answers there, with the certificate that it has."""
        context = ssl.SSLContext(ssl.PROTOCOL_TLS_CLIENT)
        context.check_hostname, context.verify_mode = False, ssl.CERT_NONE
        try:
            with socket.create_connection(
                (host.strip("[]"), port), PATIENCE
            ) as plain, context.wrap_socket(plain) as line:
                shown = line.getpeercert(binary_form=True)
        except OSError as error:
            raise FrontError(f"the front does not answer at {host}:{port}: {error}") from error
        if self._in_force[0] is not None and shown != self._in_force[0].shown:
            raise FrontError(f"another program than the front answers at {host}:{port}")

    # Its certificate.

    def _read_files(self) -> CertificateError | None:
        """Reads what has changed. What cannot be used leaves that of before in force."""
        failed = None
        for file in (self.certificate, self._authorities):
            try:
                if file is not None:
                    file.changed()
            except CertificateError as error:
                failed = CertificateError(f"{error}; what was read before stays in force")
        if self.certificate.now is not None and self.certificate.now != self._shown:
            self._shown = self.certificate.now
            self.shown.renew(self._shown)
            self._say_whom(self._shown)
        return failed

    def _renew(self) -> None:
        """Has the front take what the files have now. Raises `FrontError`."""
        process, (pair, authorities) = self._process, self._in_force
        now = self.certificate.now
        theirs = None if self._authorities is None else self._authorities.now
        if process is not None and now is not None and now != pair:
            process.renew("cert", process.certificate, now.pem)
            self._in_force = now, authorities
            self._say(
                f"the front has the certificate of {self.tls.file}, which ends at {_time(now.ends)}"
            )
        if process is not None and theirs is not None and theirs != authorities:
            process.renew("ca-file", process.authorities, theirs.pem)
            self._in_force = now, theirs

    def _say_whom(self, pair: Pair) -> None:
        for host in dict.fromkeys((self.tls.host, self.tls.lines.rpartition(":")[0])):
            if not pair.is_for(host.strip("[]")):
                self._say(f"{self.tls.file} is no certificate for {host}: clients refuse it")


def end_fronts(folder: Path) -> None:
    """Ends what a previous instance of a keeper has left that had one."""
    for left in fronts_of(folder):
        left.end()
    _remove(folder)


def _remove(folder: Path) -> None:
    for name in ("front", ASKED, LINES, *(f"front.{name}" for name in MAPS)):
        (folder / name).unlink(missing_ok=True)


def _bound(host: str, port: int) -> socket.socket:
    """Who connects before the front is there waits, and is not refused. Raises `OSError`."""
    family, kind, _, _, address = socket.getaddrinfo(
        host.strip("[]"), port, type=socket.SOCK_STREAM, flags=socket.AI_PASSIVE
    )[0]
    made = socket.socket(family, kind)
    try:
        made.setsockopt(socket.SOL_SOCKET, socket.SO_REUSEADDR, 1)
        made.bind(address)
        made.listen(socket.SOMAXCONN)
    except BaseException:
        made.close()
        raise
    return made


def _numeric(address: str) -> tuple[str, str]:
    """The number of a host, and the port."""
    where = Address.parse(address)
    return str(socket.getaddrinfo(where.host, where.port, type=socket.SOCK_STREAM)[0][4][0]), str(
        where.port
    )


def _time(seconds: float) -> str:
    return time.strftime("%Y-%m-%d %H:%M:%S UTC", time.gmtime(seconds))
