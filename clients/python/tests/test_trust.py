"""TLS of connections and lines: who is refused, peers that stop, break off and send records as they like, and files that change."""

from __future__ import annotations

import os
import socket
import subprocess
import sys
import tempfile
import threading
import time
import unittest
from pathlib import Path
from typing import Any, Callable, Iterator
from contextlib import closing, contextmanager, suppress
from unittest.mock import patch

import pagelog
from keepers import eventually
from pagelog import ConnectionLost, CredentialsError, NoKeeper, PagelogError, Trust, Unreachable
from pagelog.run_tokens import token_of
from pagelog.place import Keepers
from pagelog.polling import poll_of
from pagelog.secure import Secured, of_environment, trust_of
from service import (
    IS_LONG,
    PATIENCE,
    SOURCE,
    TOP,
    WIDE_TABLE,
    Service,
    accept_each,
    put,
    token,
)

sys.path.insert(0, str(TOP / "scripts"))
from tls_peers import Authority, Halting, Terminator  # noqa: E402

FOLDER = tempfile.TemporaryDirectory(prefix="pagelog-test-")
AUTHORITY = Authority(FOLDER.name)
CA, OTHER = AUTHORITY / "ca.pem", AUTHORITY / "other.pem"
GOOD = AUTHORITY.make("good")
OWN = AUTHORITY.make("client", "", usage="clientAuth")
OWN_FILES = {"sslcert": f"{OWN}.pem", "sslkey": f"{OWN}.key"}
DATABASE = "11111111-2222-4333-8444-555555555555"
STEP = 1 if IS_LONG else 23


def descriptors() -> int:
    """How many this process has open."""
    return len(os.listdir("/proc/self/fd"))


def secrets_of(id: int) -> list[bytes]:
    """A principal's token and that of its run, as bytes and as text."""
    raw = bytes.fromhex(token(id))
    of_run = token_of(raw, "shop", "run")
    return [raw, raw.hex().encode(), of_run, of_run.hex().encode()]


class Ear:
    """A service, or lines, without TLS: it hears what clients say first, and answers nothing."""

    def __init__(self) -> None:
        self.listener = socket.create_server(("127.0.0.1", 0))
        self.address = f"127.0.0.1:{self.listener.getsockname()[1]}"
        self.heard: list[bytes] = []
        """Of each connection, all that came over it until the client gave up, or had said enough."""
        accept_each(self.listener, self._hear)

    def _hear(self, line: socket.socket) -> None:
        with line, suppress(OSError):
            self.heard.append(line.recv(1 << 16))

    def close(self) -> None:
        self.listener.close()


class Clock:
    """That of a module: late as soon as something has come."""

    def __init__(self, has_come: Callable[[], object]) -> None:
        self._has_come = has_come

    sleep = staticmethod(time.sleep)

    def monotonic(self) -> float:
        return time.monotonic() + (10 * PATIENCE if self._has_come() else 0.0)


def said_by(call: Callable[[], object]) -> str:
    """What a call says that has to fail; nothing where it does not."""
    try:
        call()
        return ""
    except PagelogError as error:
        return f"{type(error).__name__}: {error}"


class OfService(unittest.TestCase):
    def setUp(self) -> None:
        self.service = self.enterContext(Service())

    def front(self, certificate: str = GOOD, **how: Any) -> Terminator:
        return self.enterContext(Terminator(certificate, self.service.address, **how))

    def asked(self, address: str, trust: Trust | None, timeout: float = PATIENCE) -> str:
        connection = pagelog.Connection(address, timeout=timeout, attempts=1, trust=trust)
        with pagelog.Reader(connection, pagelog.Credentials.of(3, token(3))) as reader:
            return said_by(reader.status)


class Refused(OfService):
    def test_certificates_that_are_refused(self) -> None:
        past, future = ("20200101000000Z", "20210101000000Z"), (
            "20980101000000Z",
            "20990101000000Z",
        )
        cases = {
            AUTHORITY.make("wrong", "DNS:elsewhere.example,IP:127.0.0.9"): "IP address mismatch",
            AUTHORITY.make("expired", dates=past): "certificate has expired",
            AUTHORITY.make("early", dates=future): "certificate is not yet valid",
            AUTHORITY.make("foreign", ca="other"): "unable to get local issuer certificate",
            AUTHORITY.make("purpose", usage="clientAuth"): "unsuitable certificate purpose",
        }
        trust = Trust(CA)
        for certificate, why in cases.items():
            with self.subTest(certificate):
                front = self.front(certificate)
                self.assertTrue(
                    self.asked(front.address, trust).startswith(
                        f"Unreachable: {front.address}: TLS: {why}"
                    )
                )
                self.assertEqual(front.shaken, 0)
        front = self.front()
        self.assertEqual(
            [self.asked(address, trust) for address in (front.address, f"localhost:{front.port}")],
            ["", ""],
        )
        unnamed = self.front(AUTHORITY.make("unnamed", "", common="localhost"))
        self.assertIn("TLS: Hostname mismatch", self.asked(f"localhost:{unnamed.port}", trust))
        self.assertIn("unable to get local issuer", self.asked(front.address, Trust(OTHER)))
        self.assertTrue(self.asked(front.address, None))
        self.assertIn("protocol version", self.asked(self.front(version="1.2").address, trust))
        self.assertIn("TLS: ", self.asked(self.service.address, trust))

    def test_clients_certificates(self) -> None:
        """A client learns that its own is refused once it has sent something, or reads."""
        stranger = AUTHORITY.make("stranger", "", usage="clientAuth", ca="other")
        front = self.front(clients=CA)
        for files, why in (
            ({}, "alert certificate required"),
            ({"sslcert": f"{stranger}.pem", "sslkey": f"{stranger}.key"}, "alert unknown ca"),
            ({"sslcert": f"{GOOD}.pem", "sslkey": f"{GOOD}.key"}, "alert unsupported certificate"),
        ):
            self.assertIn(why, self.asked(front.address, Trust(CA, **files)))
        trust = Trust(CA, **OWN_FILES)
        self.assertEqual([self.asked(front.address, trust) for _ in range(2)], ["", ""])

    def test_words_that_are_refused(self) -> None:
        locked, shared = AUTHORITY / "locked.key", AUTHORITY / "shared.key"
        subprocess.run(
            [
                "openssl",
                "pkey",
                "-in",
                f"{OWN}.key",
                "-aes256",
                "-passout",
                "pass:secret",
                "-out",
                locked,
            ],
            check=True,
        )
        Path(shared).write_bytes(Path(f"{OWN}.key").read_bytes())
        os.chmod(locked, 0o600), os.chmod(shared, 0o644)
        own = {"sslrootcert": CA, **OWN_FILES}
        cases: list[tuple[tuple[dict[str, str], ...], str]] = [
            (
                ({"sslmode": mode, "sslrootcert": CA},),
                f"sslmode is disable or verify-full, and not {mode}",
            )
            for mode in ("require", "prefer", "verify-ca", "")
        ]
        cases += [
            (({"sslmode": "verify-full"},), "sslrootcert: it is missing"),
            ((OWN_FILES,), "sslrootcert: it is missing"),
            (({"sslmode": "disable", "sslrootcert": CA},), "contradicts"),
            (({"sslrootcert": CA}, {"sslmode": "disable"}), "contradicts"),
            (({"sslrootcert": "/nowhere"},), "sslrootcert: /nowhere: No such file"),
            (({"sslrootcert": ""},), "sslrootcert: its path is empty"),
            (({**own, "sslkey": f"{GOOD}.key"},), "sslkey: " + f"{GOOD}.key: key values mismatch"),
            (({"sslrootcert": CA, "sslcert": f"{OWN}.pem"},), "sslkey: it is missing"),
            (({**own, "sslkey": shared},), "others may read it"),
            (({**own, "sslkey": locked},), f"{locked}: "),
        ]
        for layers, why in cases:
            with self.subTest(str(layers)), self.assertRaises(CredentialsError) as raised:
                trust_of(*layers)
            self.assertIn(why, str(raised.exception))
        self.assertIsNone(trust_of({"sslmode": "disable"}, {"sslrootcert": CA}))
        self.assertIsNone(trust_of({}, {}))
        self.assertIsNotNone(trust_of({"sslmode": "verify-full"}, {"sslrootcert": CA}))

    def test_words_of_files_variables_and_options(self) -> None:
        front, file = self.front(), Path(AUTHORITY / "credentials.toml")

        def written(to: str, tls: str) -> Path:
            file.write_text(f'[operator]\nto = "{to}"\nid = 1\ntoken = "{token(1)}"\n{tls}')
            file.chmod(0o600)
            return file

        told = pagelog.load(written(front.address, f'[tls]\nsslrootcert = "{CA}"\n'), {})
        with pagelog.Operator.open(told.account(pagelog.Role.OPERATOR)) as operator:
            self.assertEqual(operator.status().epoch, 1)
        for tls, environment, words in (
            (f'[tls]\nsslrootcert = "{OTHER}"\n', {"PAGELOG_SSLROOTCERT": CA}, {}),
            ("", {"PAGELOG_SSLROOTCERT": OTHER}, {"sslrootcert": CA}),
        ):
            account = pagelog.load(written(front.address, tls), environment, words).account(
                pagelog.Role.OPERATOR
            )
            with pagelog.Operator.open(account) as operator:
                self.assertEqual(operator.status().epoch, 1)
        self.assertRaises(
            CredentialsError,
            pagelog.load,
            written(front.address, f'[tls]\nsslrootcert = "{CA}"\nsslroot = "x"\n'),
            {},
        )
        said = subprocess.run(
            [
                sys.executable,
                "-m",
                "pagelog",
                "--sslrootcert",
                CA,
                "status",
                "--seconds",
                "0",
                "--credentials",
                written(front.address, ""),
            ],
            env={**os.environ, "PYTHONPATH": str(SOURCE)},
            capture_output=True,
            text=True,
        )
        self.assertEqual((said.returncode, said.stderr), (0, ""))
        self.assertEqual(of_environment({"PAGELOG_SSLKEY": "k", "SSLCERT": "c"}), {"sslkey": "k"})


class Peers(OfService):
    def test_a_handshake_that_breaks_off_at_each_byte(self) -> None:
        """On the way here and on the way there: it is said, or it was enough; nothing hangs, and no descriptor is left."""
        front = self.front(clients=CA)
        with Halting(front.address) as peer:
            before, trust = descriptors(), Trust(CA, **OWN_FILES)
            peer.left = 1 << 30
            self.assertEqual(self.asked(peer.address, trust), "")
            cases = [(left, 1 << 30) for left in range(0, peer.came, STEP)]
            cases += [(1 << 30, toward) for toward in range(0, peer.went, STEP)]
            for number, (peer.left, peer.toward) in enumerate(cases):
                own = trust if number % 2 else Trust(CA, **OWN_FILES)
                kind, _, why = self.asked(peer.address, own).partition(": ")
                with self.subTest(here=peer.left, there=peer.toward):
                    self.assertIn(kind, ("Unreachable", "ConnectionLost", ""))
                    self.assertEqual(bool(why), bool(kind))
            eventually(lambda: descriptors() <= before, "the descriptors of before")
        self.assertEqual(self.asked(front.address, Trust(CA, **OWN_FILES)), "")

    def test_a_handshake_that_stands_still(self) -> None:
        front = self.front()
        with Halting(front.address, stands=True) as peer:
            for left, toward in ((0, 9), (1, 999), (5, 999), (200, 999), (700, 999), (999, 90)):
                peer.left, peer.toward = left, toward
                self.assertIn("timed out", self.asked(peer.address, Trust(CA), timeout=0.1))

    def test_records_of_any_size(self) -> None:
        """Of some bytes, and of 16 KiB with tickets and key updates between them, amid replies: many in flight."""
        with self.service.primary() as primary:
            primary.append(put(0, b"x" * 8000))
            primary.commit()
        for how in ({"record": 61}, {"record": 1500, "odd": True}, {"odd": True}):
            connection = pagelog.Connection(
                self.front(**how).address, timeout=PATIENCE, trust=Trust(CA)
            )
            with pagelog.Reader(connection, pagelog.Credentials.of(3, token(3))) as reader:
                pages = reader.pages(
                    [0] * (4 if "record" in how and not how.get("odd") else 200), 1
                )
                self.assertEqual({page.data[:8000] for page in pages}, {b"x" * 8000})
                self.assertEqual(connection.connects, 1)

    def test_a_connection_that_another_thread_has_closed_reads_nothing_in_plain(self) -> None:
        """Whoever is on the way could answer then."""
        front = self.front()
        made = Trust(CA).wrap(
            socket.create_connection(("127.0.0.1", front.port)), "127.0.0.1", PATIENCE
        )
        self.assertIsInstance(made, Secured)
        made.shutdown(socket.SHUT_RDWR)
        self.assertIsNotNone(made._sslobj)  # type: ignore[attr-defined]
        made.close()
        for call in (lambda: made.recv(10), lambda: made.send(b"token")):
            self.assertRaises(OSError, call)

    def test_a_child_of_a_fork_leaves_the_connection_to_its_parent(self) -> None:
        front = self.front()
        connection = pagelog.Connection(front.address, timeout=PATIENCE, trust=Trust(CA))
        with pagelog.Reader(connection, pagelog.Credentials.of(3, token(3))) as reader:
            reader.status()
            child = os.fork()
            if child == 0:
                with suppress(BaseException):
                    connection.close()
                os._exit(0)
            os.waitpid(child, 0)
            reader.status()
            self.assertEqual((connection.connects, front.shaken), (1, 1))

    def test_sessions_are_of_one_host(self) -> None:
        """One that is taken up again is not verified again: so never for another name, by which the certificate would be refused."""
        front, trust = self.front(AUTHORITY.make("only", "IP:127.0.0.1")), Trust(CA)
        self.assertEqual([self.asked(front.address, trust) for _ in range(3)], [""] * 3)
        self.assertEqual((front.shaken, front.reused), (3, 2))
        self.assertIn("Hostname mismatch", self.asked(f"localhost:{front.port}", trust))

    def test_files_that_change_are_read_again(self) -> None:
        """One that cannot be used leaves what was there in force."""
        file, front = Path(AUTHORITY / "changing.pem"), self.front()
        ca, other = Path(CA).read_bytes(), Path(OTHER).read_bytes()
        file.write_bytes(ca)
        trust = Trust(file)
        for data, is_good in (
            (ca, True),
            (b"none", True),
            (other, False),
            (b"", False),
            (other + ca, True),
        ):
            beside = file.with_suffix(".new")
            beside.write_bytes(data)
            beside.replace(file)
            self.assertEqual(self.asked(front.address, trust) == "", is_good, data[:20])


class Lines(unittest.TestCase):
    """A keeper whose answers are the test's, of a real service."""

    def setUp(self) -> None:
        text = WIDE_TABLE
        for id in range(1, 6):
            text = text.replace(token(id), token_of(bytes.fromhex(token(id)), "shop", "run").hex())
        self.service = self.enterContext(Service(table=text))
        self.listener = self.enterContext(socket.create_server(("127.0.0.1", 0)))
        self.plain = f"127.0.0.1:{self.listener.getsockname()[1]}"
        self.told: list[str] = ["", ""]
        """The addresses of the service and of the lines that it tells."""
        self.others: dict[str, str] = {}
        """What it answers to `standby` and `pages`."""
        self.padding = ""
        accept_each(self.listener, self.converse)

    def converse(self, client: socket.socket) -> None:
        with client, client.makefile("r") as lines, suppress(OSError):
            held = ""
            for line in lines:
                held += self.answer(line.split())
                if not self.padding or not held.startswith("hello") or held.count("\n") > 1:
                    client.sendall(held.encode())
                    held = ""

    def answer(self, words: list[str]) -> str:
        of = f"of={DATABASE}/run"
        match words:
            case ["hello", _]:
                return "hello 2\n"
            case ["where", *_]:
                return (
                    f"at shop 1 run {self.told[0]} 0 {self.told[1]} 0 0 0 {of}{self.padding}".ljust(
                        1020 if self.padding else 0, "x"
                    )
                    + "\n"
                )
            case ["durable", _, generation, position, *_]:
                return f"durable shop {generation} {position} {of}\n"
            case [("standby" | "pages") as what, *_] if what in self.others:
                return f"{what} shop {self.others[what]}\n"
            case [("standby" | "pages" | "follow") as what, *_]:
                return f"{what} shop - - - - - {of}\n" if what == "standby" else f"{what} shop\n"
        return ""  # of a ring

    @contextmanager
    def fronts(self, service: str = GOOD, lines: str = GOOD, **how: Any) -> Iterator[str]:
        with Terminator(service, self.service.address, **how) as of_service, Terminator(
            lines, self.plain, **how
        ) as of_lines:
            self.told = [of_service.address, of_lines.address]
            yield of_lines.address

    def writer(self, lines: str, **files: str) -> pagelog.NamedPrimary:
        return pagelog.Primary.named(
            "shop",
            keepers=[lines],
            principal=2,
            token=token(2),
            operator=(1, token(1)),
            patience=PATIENCE,
            timeout=PATIENCE,
            trust=Trust(CA, **files),
        )

    def reader(self, lines: str, **how: Any) -> pagelog.NamedReader:
        return pagelog.Reader.named(
            "shop",
            keepers=[lines],
            principal=3,
            token=token(3),
            patience=PATIENCE,
            timeout=PATIENCE,
            trust=Trust(CA),
            **how,
        )

    def committed(self, lines: str, **files: str) -> str:
        """What a durable commit says. Its patience is at its end once it knows that somebody is not who was asked for."""
        writer = self.writer(lines, **files)
        with writer, patch("pagelog.named.time", Clock(lambda: writer._insecure)):
            writer.append(put(0, b"hello"))
            return said_by(lambda: writer.commit(durable=True))

    def test_a_named_database_by_tls(self) -> None:
        """Where a line comes in records of a byte, and where more than a line comes in one record."""
        for how, self.padding in (({}, ""), ({"record": 1}, ""), ({}, " key=")):
            with self.fronts(**how) as lines:
                self.assertEqual(self.committed(lines), "")
                with self.reader(lines) as reader:
                    self.assertEqual(reader.page(0).data[:5], b"hello")

    def test_no_answer_takes_it_away(self) -> None:
        wrong = AUTHORITY.make("other_host", "DNS:elsewhere.example")
        with self.fronts(wrong) as lines:
            self.assertRegex(
                self.committed(lines), f"TimedOut: .*{self.told[0]}: TLS: IP address mismatch"
            )
            self.told[0] = self.service.address
            self.assertRegex(self.committed(lines), f"TimedOut: .*{self.told[0]}: TLS: ")
        with self.fronts(lines=wrong) as lines:
            self.assertIn(
                "NoKeeper: no keeper answers: " + lines + ": TLS: IP address mismatch",
                self.committed(lines),
            )
        with self.fronts(clients=CA) as lines:
            self.assertIn(
                "NoKeeper: no keeper answers: "
                + lines
                + ": TLS: tlsv13 alert certificate required",
                self.committed(lines),
            )
            self.assertEqual(self.committed(lines, **OWN_FILES), "")

    def test_a_keeper_that_lies_is_followed_nowhere_in_plain(self) -> None:
        """To a service or to lines that speak none, in place of either: they hear the beginning of a handshake alone. Who writes goes on
        once its keeper says the truth."""
        ear = self.enterContext(closing(Ear()))
        with self.fronts() as lines:
            truth = list(self.told)
            for lie in ([ear.address, truth[1]], [truth[0], ear.address], [ear.address] * 2):
                with self.subTest(lie), self.writer(lines) as writer:
                    before, self.told, said = len(ear.heard), lie, list[str]()

                    def commit() -> None:
                        writer.append(put(0, b"hello"))
                        said.append(said_by(lambda: writer.commit(durable=True)))

                    thread = threading.Thread(target=commit)
                    thread.start()
                    eventually(lambda: len(ear.heard) > before, "who was led there")
                    self.told = truth
                    thread.join(PATIENCE)
                    self.assertEqual(said, [""])
        self._see_handshakes_alone(ear)

    def test_who_reads_is_led_to_no_standby_and_no_page_server_in_plain(self) -> None:
        ear = self.enterContext(closing(Ear()))
        with self.fronts() as lines:
            self.assertEqual(self.committed(lines), "")
            self.others = {"standby": f"{ear.address} run 1 0 0 of={DATABASE}/run"}
            with self.reader(lines, durable_only=True) as reader:
                found = list[bytes]()
                thread = threading.Thread(target=lambda: found.append(reader.page(0).data[:5]))
                thread.start()
                eventually(lambda: bool(ear.heard), "who was led to the standby")
                self.others = {}
                thread.join(PATIENCE)
                self.assertEqual(found, [b"hello"])
            before, self.others = len(ear.heard), {"pages": f"{ear.address} {'0' * 16} 1 0"}
            late = Clock(lambda: len(ear.heard) > before)
            with self.reader(lines, pages="only") as reader, patch(
                "pagelog.named_reader.time", late
            ):
                self.assertIn("TimedOut: no page server", said_by(reader.end))
        self.assertGreater(len(ear.heard), before)
        self._see_handshakes_alone(ear)

    def _see_handshakes_alone(self, ear: Ear) -> None:
        secrets = [part for id in (1, 2, 3) for part in secrets_of(id)]
        for heard in ear.heard:
            self.assertEqual(heard[:3], b"\x16\3\1")
            self.assertEqual([each for each in secrets if each in heard], [])

    def test_who_believes_another_asks_by_itself(self) -> None:
        """What the keepers of another trust say is no answer to who has one."""
        with self.fronts() as lines:
            trust = Trust(CA)
            place = Keepers("shop", [lines], trust=trust).place()
            polls = [
                poll_of("shop", [lines], place, each)
                for each in (trust, Trust(CA), Trust(OTHER), None)
            ]
            self.assertEqual([poll is polls[0] for poll in polls], [True, True, False, False])


class OfTheLibrary(unittest.TestCase):
    def test_the_names_are_those_of_the_package(self) -> None:
        self.assertTrue(
            {Trust, NoKeeper, Unreachable, ConnectionLost}
            <= {getattr(pagelog, name) for name in pagelog.__all__}
        )


if __name__ == "__main__":
    unittest.main()
