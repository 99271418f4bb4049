"""A keeper's front: it leads clients of TLS to the services of its runs, comes back, is adopted, and shows another certificate."""

from __future__ import annotations

import os
import resource
import shutil
import signal
import socket
import ssl
import subprocess
import sys
import tempfile
import threading
import unittest
from contextlib import suppress
from dataclasses import replace
from pathlib import Path
from unittest.mock import patch

from keepers import eventually
from pagelog.dialing import dial
from pagelog.keeper import front as front_module
from pagelog.keeper.certificate import CertificateError, Pair
from pagelog.keeper.front import Front, Tls, end_fronts
from pagelog.keeper.haproxy import FrontError
from pagelog.keeper.unix import private_socket
from pagelog.keeper.run import ProcessFacts, fronts_of, has_services, orphans_of
from pagelog.secure import SecurityError, Trust
from secured import Certificates
from service import IS_LONG, PATIENCE, TOP, Port
from test_mixed import old

sys.path.insert(0, str(TOP / "scripts"))
from tls_peers import Halting  # noqa: E402

STEP = 1 if IS_LONG else 11
SHOP, NOTES = "11111111-1111-4111-8111-111111111111", "22222222-2222-4222-8222-222222222222"


def descriptors(pid: int) -> int:
    """How many a process has open."""
    return len(os.listdir(f"/proc/{pid}/fd"))


class Echo:
    """A service that says its name, and then what it is told."""

    def __init__(self, name: str) -> None:
        self.name = name.encode()
        self.listener = socket.create_server(("127.0.0.1", 0))
        self.address = f"127.0.0.1:{self.listener.getsockname()[1]}"
        threading.Thread(target=self._serve, daemon=True).start()

    def _serve(self) -> None:
        with suppress(OSError):
            while True:
                line, _ = self.listener.accept()
                threading.Thread(target=self._say, args=(line,), daemon=True).start()

    def _say(self, line: socket.socket) -> None:
        with line, suppress(OSError):
            line.sendall(self.name)
            while data := line.recv(1 << 16):
                line.sendall(data)

    def close(self) -> None:
        with suppress(OSError):
            self.listener.shutdown(socket.SHUT_RDWR)
        self.listener.close()


class Fronts(unittest.TestCase):
    def setUp(self) -> None:
        self.certificates = Certificates()
        self.folder = Path(tempfile.mkdtemp(prefix="pagelog-front-"))
        self.addCleanup(shutil.rmtree, self.folder, True)
        self.addCleanup(end_fronts, self.folder)
        self.file = self.folder / "pair.pem"
        self.put("good")
        self.port = Port()
        self.addCleanup(self.port.close)
        self.tls = Tls(self.file, "127.0.0.1", self.port.address, ports=3)
        self.said: list[str] = []

    def put(self, name: str = "", text: bytes | None = None) -> None:
        """The file has this pair, or this text."""
        fresh = self.folder / "fresh"
        fresh.touch(mode=0o600)
        fresh.write_bytes(self.certificates[name].read_bytes() if text is None else text)
        fresh.replace(self.file)

    def begun(self, tls: Tls | None = None) -> Front:
        made = Front(tls or self.tls, self.folder, self.said.append)
        made.begin()
        return made

    def echo(self, name: str) -> Echo:
        made = Echo(name)
        self.addCleanup(made.close)
        return made

    def open(
        self, address: str | None, client: Path | None = None, context: ssl.SSLContext | None = None
    ) -> ssl.SSLSocket:
        assert address is not None
        host, _, port = address.rpartition(":")
        plain = socket.create_connection((host, int(port)), PATIENCE)
        return (context or self.certificates.context(client)).wrap_socket(
            plain, server_hostname="localhost"
        )

    def heard(self, address: str | None, client: Path | None = None) -> bytes:
        """What is said there first; nothing where the connection ends."""
        with suppress(ConnectionError, ssl.SSLError), self.open(address, client) as line:
            return line.recv(100)
        return b""

    def shown(self, address: str | None) -> str:
        with self.open(address) as line:
            return str(dict(part[0] for part in line.getpeercert()["subject"])["commonName"])  # type: ignore[index]

    def tend(self, front: Front, until: str) -> None:
        """Until something is said; what it cannot do now it says by raising."""

        def is_said() -> bool:
            with suppress(FrontError, CertificateError):
                front.tend()
            return any(until in sentence for sentence in self.said)

        eventually(is_said, until)

    def revive(self, front: Front, before: int = 0) -> None:
        """Until it is there again, in another process: what is tried again rests before."""

        def is_there() -> bool:
            with suppress(FrontError, CertificateError):
                front.tend()
            return front.process is not None and front.process.facts.pid != before

        eventually(is_there, "the next front")


class Leading(Fronts):
    def test_each_run_has_a_port_and_one_that_was_dropped_leads_nowhere(self) -> None:
        front = self.begun()
        for run in ("shop", "notes"):
            front.serve(run, self.echo(run).address, SHOP)
        shop, notes = front.place("shop"), front.place("notes")
        self.assertEqual((self.heard(shop), self.heard(notes)), (b"shop", b"notes"))
        with self.open(shop) as line:
            self.assertEqual(line.version(), "TLSv1.3")
            line.recv(100)
            front.drop("shop")
            line.sendall(b"still")
            self.assertEqual(line.recv(100), b"still")
        self.assertIsNone(front.place("shop"))
        self.assertEqual(self.heard(shop), b"")
        front.serve("third", self.echo("third").address, SHOP)
        self.assertNotEqual(
            front.place("third"),
            shop,
            "an old address would lead to another service as soon as it can",
        )

    def test_where_all_ports_lead_somewhere_that_is_said_and_a_free_one_is_taken_later(
        self,
    ) -> None:
        front = self.begun(replace(self.tls, ports=1))
        front.serve("shop", self.echo("shop").address, SHOP)
        with self.assertRaisesRegex(
            FrontError, "all ports of the front lead to runs: tls_ports is 1"
        ):
            front.serve("notes", self.echo("notes").address, NOTES)
        self.assertIsNone(front.place("notes"))
        front.drop("shop")
        front.tend()
        self.assertEqual(self.heard(front.place("notes")), b"notes")

    def test_a_client_of_less_than_tls_1_3_or_without_it_is_not_served(self) -> None:
        front = self.begun()
        front.serve("shop", self.echo("shop").address, SHOP)
        older = self.certificates.context()
        older.maximum_version = ssl.TLSVersion.TLSv1_2
        with self.assertRaises(ssl.SSLError):
            self.open(front.place("shop"), context=older)
        host, _, port = str(front.place("shop")).rpartition(":")
        with socket.create_connection((host, int(port)), PATIENCE) as plain:
            plain.sendall(b"\0\0\0\1\0")
            with suppress(ConnectionError):
                self.assertNotIn(b"shop", plain.recv(100))

    def test_a_certificate_is_of_one_database_by_its_identity(self) -> None:
        front = self.begun(replace(self.tls, clients=self.certificates.ca))
        front.serve("run1", self.echo("shop").address, SHOP)
        front.serve("run2", self.echo("notes").address, NOTES)
        shop, notes = self.certificates.client(SHOP), self.certificates.client(NOTES)
        self.assertEqual(
            (self.heard(front.place("run1"), shop), self.heard(front.place("run2"), notes)),
            (b"shop", b"notes"),
        )
        for place, client in (
            (front.place("run1"), notes),
            (front.place("run2"), shop),
            (front.place("run1"), None),
        ):
            self.assertEqual(self.heard(place, client), b"")

    def test_a_session_that_is_taken_up_again_is_of_the_same_database(self) -> None:
        front = self.begun(replace(self.tls, clients=self.certificates.ca))
        front.serve("run1", self.echo("shop").address, SHOP)
        front.serve("run2", self.echo("notes").address, NOTES)
        context = self.certificates.context(self.certificates.client(SHOP))
        with self.open(front.place("run1"), context=context) as line:
            self.assertEqual(line.recv(100), b"shop")
            session = line.session
        for run, wanted in (("run1", b"shop"), ("run2", b"")):
            host, _, port = str(front.place(run)).rpartition(":")
            with socket.create_connection((host, int(port)), PATIENCE) as plain, suppress(
                ConnectionError, ssl.SSLError
            ):
                with context.wrap_socket(
                    plain, server_hostname="localhost", session=session
                ) as again:
                    found = again.recv(100)
                    self.assertTrue(again.session_reused)
                    self.assertEqual(found, wanted)


class Cut(Fronts):
    def test_a_handshake_that_breaks_off_at_each_byte_leaves_nothing_behind(self) -> None:
        """On the way here and on the way there, by a client with a certificate: it is said, or it was enough. Neither has a descriptor more."""
        front, own = self.begun(replace(self.tls, clients=self.certificates.ca)), os.getpid()
        front.serve("run1", self.echo("shop").address, SHOP)
        assert front.process is not None
        pid, file = front.process.facts.pid, self.certificates.client(SHOP)
        trust = Trust(self.certificates.ca, file, file)
        with Halting(str(front.place("run1"))) as peer:
            host, _, port = peer.address.rpartition(":")

            def said() -> str:
                try:
                    with dial(host, int(port), PATIENCE, trust) as line:
                        return line.recv(100).decode() or "it ended"
                except (SecurityError, ConnectionError) as error:
                    return str(error)

            before = descriptors(own), descriptors(pid)
            peer.left = 1 << 30
            self.assertEqual(said(), "shop")
            cases = [(left, 1 << 30) for left in range(0, peer.came, STEP)]
            cases += [(1 << 30, toward) for toward in range(0, peer.went, STEP)]
            for peer.left, peer.toward in cases:
                with self.subTest(here=peer.left, there=peer.toward):
                    self.assertRegex(said(), "shop|it ended|TLS: |reset by peer|Broken pipe")
            eventually(
                lambda: descriptors(own) <= before[0] and descriptors(pid) <= before[1],
                "the descriptors of before",
            )
        self.assertEqual(self.heard(front.place("run1"), file), b"shop")


class Coming(Fronts):
    def test_a_front_that_was_killed_comes_back_at_the_same_ports(self) -> None:
        front = self.begun()
        front.serve("shop", self.echo("shop").address, SHOP)
        place, before = front.place("shop"), front.process
        assert before is not None
        line = self.open(place)
        self.assertEqual(line.recv(100), b"shop")
        os.kill(before.facts.pid, signal.SIGKILL)
        with suppress(ConnectionError, ssl.SSLError):
            self.assertEqual(line.recv(100), b"")
        line.close()
        front.serve("notes", self.echo("notes").address, NOTES)
        self.assertEqual(
            (front.place("shop"), self.heard(place), self.heard(front.place("notes"))),
            (place, b"shop", b"notes"),
        )

    def test_one_that_hangs_is_replaced(self) -> None:
        front = self.begun()
        front.serve("shop", self.echo("shop").address, SHOP)
        place, before = front.place("shop"), front.process
        assert before is not None
        os.kill(before.facts.pid, signal.SIGSTOP)
        with patch("pagelog.keeper.haproxy.PATIENCE", 0.3):
            self.tend(front, "hangs")
        self.revive(front, before.facts.pid)
        self.assertEqual(self.heard(place), b"shop")
        self.assertEqual(len(fronts_of(self.folder)), 1)

    def test_a_port_that_another_program_has_meanwhile_is_another_one(self) -> None:
        front = self.begun()
        front.serve("shop", self.echo("shop").address, SHOP)
        place, before = str(front.place("shop")), front.process
        assert before is not None
        os.kill(before.facts.pid, signal.SIGKILL)
        eventually(lambda: not before.is_alive, "its end")
        with socket.create_server(("127.0.0.1", int(place.rpartition(":")[2]))):
            self.revive(front, before.facts.pid)
            self.assertNotEqual(front.place("shop"), place)
            self.assertEqual(self.heard(front.place("shop")), b"shop")

    def test_nothing_is_told_before_a_slow_one_answers(self) -> None:
        slow = self.folder / "bin" / "haproxy"
        slow.parent.mkdir()
        gate = self.folder / "gate"
        os.mkfifo(gate)
        slow.write_text(f'#!/bin/sh\nread -r line < {gate}\nexec {shutil.which("haproxy")} "$@"\n')
        slow.chmod(0o755)
        front = Front(self.tls, self.folder, self.said.append)
        with patch.dict(os.environ, PATH=f"{slow.parent}:{os.environ['PATH']}"):
            begins = threading.Thread(target=front.begin)
            begins.start()
            with gate.open("w") as opened:
                self.assertEqual((front.lines, front.place("shop")), (None, None))
                opened.write("go\n")
            begins.join(PATIENCE)
        self.assertEqual(front.lines, self.port.address)

    def test_without_its_certificate_it_waits_for_that(self) -> None:
        self.file.unlink()
        front = Front(self.tls, self.folder, self.said.append)
        with self.assertRaisesRegex(FrontError, "pair.pem: No such file"):
            front.begin()
        self.put("good")
        self.revive(front)
        self.assertEqual(self.shown(self.port.address), "good")

    def test_without_its_packages_it_says_what_to_install(self) -> None:
        with patch.dict(os.environ, PATH=str(self.folder)), self.assertRaisesRegex(
            FrontError, "apt-get install haproxy"
        ):
            self.begun()
        with patch.dict(sys.modules, cryptography=None), self.assertRaisesRegex(
            CertificateError, "apt-get install python3-cryptography"
        ):
            Pair.read(self.file)

    def test_the_next_life_adopts_it_with_what_it_leads_to(self) -> None:
        front = self.begun()
        shop, gone = self.echo("shop"), self.echo("gone")
        front.serve("run1", shop.address, SHOP)
        front.serve("run2", gone.address, NOTES)
        places, before = (front.place("run1"), front.place("run2")), front.process
        assert before is not None
        front.leave()
        facts = ProcessFacts("shop", "run1", 0, 0, "", shop.address)
        with patch("pagelog.keeper.front.services_of", return_value=[facts]):
            after = self.begun()
        assert after.process is not None
        self.assertEqual(
            (after.process.facts, after.place("run1"), self.heard(places[0])),
            (before.facts, places[0], b"shop"),
        )
        self.assertEqual(self.heard(places[1]), b"", "of a run that is gone nothing is led to")
        pid = after.process.facts.pid
        os.kill(pid, signal.SIGKILL)
        self.revive(after, pid)
        self.assertEqual(self.heard(places[0]), b"shop")

    def test_one_that_is_to_be_otherwise_is_ended(self) -> None:
        before = self.begun().process
        assert before is not None
        after = self.begun(replace(self.tls, ports=2)).process
        assert after is not None
        self.assertNotEqual(after.facts.pid, before.facts.pid)
        self.assertFalse(before.is_alive)
        self.assertEqual(len(fronts_of(self.folder)), 1)

    def test_a_keeper_that_knows_of_no_fronts_ends_it(self) -> None:
        """As 0.1.0, which reads no note with a fact that it does not know."""
        front = self.begun()
        assert front.process is not None
        self.assertFalse(has_services(self.folder))
        self.assertEqual(orphans_of(self.folder, set()), [])
        script = "import pathlib, sys; from pagelog.keeper.run import end_orphans; print(end_orphans(pathlib.Path(sys.argv[1]), set()))"
        done = subprocess.run(
            [sys.executable, "-c", script, self.folder],
            stdout=subprocess.PIPE,
            text=True,
            check=True,
            env={**os.environ, "PYTHONPATH": str(old() / "python" / "src")},
        )
        self.assertEqual(done.stdout, "['~front']\n")
        self.assertEqual(fronts_of(self.folder), [])

    def test_of_a_keeper_that_is_killed_before_it_is_noted_nothing_is_left(self) -> None:
        script = (
            "import os, sys; from pathlib import Path; from pagelog.keeper import run; from pagelog.keeper.front import Front, Tls\n"
            "def die(folder, name, child):\n    print(child.pid, flush=True); os.kill(os.getpid(), 9)\n"
            "run.Run.of_front = die\n"
            f"Front(Tls(Path({str(self.file)!r}), '127.0.0.1', {self.port.address!r}, ports=3), Path({str(self.folder)!r}), print).begin()"
        )
        done = subprocess.run(
            [sys.executable, "-c", script],
            stdout=subprocess.PIPE,
            text=True,
            env={**os.environ, "PYTHONPATH": str(Path(front_module.__file__).parents[2])},
        )
        pid = int(done.stdout)
        eventually(
            lambda: not Path(f"/proc/{pid}").exists()
            or " Z " in Path(f"/proc/{pid}/stat").read_text(),
            "its end",
        )


class Renewing(Fronts):
    def test_open_connections_go_on_and_new_ones_see_the_new_certificate(self) -> None:
        front = self.begun()
        front.serve("shop", self.echo("shop").address, SHOP)
        place, done, failed, count = front.place("shop"), threading.Event(), list[str](), [0]

        def load() -> None:
            try:
                with self.open(place) as line:
                    line.recv(100)
                    while not done.is_set():
                        line.sendall(b"x" * 1000)
                        _read(line, 1000)
                        if self.heard(place) != b"shop":
                            failed.append("a fresh one")
                        count[0] += 1
            except OSError as error:
                failed.append(repr(error))

        threads = [threading.Thread(target=load) for _ in range(4)]
        for each in threads:
            each.start()
        for name in ("renewed", "good", "renewed"):
            before = count[0]
            eventually(lambda: count[0] > before + 4 or bool(failed), "load")
            self.put(name)
            front.tend()
            self.assertEqual((self.shown(place), self.shown(self.port.address)), (name, name))
        done.set()
        for each in threads:
            each.join(PATIENCE)
        self.assertEqual(failed, [])

    def test_what_cannot_be_used_leaves_the_old_one_in_force(self) -> None:
        front = self.begun()
        for text, what in (
            (b"broken", "no certificate with its key"),
            (b"", "no certificate with its key"),
        ):
            self.put(text=text)
            with self.assertRaisesRegex(CertificateError, what):
                front.tend()
            self.assertEqual(self.shown(self.port.address), "good")
        self.put(
            text=self.certificates.folder.joinpath("renewed.pem").read_bytes()
            + self.certificates.folder.joinpath("good.key").read_bytes()
        )
        with self.assertRaisesRegex(CertificateError, "KEY_VALUES_MISMATCH"):
            front.tend()
        front.tend()  # said once
        assert front.process is not None
        pid = front.process.facts.pid
        os.kill(pid, signal.SIGKILL)
        self.revive(front, pid)
        self.assertEqual(self.shown(self.port.address), "good", "from memory")
        self.put("renewed")
        front.tend()
        self.assertEqual(self.shown(self.port.address), "renewed")

    def test_one_that_the_front_refuses_is_tried_again(self) -> None:
        front = self.begun()
        self.put("renewed")
        refused = patch(
            "pagelog.keeper.haproxy.Haproxy.ask",
            lambda _, command, payload=b"": "" if "ssl" in command else "2.6",
        )
        with refused, self.assertRaisesRegex(FrontError, "does not take another cert"):
            front.tend()
        front.tend()
        self.assertEqual(self.shown(self.port.address), "renewed")

    def test_other_authorities_of_clients_count_from_then_on(self) -> None:
        authorities = self.folder / "clients.pem"
        shutil.copy(self.certificates.folder / "other-ca.pem", authorities)
        front = self.begun(replace(self.tls, clients=authorities))
        front.serve("shop", self.echo("shop").address, SHOP)
        self.assertEqual(self.heard(front.place("shop"), self.certificates.client(SHOP)), b"")
        shutil.copy(self.certificates.ca, self.folder / "fresh")
        (self.folder / "fresh").replace(authorities)
        front.tend()
        self.assertEqual(self.heard(front.place("shop"), self.certificates.client(SHOP)), b"shop")

    def test_a_file_that_others_may_read_is_refused_and_one_for_another_host_is_told(self) -> None:
        self.file.chmod(0o644)
        with self.assertRaisesRegex(CertificateError, "others may read .*pair.pem"):
            Pair.read(self.file)
        self.file.chmod(0o600)
        self.assertTrue(Pair.read(self.file).is_for("LOCALHOST"))
        Front(
            replace(self.tls, host="elsewhere.example"), self.folder, self.said.append
        )._read_files()
        self.assertTrue(
            any("no certificate for elsewhere.example" in sentence for sentence in self.said)
        )


class Private(Fronts):
    def test_nobody_else_may_connect_to_the_sockets(self) -> None:
        self.begun()
        made = private_socket(self.folder, "lines.sock")
        self.addCleanup(made.close)
        for name in ("front.sock", "lines.sock"):
            self.assertEqual((self.folder / name).stat().st_mode & 0o777, 0o600)

    def test_the_key_is_in_no_file_of_the_folder(self) -> None:
        self.begun()
        key = self.certificates.folder.joinpath("good.key").read_bytes()
        found = [
            file.name
            for file in self.folder.iterdir()
            if file.is_file() and file != self.file and key in file.read_bytes()
        ]
        self.assertEqual(found, [])

    def test_it_has_as_many_connections_as_descriptors_allow(self) -> None:
        front = self.begun()
        told = front._process.ask("show info")  # type: ignore[union-attr]
        most = int(told.partition("Maxconn: ")[2].split()[0])
        self.assertLessEqual(2 * most + 3, resource.getrlimit(resource.RLIMIT_NOFILE)[0])


def _read(line: ssl.SSLSocket, count: int) -> None:
    while count:
        data = line.recv(count)
        if not data:
            raise ConnectionResetError("it ended")
        count -= len(data)


if __name__ == "__main__":
    unittest.main()
