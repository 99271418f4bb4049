"""Page servers by TLS: who is believed, who is let in, and that nothing goes in plain text where TLS was asked for."""

from __future__ import annotations

import json
import os
import re
import shutil
import signal
import socket
import ssl
import struct
import subprocess
import sys
import threading
import unittest
import urllib.request
from contextlib import closing, suppress
from pathlib import Path
from unittest.mock import patch

import pages_program
from click.testing import CliRunner
from keepers import eventually
from prometheus_client.parser import text_string_to_metric_families
from pagelog import Connection, Credentials, Put, Reader
from pagelog.credentials import load
from pagelog.cli.words import pagelogctl
from pagelog.errors import ConnectionLost, TimedOut, Unreachable
from pagelog.keeper.certificate import Pair
from pagelog.referee.referee import Referee
from pagelog.pages.following import PageServerSettings
from pagelog.pages.process import PagesProcess, Serving
from pagelog.pages.serving import PageServers
from pagelog.place import Keepers, PageServerPlace
from pagelog.request import Role
from pagelog.secure import Trust
from secured import Certificates, Secured
from service import PATIENCE, TABLE, token
from sqlite_named import connected
from test_pages import Log, Paged

IDENTITY = "11111111-2222-4333-8444-555555555555"


def frame_of(position: int, page: int = 1) -> bytes:
    """A get by principal 3."""
    body = struct.pack(">I16sBIIBIQB", 3, bytes.fromhex(token(3)), 2, 0, 1, 4, page, position, 1)
    return len(body).to_bytes(4, "big") + body


def answers(address: str, context: ssl.SSLContext) -> bool:
    """Whether anything is said there to a request, be it a denial."""
    host, _, port = address.rpartition(":")
    try:
        with socket.create_connection((host, int(port)), PATIENCE) as plain:
            with context.wrap_socket(plain, server_hostname=host) as line:
                line.sendall(frame_of(0))
                return bool(line.recv(1))
    except (ConnectionError, ssl.SSLError):
        return False


class Secure(Paged):
    """The program alone."""

    def setUp(self) -> None:
        super().setUp()
        self.certificates = Certificates()
        self.file = self.folder / "tls.pem"
        self.put("good")
        self.trust = Trust(self.certificates.ca)

    def put(self, name: str) -> None:
        """Its certificate from now on, whole."""
        fresh = self.folder / "tls.new"
        shutil.copy(self.certificates[name], fresh)
        fresh.chmod(0o600)
        fresh.replace(self.file)

    def secure(
        self, *options: str, host: str = "127.0.0.1", clients: Path | None = None, listen: str = "-"
    ) -> PagesProcess:
        serving = Serving(self.file, clients)
        made = PagesProcess(
            pages_program.program(),
            self.folder / "store",
            listen,
            *serving.options(host, IDENTITY),
            "--cache",
            "8",
            *options,
        )
        self.running.append(made)
        made.set_table(TABLE.read_text())
        return made

    def by(self, trust: Trust | None, address: str) -> Reader:
        return self.enterContext(
            closing(
                Reader(
                    Connection(address, timeout=PATIENCE, attempts=1, trust=trust),
                    Credentials.of(3, token(3)),
                )
            )
        )

    def dialed(self, address: str, client: Path | None = None) -> ssl.SSLSocket:
        """By Python's `ssl` alone."""
        host, _, port = address.rpartition(":")
        plain = socket.create_connection((host, int(port)), PATIENCE)
        return self.enterContext(
            self.certificates.context(client).wrap_socket(plain, server_hostname=host)
        )

    def taken(self, line: socket.socket) -> bytes:
        """The next reply."""
        found = b""
        while len(found) < 4 or len(found) < 4 + int.from_bytes(found[:4], "big"):
            found += line.recv(
                4 + int.from_bytes(found[:4], "big") - len(found)
                if len(found) >= 4
                else 4 - len(found)
            ) or self.fail("it ended")
        return found[4:]


class Alone(Secure):
    def test_it_answers_as_without_and_who_comes_without_gets_nothing(self) -> None:
        log = Log(60, 21)
        pages = self.secure(listen="127.0.0.1:0")
        self.feed(pages, log, 60)
        assert pages.secure is not None
        plain, secure = self.by(None, pages.address), self.by(self.trust, pages.secure.address)
        self.assertFalse(pages.secure.is_only)
        numbers = [
            log.random.choice((0, 1, 2, 3, 5, 8)) for _ in range(3000)
        ]  # more than its socket takes at once
        self.assertEqual(secure.pages(numbers, 60), plain.pages(numbers, 60))
        self.assertEqual(list(secure.blocks(1, follow=False)), list(plain.blocks(1, follow=False)))
        for trust, address in ((None, pages.secure.address), (self.trust, pages.address)):
            with self.assertRaises((ConnectionLost, Unreachable)):
                self.by(trust, address).status()
        only = PagesProcess(
            pages_program.program(),
            self.folder / "other",
            "-",
            *Serving(self.file).options("127.0.0.1", IDENTITY),
        )
        self.running.append(only)
        assert only.secure is not None
        self.assertEqual((only.secure.is_only, only.secure.address), (True, only.address))

    def test_who_is_not_who_he_should_be_is_not_believed(self) -> None:
        pages = self.secure()
        other = Trust(self.certificates.folder / "other-ca.pem")
        with self.assertRaisesRegex(
            Unreachable, "unable to get local issuer|self.signed|unable to get issuer"
        ):
            self.by(other, pages.address).status()
        pages.kill()
        elsewhere = self.secure(host="127.0.0.2")
        with self.assertRaisesRegex(Unreachable, "(?i)IP address mismatch"):
            self.by(self.trust, elsewhere.address).status()

    def test_the_newest_certificate_is_shown_and_what_is_open_goes_on(self) -> None:
        log = Log(5, 22)
        pages = self.secure()
        self.feed(pages, log, 5)
        first = self.dialed(pages.address)
        self.put("renewed")
        shown = [self.dialed(pages.address).getpeercert(binary_form=True)]
        self.file.write_text("no certificate")
        shown.append(self.dialed(pages.address).getpeercert(binary_form=True))
        self.file.unlink()
        shown.append(self.dialed(pages.address).getpeercert(binary_form=True))
        renewed = ssl.PEM_cert_to_DER_cert((self.certificates.folder / "renewed.pem").read_text())
        self.assertEqual(shown, [renewed] * 3)
        self.put("good")
        self.assertNotEqual(self.dialed(pages.address).getpeercert(binary_form=True), renewed)
        first.sendall(frame_of(5))
        self.assertEqual(self.taken(first)[9:], log.page_at(1, 5))

    def test_a_client_has_a_certificate_of_the_database(self) -> None:
        log = Log(5, 23)
        pages = self.secure(clients=self.certificates.ca)
        self.feed(pages, log, 5)
        own, other = self.certificates.client(IDENTITY), self.certificates.client(
            IDENTITY.replace("1", "9")
        )
        server = self.certificates["good"]  # which is for no client
        line = self.dialed(pages.address, own)
        line.sendall(frame_of(5))
        self.assertEqual(self.taken(line)[9:], log.page_at(1, 5))
        for client in (None, other, server):
            with self.assertRaises(OSError):
                line = self.dialed(pages.address, client)
                line.sendall(frame_of(5))
                if not line.recv(1):
                    raise ConnectionResetError("it ended")
        line = self.dialed(pages.address, own)
        line.sendall(frame_of(5))
        self.assertEqual(self.taken(line)[9:], log.page_at(1, 5))

    def test_half_a_handshake_and_what_is_none_hold_up_nobody(self) -> None:
        log = Log(20, 24)
        pages = self.secure("--workers", "1", "--wait", "60000")
        self.feed(pages, log, 20)
        context, incoming, outgoing = self.certificates.context(), ssl.MemoryBIO(), ssl.MemoryBIO()
        half = context.wrap_bio(incoming, outgoing, server_hostname="127.0.0.1")
        with self.assertRaises(ssl.SSLWantReadError):
            half.do_handshake()
        hello = outgoing.read()
        lines = [
            self.enterContext(socket.create_connection(self.split(pages.address))) for _ in range(3)
        ]
        for line, bytes_of in zip(lines, (hello[:50], b"GET / HTTP/1.1\r\n\r\n", hello)):
            line.sendall(bytes_of)
        reader = self.by(self.trust, pages.address)
        self.assertEqual(reader.page(1, 20).data, log.page_at(1, 20))
        lines[0].sendall(hello[50:])
        self.assertEqual(lines[0].recv(1), b"\x16")  # it goes on where it was
        os.kill(pages.pid, signal.SIGSTOP)
        lines[2].close()
        os.kill(pages.pid, signal.SIGCONT)
        self.assertEqual(reader.page(1, 19).data, log.page_at(1, 19))

    @staticmethod
    def split(address: str) -> tuple[str, int]:
        host, _, port = address.rpartition(":")
        return host, int(port)

    def test_what_it_has_read_ahead_is_answered_once_a_position_comes(self) -> None:
        log = Log(20, 25)
        pages = self.secure("--workers", "1", "--wait", "60000")
        self.feed(pages, log, 10)
        line, other = self.dialed(pages.address), self.dialed(pages.address)
        line.sendall(
            frame_of(15) + frame_of(10) * 2000
        )  # the first waits; the others are with OpenSSL and in the socket
        for byte in frame_of(9):  # a record each
            other.sendall(bytes([byte]))
        self.assertEqual(self.taken(other)[9:], log.page_at(1, 9))
        pages.add(log.blocks[10:15], log.chains[15])
        self.assertEqual(self.taken(line)[9:], log.page_at(1, 15))
        for _ in range(2000):
            self.assertEqual(self.taken(line)[9:], log.page_at(1, 10))

    def test_files_that_cannot_be_used_are_said(self) -> None:
        for text in ("", (self.certificates.folder / "good.pem").read_text()):
            self.file.write_text(text)
            with self.assertRaisesRegex(Exception, "the page server has ended"):
                self.secure()


class Told(unittest.TestCase):
    """Under a keeper."""

    also = "plain = false"

    def setUp(self) -> None:
        self.keeping = self.enterContext(Secured(ttl=1.0, standby=False, also=self.also))
        self.keeping.referee.prepare()
        self.assertTrue(
            self.keeping.referee.create("shop", self.keeping.table.read_text(), b"s" * 16)
        )
        self.keeping.start("a")
        self.trust = Trust(self.keeping.certificates.ca)
        self.said: list[str] = []

    @property
    def options(self) -> dict[str, object]:
        return {
            "keepers": self.keeping.secure_addresses,
            "trust": self.trust,
            "patience": PATIENCE,
            "timeout": PATIENCE,
        }

    def committed(self, count: int) -> int:
        from pagelog import Primary

        with Primary.named("shop", principal=2, token=token(2), operator=(1, token(1)), **self.options) as primary:  # type: ignore[arg-type]
            for n in range(count):
                primary.append(Put(n % 4, 0, b"%08d" % n))
                position = primary.commit(durable=True)
        return position

    def servers(
        self, serving: Serving | None, name: str = "stores", names: tuple[str, ...] = ("shop",)
    ) -> PageServers:
        settings = PageServerSettings(
            pages_program.program(),
            self.keeping.folder / name,
            "127.0.0.1",
            "here",
            ("--cache", "8", "--memtable", "1"),
            serving,
            self.trust,
        )
        made = PageServers(
            settings,
            lambda me: Referee(self.keeping.url, me),
            names,
            lambda name, said: self.said.append(f"{name}: {said}"),
        )
        thread = threading.Thread(target=made.run)
        thread.start()

        def end() -> None:
            made.end()
            thread.join()

        self.addCleanup(end)
        return made

    def known(self, trust: Trust | None) -> list[PageServerPlace]:
        with closing(
            Keepers(
                "shop",
                self.keeping.secure_addresses if trust else self.keeping.addresses,
                PATIENCE,
                trust,
            )
        ) as keepers:
            return keepers.page_servers() or []

    def reader(self, **options: object) -> Reader:
        return self.enterContext(Reader.named("shop", principal=3, token=token(3), **{**self.options, **options}))  # type: ignore[arg-type, return-value]


class Only(Told):
    def test_a_reader_by_tls_is_led_there_by_tls(self) -> None:
        position = self.committed(10)
        servers = self.servers(Serving(self.keeping.pair, None, True))
        eventually(
            lambda: len(self.known(self.trust)) == 1, f"one that is told by TLS: {self.said}"
        )
        [follower] = [each for each, _ in servers._running.values()]
        eventually(lambda: follower._bell.hears, "the keeper, by TLS")
        for options in ({"durable_only": True}, {"pages": "only"}):
            reader = self.reader(**options)
            eventually(lambda: reader.end() == position, "all that is durable")  # type: ignore[attr-defined]
            for page, n in ((0, 8), (1, 9), (2, 6), (3, 7)):
                self.assertEqual(reader.page(page, position).data[:8], b"%08d" % n)
            copies = reader._copies  # type: ignore[attr-defined]
            eventually(
                lambda: bool(reader.page(0, position)) and copies.asked_of > 0,
                "that the page server is asked",
            )
        [place] = self.known(self.trust)
        self.assertEqual(
            [
                each.told(False)
                for each in self.keeping.referee.everything().pages
                if each.run == place.run
            ],
            [None],
        )
        with self.assertRaises((ConnectionLost, Unreachable, TimedOut)):  # it speaks nothing else
            Reader(
                Connection(place.address, timeout=PATIENCE, attempts=1), Credentials.of(3, token(3))
            ).status()
        self.is_compared(position)

    def is_compared(self, position: int) -> None:
        """By `verify --pages`, of which services and page servers are told by TLS alone."""
        words = ["verify", "shop", "--pages", "--json", "--credentials", str(self.keeping.file)]
        done = CliRunner().invoke(pagelogctl, words)
        self.assertEqual(
            (done.exit_code, "is reached by TLS alone" in done.output), (1, True), done.output
        )
        done = CliRunner().invoke(
            pagelogctl, ["--sslrootcert", str(self.keeping.certificates.ca), *words]
        )
        self.assertEqual(done.exit_code, 0, done.output)
        self.assertEqual(
            {key: json.loads(done.output)[key] for key in ("position", "pages")},
            {"position": position, "pages": 4},
        )

    def test_sqlite_reads_there_by_tls(self) -> None:
        trust = {"sslrootcert": self.keeping.certificates.ca}
        with closing(connected(self.keeping.secure_addresses, **trust)) as writer:
            writer.execute("create table t(n)")
            writer.execute("insert into t values(1)")
        self.servers(Serving(self.keeping.pair, None, True))
        eventually(
            lambda: len(self.known(self.trust)) == 1, f"one that is told by TLS: {self.said}"
        )
        with closing(
            connected(self.keeping.secure_addresses, id=3, mode="ro", page_servers="only", **trust)
        ) as reader:
            eventually(
                lambda: reader.execute("select n from t").fetchall() == [(1,)], "what is durable"
            )
            self.keeping.kill("a", signal.SIGSTOP)  # nor is its service needed
            self.assertEqual(reader.execute("select count(*) from t").fetchall(), [(1,)])
            self.keeping.kill("a", signal.SIGCONT)

    def word(self, *words: object) -> list[str]:
        found = [
            sys.executable,
            "-m",
            "pagelog",
            "--sslrootcert",
            self.keeping.certificates.ca,
            "pages",
            "--program",
            pages_program.program(),
            "--folder",
            self.keeping.folder / "stores",
            "--credentials",
            self.keeping.file_of("a"),
            *words,
        ]
        return list(map(str, found))

    def test_the_word_serves_as_the_keepers_file_says(self) -> None:
        position = self.committed(6)
        with subprocess.Popen(
            self.word("shop"), stderr=subprocess.DEVNULL, env=self.keeping.environment
        ) as process:
            self.addCleanup(process.kill)
            eventually(
                lambda: [each.position for each in self.known(self.trust)] == [position],
                "one that is told by TLS",
            )
            [place] = self.known(self.trust)
            self.assertEqual(self.reader(pages="only").page(1, position).data[:8], b"%08d" % 5)
            process.terminate()
        keys = self.keeping.folder / "saved.toml"
        with subprocess.Popen(
            self.word("--open", place.run, "--keys", keys),
            stdout=subprocess.PIPE,
            text=True,
            env=self.keeping.environment,
        ) as opened:
            self.addCleanup(opened.kill)
            assert opened.stdout is not None
            self.assertIn(f"positions 0 to {position} at ", opened.stdout.readline())
            account = load(str(keys)).account(Role.SECONDARY)
            with closing(
                Reader(
                    Connection(account.to, timeout=PATIENCE, trust=self.trust), account.credentials
                )
            ) as reader:
                self.assertEqual(reader.page(1, position).data[:8], b"%08d" % 5)
            with self.assertRaises((ConnectionLost, Unreachable)):
                Reader(
                    Connection(account.to, timeout=PATIENCE, attempts=1), account.credentials
                ).status()
            opened.terminate()

    def test_each_of_several_databases_lets_in_clients_of_its_own(self) -> None:
        """They show one certificate, that of their machine: a client of one database is none of the other."""
        certificates, referee = self.keeping.certificates, self.keeping.referee
        self.assertTrue(referee.create("other", self.keeping.table.read_text(), b"t" * 16))
        names = "shop", "other"
        serving = Serving(self.keeping.pair, certificates.ca, True)
        servers = self.servers(serving, names=names)
        eventually(lambda: servers.states().keys() == set(names), "both")
        look = referee.everything()
        for name in names:
            for other in names:
                row, client = look.row(name), look.row(other)
                assert row is not None and client is not None
                [pages] = look.pages_of(row.id)
                context = certificates.context(certificates.client(client.identity))
                self.assertEqual(answers(str(pages.told(True)), context), name == other)

    def test_its_metrics_say_when_the_certificate_ends_that_it_shows(self) -> None:
        position = self.committed(6)
        log = self.keeping.folder / "pages.log"
        with log.open("w") as said:
            process = subprocess.Popen(
                self.word("shop", "--metrics", "127.0.0.1:0"),
                stderr=said,
                env=self.keeping.environment,
            )
        self.addCleanup(process.communicate)
        self.addCleanup(process.kill)
        eventually(lambda: self.metrics(log).get("pagelog_pages_position") == position, "it")
        ends = Pair.read(self.keeping.pair).ends
        self.assertEqual(self.metrics(log)["pagelog_pages_certificate_ends"], ends)
        self.sign_for_days("short", 5)
        self.keeping.put("short")
        soon = Pair.read(self.keeping.pair).ends
        self.assertNotEqual(soon, ends)
        self.assertEqual(self.metrics(log)["pagelog_pages_certificate_ends"], soon)
        self.keeping.pair.write_text("nothing")  # which nobody is shown
        self.assertEqual(self.metrics(log)["pagelog_pages_certificate_ends"], soon)

    def sign_for_days(self, name: str, days: int) -> None:
        """As the good one, for fewer days."""
        folder = self.keeping.certificates.folder
        made = f"openssl x509 -req -in good.csr -CA ca.pem -CAkey ca.key -CAcreateserial -days {days} -extfile good.ext"
        subprocess.run(
            [*made.split(), "-out", f"{name}.pem"], cwd=folder, check=True, capture_output=True
        )
        (folder / f"{name}.both").write_bytes(
            (folder / f"{name}.pem").read_bytes() + (folder / "good.key").read_bytes()
        )

    def metrics(self, log: Path) -> dict[str, float]:
        """What it says, where it says where."""
        found = re.search(r"metrics at (\S+)", log.read_text())
        if found is None:
            return {}
        with urllib.request.urlopen(f"http://{found[1]}/metrics", timeout=PATIENCE) as reply:
            families = text_string_to_metric_families(reply.read().decode())
            return {sample.name: sample.value for family in families for sample in family.samples}

    def test_what_the_file_says_amiss_is_said(self) -> None:
        file, pair = self.keeping.folder / "wrong.toml", self.keeping.pair
        file.touch(mode=0o600)
        for section, host, why in (
            (f'tls = "{pair}"', "127.0.0.9", "is not for 127.0.0.9, which nobody would believe"),
            ("plain = false", "127.0.0.1", "[keeper] has tls_clients or plain without tls"),
            (
                f'tls = "{pair}"\ntls_clients = "{file}"',
                "127.0.0.1",
                "no certificates of authorities",
            ),
        ):
            file.write_text(f'[archive]\nurl = "{self.keeping.url}"\n[keeper]\n{section}\n')
            words = [
                "pages",
                "--folder",
                str(self.keeping.folder / "none"),
                "--program",
                str(pages_program.program()),
                "--listen",
                host,
            ]
            done = CliRunner().invoke(pagelogctl, [*words, "--credentials", str(file)])
            self.assertEqual((done.exit_code, why in done.output), (1, True), done.output)


class Beside(Told):
    """A keeper that has both."""

    also = ""

    def test_nobody_who_trusts_is_led_to_plain_text(self) -> None:
        position = self.committed(5)
        self.servers(None)
        eventually(lambda: len(self.known(None)) == 1, f"one that is told without: {self.said}")
        self.assertEqual(self.known(self.trust), [])
        reader = self.reader(durable_only=True)
        self.assertEqual(reader.page(0, position).data[:8], b"%08d" % 4)
        self.assertEqual(reader._copies.asked_of, 0)  # type: ignore[attr-defined]
        self.servers(Serving(self.keeping.pair), "both")
        eventually(
            lambda: (len(self.known(None)), len(self.known(self.trust))) == (2, 1),
            "the other one, which has both",
        )

    def test_where_a_keeper_names_a_plain_one_nothing_is_said_to_it(self) -> None:
        position, heard = self.committed(5), bytearray()
        listener = socket.create_server(("127.0.0.1", 0))
        self.addCleanup(listener.close)

        def hear() -> None:
            line, _ = listener.accept()
            with line, suppress(OSError):
                while data := line.recv(4096):
                    heard.extend(data)
                    line.sendall(bytes(100))

        threading.Thread(target=hear, daemon=True).start()
        place = PageServerPlace(f"127.0.0.1:{listener.getsockname()[1]}", "0" * 16, position, 0)
        with patch.object(Keepers, "page_servers", lambda _: [place]):
            reader = self.reader(durable_only=True)
            reader.end()
            self.assertIsNone(reader._copies.pages([0], position))  # type: ignore[attr-defined]
            self.assertEqual(reader.page(0, position).data[:8], b"%08d" % 4)
        eventually(lambda: bool(heard), "what it heard")
        self.assertEqual(
            heard[:1], b"\x16"
        )  # the beginning of a handshake, and nothing of a request
        self.assertNotIn(reader._account.in_run(place.run).token, heard)  # type: ignore[attr-defined]


if __name__ == "__main__":
    unittest.main()
