"""Keepers and clients by TLS: both kinds of clients side by side, and what is to be seen on the wire."""

from __future__ import annotations

import json
import os
import re
import shutil
import signal
import socket
import ssl
import subprocess
import sys
import tempfile
import tomllib
import unittest
import urllib.error
import urllib.request
from contextlib import suppress
from pathlib import Path
from typing import Any, Iterator

import psycopg
from prometheus_client import CollectorRegistry

from keepers import Kept, Keeping, eventually
from pagelog import Primary, Reader
from pagelog.console.board import Limits
from pagelog.console.door import Door
from pagelog.console.running import begin
from pagelog.cli.metrics import serve
from pagelog.errors import CredentialsError
from pagelog.keeper.certificate import Pair, ShownFile
from pagelog.referee.fate import Of
from pagelog.keeper.fronted import may_ask
from pagelog.keeper.unix import near
from pagelog.referee.hosts import is_loopback, unverified
from pagelog.keeper.proxied import SIGNATURE, ProxyHead, taken
from pagelog.referee.referee import Away, Referee, options_of
from pagelog.keeper.run import fronts_of, has_services
from pagelog.keeper.settings import Settings
from pagelog.referee.ways import Way, address_for, way_of
from replicated import DATABASE, Server, Sessions, url_of
from secured import Certificates, Secured, Wire, answer_of, clients_by
from service import PATIENCE, TOP, put, token
from test_mixed import OldWriter

PAGE = (TOP / "docs" / "SECURITY.md").read_text()
TLV_TLS, TLV_NAME = 0x20, 0x22


def head(
    name: bytes | None = None, *, flags: int = 7, verify: int = 0, command: int = 0x21
) -> bytes:
    """That of a client of 127.0.0.1, with this name in its certificate."""
    part = b"" if name is None else bytes([TLV_NAME]) + len(name).to_bytes(2, "big") + name
    tls = bytes([flags]) + verify.to_bytes(4, "big") + part
    body = b"\x7f\0\0\1" * 2 + b"\0\1\0\2" + bytes([TLV_TLS]) + len(tls).to_bytes(2, "big") + tls
    return SIGNATURE + bytes([command, 0x11]) + len(body).to_bytes(2, "big") + body


class Heads(unittest.TestCase):
    def test_the_client_is_who_was_verified(self) -> None:
        for text, client in (
            (head(b"shop"), "shop"),
            (head(b"shop", flags=5), "shop"),
            (head(b"shop", verify=1), None),
            (head(b"shop", flags=1), None),
            (head(), None),
            (head(b"shop", command=0x20), None),
        ):
            self.assertEqual(taken(text + b"where x\n"), (ProxyHead(client), b"where x\n"))

    def test_one_that_is_cut_waits_and_one_that_is_none_is_refused(self) -> None:
        whole = head(b"shop")
        for count in range(len(whole)):
            self.assertIsNone(taken(whole[:count]), count)
        inner = len(whole) - 16
        for text in (
            b"where shop\n",
            b"GET / HTTP/1.1",
            SIGNATURE[:-1] + b"x" * 20,
            head(b"shop", command=0x11),
            whole[:13] + b"\x31" + whole[14:],
            SIGNATURE + b"\x21\x11\xff\xff",
            *(
                SIGNATURE + b"\x21\x11" + n.to_bytes(2, "big") + whole[16 : 16 + n]
                for n in range(inner)
                if n != 12
            ),
        ):
            with self.assertRaises(ValueError, msg=text):
                taken(text)

    def test_a_way_is_of_one_run(self) -> None:
        text = Way("h:1", True).text("run7")
        self.assertEqual(
            (way_of(text, "run7"), way_of(text, "run8"), way_of(text, None), way_of(None, "run7")),
            (Way("h:1", True), None, None, None),
        )
        found = [
            address_for("plain:1", way, is_secure=by)
            for way in (None, Way("h:1"), Way("h:1", True))
            for by in (False, True)
        ]
        self.assertEqual(found, ["plain:1", None, "plain:1", "h:1", None, "h:1"])
        self.assertIsNone(address_for(None, Way("h:1"), is_secure=True))
        away = way_of(Way("-", True).text("run7"), "run7")
        self.assertEqual(
            [address_for("127.0.0.1:1", away, is_secure=by) for by in (False, True)],
            [None, None],
            "its front is away",
        )

    def test_a_certificate_answers_for_one_identity(self) -> None:
        class Known:
            wants_certificates = True

            def identity_of(self, name: str) -> str | None:
                return {"shop": "id1", "notes": "id2"}.get(name)

        known: Any = Known()
        cases = [
            ("id1", ["where", "shop"], None, True),
            ("id2", ["where", "shop"], None, False),
            (None, ["where", "shop"], None, False),
            ("id1", ["durable", "shop", "1", "2"], Of("id2", "r"), False),
            ("id1", ["durable", "notes", "1", "2"], Of("id1", "r"), True),
            ("id1", ["where", "notes"], Of("id1", "r"), False),
            ("id1", ["turn", "notes"], Of("id1", "r"), False),
            ("id1", ["where", "other"], None, False),
        ]
        for client, asked, of, may in cases:
            self.assertEqual(may_ask(known, client, asked, of), may, (client, asked, of))


class Side(Kept):
    """Both kinds of clients, and two keepers."""

    keeping: Secured
    keepers = "ab"
    more = ""

    def setUp(self) -> None:
        self.keeping = self.enterContext(Secured(more=self.more))
        self.addCleanup(self.say_if_failed)
        self.assertTrue(
            self.keeping.referee.create("shop", self.keeping.table.read_text(), b"s" * 16)
        )
        self.keeping.start(*self.keepers)
        self.context = self.keeping.certificates.context()

    def asked(self, name: str, line: str, context: ssl.SSLContext | None = None) -> list[str]:
        """The words of an answer of a keeper's lines by TLS."""
        return answer_of(self.keeping.secure[name].address, line, context or self.context).split()

    def secured(self, id: int = 2, **options: Any) -> Primary:
        options = {"patience": PATIENCE, "timeout": PATIENCE, **options}
        return Primary.named(
            "shop",
            keepers=self.keeping.secure_addresses,
            principal=id,
            token=token(id),
            operator=(1, token(1)),
            **options,
        )

    def holder(self) -> str:
        found: list[str] = []

        def is_held() -> bool:
            found[:] = [self.keeping.row().holder or ""]
            return (
                all(self.asked(name, "where shop")[:1] == ["at"] for name in self.keepers)
                and found[0] in self.keepers
            )

        eventually(is_held, "a holder that is told by TLS")
        return found[0]

    def front(self, name: str) -> int:
        """The process of a keeper's front."""
        found = fronts_of(self.keeping.folder / name)
        for each in found:
            each.leave()
        return found[0].facts.pid if found else 0


class Both(Side):
    def test_each_kind_of_client_is_led_its_own_way_through_deaths_and_a_succession(self) -> None:
        holder = self.holder()
        other = "b" if holder == "a" else "a"
        for name in "ab":
            at, plain = (
                self.asked(name, "where shop"),
                answer_of(self.keeping.addresses["ab".index(name)], "where shop", None).split(),
            )
            self.assertEqual((at[:4], at[6]), (plain[:4], self.keeping.secure[holder].address))
            self.assertEqual(plain[6], f"127.0.0.1:{self.keeping.ports[holder]}")
            self.assertNotEqual(at[4], plain[4])
        eventually(
            lambda: self.asked(holder, "standby shop")[2] != "-", "a standby that is told by TLS"
        )
        standby, plain_standby = (
            answer_of(place, "standby shop", by).split()[2]
            for place, by in (
                (self.keeping.secure[holder].address, self.context),
                (f"127.0.0.1:{self.keeping.ports[holder]}", None),
            )
        )
        self.assertNotEqual(standby, plain_standby)
        older = OldWriter(self.keeping.addresses)
        self.addCleanup(older.close)
        self.assertTrue(older.commit("plain").isdecimal())
        with clients_by(self.context), self.secured() as writer:
            self.commit(writer, "tls", durable=True)
            before, pid = self.asked(holder, "where shop"), self.front(holder)
            os.kill(pid, signal.SIGKILL)
            self.commit(writer, "its front was killed", durable=True)
            eventually(
                lambda: self.asked(holder, "where shop")[2:5] == before[2:5],
                "the same run at the same port",
            )
            self.assertNotEqual(self.front(holder), pid)
            pid = self.front(holder)
            self.keeping.word("pause", "shop")  # however long the next instance takes to begin
            self.keeping.kill(holder)
            self.keeping.start(holder)
            self.commit(writer, "its keeper was killed", durable=True)
            self.keeping.word("resume", "shop")
            self.assertEqual((self.front(holder), self.holder()), (pid, holder))
            self.keeping.word("rollover", "shop")
            eventually(
                lambda: self.asked(holder, "where shop")[2:3] != before[2:3], "the next generation"
            )
            self.commit(writer, "after a succession", durable=True)
            self.keeping.kill(holder, signal.SIGTERM)
            self.assertEqual(self.holder_of(other), other)
            self.commit(writer, "handed over", durable=True)
        self.assertEqual(
            (self.front(holder), has_services(self.keeping.folder / holder)), (0, False)
        )
        told = (
            b"plain",
            b"tls",
            b"its front was killed",
            b"its keeper was killed",
            b"after a succession",
            b"handed over",
        )
        self.assertEqual([text for text in self.texts() if text in told], list(told))

    def holder_of(self, name: str) -> str:
        """Whom a keeper names by TLS, once it names itself."""
        eventually(
            lambda: self.asked(name, "where shop")[6:7] == [self.keeping.secure[name].address],
            "it has it",
        )
        return name


def listening(folder: Path) -> set[str]:
    """The hosts at which the services of a keeper's folder listen."""
    found = set()
    for note in folder.glob("[!~]*.json"):
        with suppress(FileNotFoundError, KeyError, TypeError):
            found.add(json.loads(note.read_text())["address"].rpartition(":")[0])
    return found


class Only(Side):
    """Nothing without TLS, and clients with certificates: by the commands of docs/SECURITY.md, as they are printed."""

    keepers = "a"

    def setUp(self) -> None:
        self.blocks = re.findall(r"^```sh\n(.*?)^```", PAGE, flags=re.M | re.S)
        self.keeping = keeping = self.enterContext(Secured())
        self.addCleanup(self.say_if_failed)
        for name in ("shop", "notes"):
            self.assertTrue(keeping.referee.create(name, keeping.table.read_text(), b"s" * 16))
        self.program = keeping.folder / "pagelogctl"
        self.program.write_text(f'#!/bin/sh\nexec {sys.executable} -B -m pagelog "$@"\n')
        self.program.chmod(0o755)
        shutil.copy(keeping.file, keeping.folder / "keeper.toml")
        self.printed(self.blocks[0])
        keeping.pair, keeping.also = (
            keeping.folder / "tls.pem",
            f'plain = false\ntls_clients = "{keeping.folder / "ca.pem"}"',
        )
        self.first = keeping.row().next_generation
        keeping.start("a")  # without its certificate
        for name in ("shop", "notes"):
            self.printed(self.blocks[2].replace("shop", name))
        eventually(lambda: "tls.pem: No such file" in keeping.said(), "what it lacks")
        eventually(
            lambda: "shop: no client would reach its service here: the front is away"
            in keeping.said(),
            "a decision without a front",
        )
        self.printed(self.blocks[1])
        self.context = self.client("shop")

    def printed(self, block: str) -> None:
        """Runs a block of the page."""
        folder, environment = self.keeping.folder, self.keeping.environment
        done = subprocess.run(
            ["sh", "-ec", block],
            cwd=folder,
            capture_output=True,
            text=True,
            timeout=PATIENCE,
            env={
                **environment,
                "HOSTS": "IP:127.0.0.1,DNS:localhost",
                "PATH": f"{folder}:{os.environ['PATH']}",
            },
        )
        self.assertEqual(done.returncode, 0, block + done.stdout + done.stderr)

    def client(self, name: str) -> ssl.SSLContext:
        """What the page gives to a client of a database; to one of none only the CA."""
        folder = self.keeping.folder
        made = ssl.create_default_context(cafile=str(folder / "ca.pem"))
        if name:
            made.load_cert_chain(folder / f"{name}.crt", folder / f"{name}.key")
        return made

    def test_no_token_and_no_page_is_to_be_seen_and_nobody_else_is_answered(self) -> None:
        self.assertEqual(len(self.blocks), 3)
        self.holder()
        words = b"words of a page that nobody may see"
        with clients_by(self.context) as wire:
            with self.secured() as writer:
                self.commit(writer, words.decode(), durable=True)
            with Reader.named(
                "shop",
                keepers=self.keeping.secure_addresses,
                principal=3,
                token=token(3),
                patience=PATIENCE,
                timeout=PATIENCE,
            ) as reader:
                self.assertIn(words, reader.page(0).data)
        self._see_nothing(wire, words)
        self.assertEqual(
            self.asked("a", "where shop")[2],
            str(self.first),
            "it was taken when nobody could come to it",
        )
        with self.assertRaises(ConnectionRefusedError):
            socket.create_connection(("127.0.0.1", self.keeping.ports["a"]))
        self.assertEqual(listening(self.keeping.folder / "a"), {"127.0.0.1"})
        self._see_who_is_denied()
        self._see_renewal()

    def _see_nothing(self, wire: Wire, words: bytes) -> None:
        secrets = [
            words,
            *(each for id in (1, 2, 3) for each in (token(id).encode(), bytes.fromhex(token(id)))),
        ]
        self.assertFalse(wire.has(*secrets, b"where shop", b"durable shop"))
        self.assertGreater(len(wire.bytes), 5000)
        self.assertGreater(len(wire.places), 1)

    def _see_who_is_denied(self) -> None:
        other = self.client("notes")
        for line in (
            "where shop",
            "next shop 9",
            "standby shop",
            "turn shop",
            "full shop 1",
            "durable shop 1 1",
        ):
            self.assertEqual(self.asked("a", line, other), ["denied", "shop"])
        self.assertEqual(
            self.asked("a", "where shop", self.client("")), [], "without a certificate"
        )
        forged = head(self.keeping.row().identity.encode()) + b"where shop"
        self.assertNotEqual(
            answer_of(self.keeping.secure["a"].address, forged, other)[:2],
            "at",
            "a head that a client writes counts for nothing",
        )
        with socket.socket(socket.AF_UNIX) as line, near(
            self.keeping.folder / "a", "lines.sock"
        ) as path:
            line.connect(path)  # as this very user alone can
            line.sendall(b"where shop\n")
            self.assertEqual(line.recv(100), b"", "who is no front")
        host, _, port = self.asked("a", "where shop")[4].rpartition(":")
        with socket.create_connection((host, int(port)), PATIENCE) as plain, suppress(
            ssl.SSLError, ConnectionError
        ):
            with other.wrap_socket(plain, server_hostname=host) as secured:
                secured.sendall((24).to_bytes(4, "big") + bytes(24))
                self.assertEqual(secured.recv(100), b"")

    def _see_renewal(self) -> None:
        before = self.shown()
        self.printed(self.blocks[1])
        self.keeping.ring()
        eventually(lambda: self.shown() != before, "the renewed one")

    def shown(self) -> bytes | None:
        """The certificate of the keeper's lines."""
        host, _, port = self.keeping.secure["a"].address.rpartition(":")
        with socket.create_connection(
            (host, int(port)), PATIENCE
        ) as plain, self.context.wrap_socket(plain, server_hostname=host) as line:
            return line.getpeercert(binary_form=True)


class Page(unittest.TestCase):
    def test_what_it_sets_can_be_set(self) -> None:
        [block] = re.findall(r"^```toml\n(.*?)^```", PAGE, flags=re.M | re.S)
        section = tomllib.loads(block)["keeper"]
        settings = Settings.of(
            "a", "10.0.0.1:7500", "10.0.0.1", Path("folder"), "pagelog", "", section
        )
        self.assertEqual(
            (settings.tls and settings.tls.form[1:4], settings.program.host),
            (["10.0.0.1", "10.0.0.1:7501", True], "127.0.0.1"),
        )
        for key, value in (
            ("tls_lines", "10.0.0.1"),
            ("tls_lines", "10.0.0.1:0"),
            ("tls_ports", "9-8"),
            ("tls_ports", 0),
            ("tls_ports", "x"),
        ):
            with self.assertRaisesRegex(CredentialsError, key):
                Settings.of("a", "h:1", "h", Path("folder"), "pagelog", "", {**section, key: value})
        with self.assertRaisesRegex(CredentialsError, "plain without tls"):
            Settings.of("a", "h:1", "h", Path("folder"), "pagelog", "", {"plain": False})


class Urls(unittest.TestCase):
    def test_each_of_postgresql_is_of_this_machine_or_verified(self) -> None:
        """In pages, packages and what is deployed: who copies one encrypts, and knows to whom."""
        told, verified = list[str](), 0
        for file, url in self.printed():
            options = options_of(re.sub("@[A-Z]+@", "x", url))
            hosts = str(options.get("host", "")).split(",")
            if all(not host or host.startswith("/") or is_loopback(host) for host in hosts):
                continue
            verified += 1
            if options.get("sslmode") != "verify-full" or "sslrootcert" not in options:
                told.append(f"{file}: {url}")
        self.assertEqual(told, [])
        self.assertGreater(verified, 3)

    def printed(self) -> Iterator[tuple[str, str]]:
        """Each file that has such a url, and the url; not where the word alone is spoken of."""
        words = ["git", "ls-files", "-z", "*.md", "docs", "packaging", "deploy"]
        names = subprocess.run(words, cwd=TOP, check=True, capture_output=True, text=True).stdout
        for name in names.strip("\0").split("\0"):
            text = (TOP / name).read_bytes().decode(errors="replace")
            for url in re.findall(r"postgres(?:ql)?://[^\s\"'`)>|]*", text):
                if not url.endswith("://"):
                    yield name, url.rstrip(".,:;")


class Shown(Side):
    """What a keeper says of itself."""

    keepers = "a"
    more = 'metrics = "127.0.0.1:0"\n'

    def test_who_comes_without_tls_is_counted_and_the_end_of_the_certificate_is_known(self) -> None:
        self.holder()
        before = self.keeping.metrics()
        with self.keeping.line() as line:
            line.write("where shop\n")
            line.flush()
            line.readline()
            during = self.keeping.metrics()
        self.assertEqual(
            during["pagelog_keeper_plain_lines", ""], before["pagelog_keeper_plain_lines", ""] + 1
        )
        self.assertGreater(
            during["pagelog_keeper_plain_connections_total", ""],
            before["pagelog_keeper_plain_connections_total", ""],
        )
        ends = before["pagelog_keeper_certificate_ends", ""]
        self.assertEqual(ends, self.keeping_pair_ends())
        self.keeping.put("renewed")
        self.keeping.ring()
        eventually(
            lambda: re.search("the front has the certificate of", self.keeping.said()) is not None,
            "its renewal",
        )

    def keeping_pair_ends(self) -> float:
        return Pair.read(self.keeping.pair).ends


class Served(unittest.TestCase):
    """The console and the metrics, by TLS."""

    def test_both_show_the_newest_certificate_and_the_cookie_is_for_tls_alone(self) -> None:
        certificates = Certificates()
        folder = Path(self.enterContext(tempfile.TemporaryDirectory()))
        file, secret = folder / "pair.pem", folder / "token"
        for name, text in (
            (file, certificates["good"].read_bytes()),
            (secret, b"a token of sixteen\n".replace(b" ", b"-")),
        ):
            name.touch(mode=0o600)
            name.write_bytes(text)
        shown = ShownFile(file)
        metrics = f"127.0.0.1:{serve(CollectorRegistry(), '127.0.0.1', 0, shown.context)}"
        source: Any = Unreachable()
        console = f"127.0.0.1:{begin(source, Limits(), Door(secret.read_text().strip(), '127.0.0.1'), '127.0.0.1', 0, shown.context)}"
        for name in ("good", "renewed"):
            fresh = folder / "fresh"
            shutil.copy(certificates[name], fresh)
            fresh.replace(file)
            for address in (metrics, console):
                self.assertEqual(self.subject(address), name)
        with urllib.request.urlopen(
            f"https://{metrics}/metrics", timeout=PATIENCE, context=certificates.context()
        ) as reply:
            self.assertEqual(reply.status, 200)

        class Still(urllib.request.HTTPRedirectHandler):
            def redirect_request(self, *_: Any) -> None:
                return None

        opener = urllib.request.build_opener(
            urllib.request.HTTPSHandler(context=certificates.context()), Still
        )
        with self.assertRaises(urllib.error.HTTPError) as told:
            opener.open(
                f"https://{console}/login",
                data=f"token={secret.read_text().strip()}".encode(),
                timeout=PATIENCE,
            )
        self.assertRegex(told.exception.headers["Set-Cookie"], "HttpOnly.*Secure|Secure.*HttpOnly")
        with socket.create_connection(
            ("127.0.0.1", int(metrics.rpartition(":")[2])), PATIENCE
        ) as plain:
            plain.sendall(b"GET /metrics HTTP/1.0\r\n\r\n")
            with suppress(ConnectionError):
                self.assertNotIn(b"HTTP", plain.recv(1000))

    def subject(self, address: str) -> str:
        host, _, port = address.rpartition(":")
        with socket.create_connection((host, int(port)), PATIENCE) as plain:
            with Certificates().context().wrap_socket(plain, server_hostname=host) as line:
                return str(dict(part[0] for part in line.getpeercert()["subject"])["commonName"])  # type: ignore[index]


class Unreachable:
    """A source of the console that has nothing."""

    def look(self, *_: Any) -> Any:
        raise Away("PostgreSQL is away")

    def close(self) -> None:
        """Nothing is open."""


class Referees(unittest.TestCase):
    def test_with_verify_full_all_goes_by_tls_and_to_nobody_else(self) -> None:
        server = Server(certificates=Certificates().folder)
        self.addCleanup(server.stop)
        server.url(DATABASE)
        with Keeping(url=url_of(server)) as keeping:
            keeping.referee.prepare()
            self.assertTrue(keeping.referee.create("shop", keeping.table.read_text(), b"s" * 16))
            keeping.start("a")
            with keeping.primary() as writer:
                for _ in range(20):
                    writer.append(put(0, b"x"))
                    writer.commit(durable=True)
        sessions = Sessions()
        sessions.add(server)
        self.assertGreater(sessions.secured, 2)
        self.assertEqual(sessions.violations(), [])
        other = Referee(url_of(server).replace("/ca.pem", "/other-ca.pem"))
        with self.assertRaisesRegex(Away, "certificate verify failed"):
            other.everything()
        psycopg.connect(url_of(server).replace("verify-full", "disable")).close()
        sessions.add(server)
        self.assertEqual(len(sessions.violations()), 1)

    def test_less_than_verify_full_is_told_of_other_machines(self) -> None:
        for url, hosts in (
            ("postgresql:///x", []),
            ("postgresql://localhost,127.0.0.2/x", []),
            ("postgresql://192.0.2.7/x", ["192.0.2.7"]),
            ("postgresql://192.0.2.7/x?sslmode=require", ["192.0.2.7"]),
            ("postgresql://192.0.2.7/x?sslmode=verify-full", []),
            ("postgresql:///x?host=/run/postgresql", []),
        ):
            self.assertEqual(unverified(options_of(url)), hosts, url)


if __name__ == "__main__":
    unittest.main()
