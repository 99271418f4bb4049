"""TLS: what is refused, by the wire, SQLite and the lines; peers that stop, break off and send records as they like; forks, signals and
errors of the process; files that change. OpenSSL is the peer, before a service or a stub of a keeper."""

import concurrent.futures
import contextlib
import ctypes
import os
import pathlib
import socket
import sqlite3
import ssl
import subprocess
import sys
import tempfile

import binding
from check import LONG, run, same, true
from database import EXTENSION, code_of, connect, one, uri, uri_of
from generations import until
from service import CLIENT, Proxy, Service, plain_environment, wire
from stub_keeper import StubKeeper
from tls_peers import Authority, Halting, Terminator
from vfs_forks import in_child
from ways import Chopper, Gathering, Recorder, Spoiler

FOLDER = tempfile.TemporaryDirectory()
AUTHORITY = Authority(FOLDER.name)
CA, OTHER = AUTHORITY / "ca.pem", AUTHORITY / "other.pem"
GOOD = AUTHORITY.make("good")
CLIENT_FILES = {
    "sslcert": f"{AUTHORITY.make('client', '', usage='clientAuth')}.pem",
    "sslkey": AUTHORITY / "client.key",
}
AT_ONCE = {"timeout": 20000, "patience": 1}
"""One try, for which there is time."""


def terminated(service, certificate=GOOD, **how):
    return Terminator(certificate, service.address, **how)


def outcome(address, name="test", **more):
    """What an open and a write say: nothing, or why not."""
    try:
        with contextlib.closing(
            connect(address, **{**AT_ONCE, "name": name, **more})
        ) as connection:
            connection.execute("create table if not exists t(x)")
        return ""
    except sqlite3.Error as error:
        return str(error)


def refused(what, wanted, told):
    true(f"{what}: wanted {wanted!r}, found {told!r}", bool(told) and wanted in told)


# ---- What is refused ----


def test_certificates_that_are_refused():
    dates = ("20200101000000Z", "20210101000000Z"), ("20980101000000Z", "20990101000000Z")
    made = {
        "wrong": (
            AUTHORITY.make("wrong", "DNS:elsewhere.example,IP:127.0.0.9"),
            "IP address mismatch",
        ),
        "expired": (AUTHORITY.make("expired", dates=dates[0]), "certificate has expired"),
        "early": (AUTHORITY.make("early", dates=dates[1]), "certificate is not yet valid"),
        "foreign": (
            AUTHORITY.make("foreign", ca="other"),
            "unable to get local issuer certificate",
        ),
        "purpose": (
            AUTHORITY.make("purpose", usage="clientAuth"),
            "unsuitable certificate purpose",
        ),
    }
    with Service() as service:
        for what, (certificate, why) in made.items():
            with terminated(service, certificate) as front:
                refused(
                    what,
                    f"lost: TLS with {front.address}: {why}",
                    outcome(front.address, sslrootcert=CA),
                )
                same(f"{what}: nothing went inside", 0, front.shaken)
        with terminated(service) as front:
            same("the good one", "", outcome(front.address, sslrootcert=CA))
            same("by name", "", outcome(f"localhost:{front.port}", sslrootcert=CA))
            refused(
                "another CA",
                "unable to get local issuer",
                outcome(front.address, sslrootcert=OTHER),
            )
            refused("a plain client", "", outcome(front.address))
        with terminated(service, AUTHORITY.make("named", "DNS:localhost")) as front:
            refused(
                "an address beside its name",
                "IP address mismatch",
                outcome(front.address, sslrootcert=CA),
            )
            same("its name", "", outcome(f"localhost:{front.port}", sslrootcert=CA))
        with terminated(service, AUTHORITY.make("unnamed", "", common="localhost")) as front:
            refused(
                "a name that is its subject's alone",
                "hostname mismatch",
                outcome(f"localhost:{front.port}", sslrootcert=CA),
            )
        with terminated(service, version="1.2") as front:
            refused("an older version", "protocol version", outcome(front.address, sslrootcert=CA))
        refused("a plain port", "TLS with", outcome(service.address, sslrootcert=CA))


def test_clients_certificates():
    """A client learns that its own is refused at its first read, after its handshake."""
    AUTHORITY.make("stranger", "", usage="clientAuth", ca="other")
    files = {
        name: {"sslcert": AUTHORITY / f"{name}.pem", "sslkey": AUTHORITY / f"{name}.key"}
        for name in ("stranger", "good")
    }
    with Service() as service, terminated(service, clients=CA) as front:
        refused("none", "alert certificate required", outcome(front.address, sslrootcert=CA))
        refused(
            "another CA's",
            "alert unknown ca",
            outcome(front.address, sslrootcert=CA, **files["stranger"]),
        )
        refused(
            "a server's",
            "alert unsupported certificate",
            outcome(front.address, sslrootcert=CA, **files["good"]),
        )
        same(
            "its own",
            ["", ""],
            [outcome(front.address, sslrootcert=CA, **CLIENT_FILES) for _ in range(2)],
        )


def test_settings_that_are_refused():
    """By name, and none of them is passed over."""
    locked, shared, empty = (
        AUTHORITY / "locked.key",
        AUTHORITY / "shared.key",
        AUTHORITY / "empty.pem",
    )
    subprocess.run(
        [
            "openssl",
            "pkey",
            "-in",
            CLIENT_FILES["sslkey"],
            "-aes256",
            "-passout",
            "pass:secret",
            "-out",
            locked,
        ],
        check=True,
    )
    for path, mode in ((locked, 0o600), (shared, 0o644), (empty, 0o600)):
        if path != locked:
            pathlib.Path(path).write_bytes(
                pathlib.Path(CLIENT_FILES["sslkey"]).read_bytes() if path == shared else b""
            )
        os.chmod(path, mode)
    cert = CLIENT_FILES["sslcert"]
    cases = [
        (
            "sslmode is disable or verify-full, and not require",
            {"sslmode": "require", "sslrootcert": CA},
        ),
        ("sslmode is disable or verify-full, and not prefer", {"sslmode": "prefer"}),
        (
            "sslmode is disable or verify-full, and not verify-ca",
            {"sslmode": "verify-ca", "sslrootcert": CA},
        ),
        ("sslmode is disable or verify-full, and not ", {"sslmode": "", "sslrootcert": CA}),
        ("sslrootcert: it is missing", {"sslmode": "verify-full"}),
        ("sslrootcert: it is missing", CLIENT_FILES),
        ("sslmode=disable contradicts", {"sslmode": "disable", "sslrootcert": CA}),
        ("sslmode=disable contradicts", {"sslmode": "disable", "sslkey": CA}),
        ("sslkey: it is missing", {"sslrootcert": CA, "sslcert": cert}),
        ("sslcert: it is missing", {"sslrootcert": CA, "sslkey": CLIENT_FILES["sslkey"]}),
        ("sslrootcert: /nowhere: No such file", {"sslrootcert": "/nowhere"}),
        ("sslrootcert: ", {"sslrootcert": empty}),
        ("sslrootcert: its path is empty, or too long", {"sslrootcert": ""}),
        ("sslrootcert: its path is empty, or too long", {"sslrootcert": "/" + "a" * 300}),
        (
            "sslkey: " + AUTHORITY / "good.key: key values mismatch",
            {"sslrootcert": CA, "sslcert": cert, "sslkey": AUTHORITY / "good.key"},
        ),
        (
            f"sslkey: {shared}: others may read it",
            {"sslrootcert": CA, "sslcert": cert, "sslkey": shared},
        ),
        (f"sslkey: {locked}: ", {"sslrootcert": CA, "sslcert": cert, "sslkey": locked}),
    ]
    with Service() as service, terminated(service) as front:
        for why, settings in cases:
            for address in (front.address, service.address):
                refused(str(settings), f"the setting {why}", outcome(address, **settings))
        same("nothing went inside", 0, front.shaken)


@contextlib.contextmanager
def environment(**settings):
    names = {f"PAGELOG_{name.upper()}": text for name, text in settings.items()}
    os.environ.update(names)
    try:
        yield
    finally:
        for name in names:
            del os.environ[name]


def test_where_settings_are():
    """`disable` is believed where it is nearer than what it takes away: no file or variable makes a URI less than it says."""
    credentials = pathlib.Path(AUTHORITY / "credentials")
    with Service() as service, terminated(service) as front:
        with environment(sslrootcert=CA):
            same("of the environment", "", outcome(front.address))
            same("the URI says none", "", outcome(service.address, sslmode="disable"))
            with environment(sslmode="disable"):
                refused("both of the environment", "contradicts", outcome(service.address))
        with environment(sslmode="disable"):
            same("none of the environment", "", outcome(service.address))
            refused("a URI beside it", "contradicts", outcome(service.address, sslrootcert=CA))
        with environment(sslrootcert="/" + "a" * 300):
            refused("too long", "its path is empty, or too long", outcome(service.address))
        for text, address, wanted in (
            (f"sslrootcert {CA}\n", front.address, None),
            (f"sslrootcert {CA}\nsslmode disable\n", service.address, "contradicts"),
            (
                f"sslmode verify-full\nsslrootcert {OTHER}\n",
                front.address,
                "unable to get local issuer",
            ),
        ):
            credentials.write_text(text)
            credentials.chmod(0o600)
            told = outcome(address, credentials=credentials)
            same(text, "", told) if wanted is None else refused(text, wanted, told)


def test_a_build_without_tls_refuses_the_words():
    program = f"""if True:
        import sqlite3, sys
        loader = sqlite3.connect(":memory:")
        loader.enable_load_extension(True)
        loader.load_extension({str(CLIENT / 'out' / 'no_tls' / 'pagelog_vfs.so')!r})
        for uri in sys.argv[1:]:
            try:
                sqlite3.connect(uri, uri=True).execute("create table if not exists t(x)")
                print("done")
            except sqlite3.Error as error:
                print(error)"""
    with Service() as service:
        uris = [
            uri(service.address, **more)
            for more in (
                {"sslrootcert": CA},
                {"sslmode": "verify-full"},
                {"sslmode": "disable"},
                {},
            )
        ]
        said = subprocess.run(
            [sys.executable, "-c", program, *uris],
            capture_output=True,
            text=True,
            env=plain_environment(),
        ).stdout
        no_tls = "pagelog: the setting sslmode: this build has no TLS"
        same("what it says", [no_tls, no_tls, "done", "done"], said.splitlines())


# ---- Lines ----


@contextlib.contextmanager
def secured_keeper(service_certificate=GOOD, lines_certificate=GOOD, **how):
    """A stub whose lines and services are told by TLS."""
    with StubKeeper() as keeper, Terminator(
        lines_certificate, keeper.address, **how
    ) as lines, contextlib.ExitStack() as fronts:
        keeper.told_lines = lines.address
        made = []

        def publish():
            made.append(
                fronts.enter_context(Terminator(service_certificate, keeper.now.address, **how))
            )
            keeper.now.address = made[-1].address

        publish()
        yield keeper, lines, publish


def named_at(lines, name="shop", id=2, **more):
    return sqlite3.connect(
        uri_of(lines, name, id, **{"timeout": 20000, "move": 20000, "sslrootcert": CA, **more}),
        uri=True,
        isolation_level=None,
        timeout=300.0,
    )


def test_a_named_database_by_tls():
    """Lines, turns, the service, and what is durable: through a succession, where records have a byte, and come with tickets."""
    for how in ({}, {"record": 1}, {"record": 700, "odd": True}):
        with secured_keeper(**how) as (keeper, lines, publish):
            with contextlib.closing(named_at(lines.address)) as connection:
                connection.execute("pragma synchronous = full")
                connection.execute("create table t(a, b)")
                connection.executemany(
                    "insert into t values (?, randomblob(3000))", [(number,) for number in range(5)]
                )
                position = int(one(connection, "pragma pagelog_position"))
                same("it is durable", True, position <= len(keeper.archive))
                with keeper.changed:
                    keeper.succeed(empty=3)
                    publish()
                connection.execute("insert into t values (5, 0)")
                same(
                    "the generation",
                    ("2", 6),
                    (
                        one(connection, "pragma pagelog_generation"),
                        one(connection, "select count(*) from t"),
                    ),
                )
            true("lines went by TLS", lines.shaken > 0)


def test_lines_that_come_in_one_record():
    """They are longer than what is read at once: the rest is held, and no poll tells of it."""
    with StubKeeper() as keeper, Gathering(keeper.address) as way, Terminator(
        GOOD, way.address
    ) as lines:
        keepers = binding.Keepers(lines.address, tls=binding.Tls(CA))
        with keepers:
            for _ in range(3):
                same(
                    "the place",
                    (binding.DONE, 1),
                    (lambda found: (found[0], found[1].generation))(keepers.where()),
                )


def test_no_answer_takes_it_away():
    """Keepers that lead to a plain service, or to one that is another host, lead nowhere; so do their lines."""
    wrong = AUTHORITY.make("other_host", "DNS:elsewhere.example")
    with secured_keeper(wrong) as (keeper, lines, _):
        refused(
            "a service of another host", "IP address mismatch", open_error(lines.address, move=1000)
        )
        keeper.now.address, frames = keeper.now.proxy.address, []
        keeper.rule = frames.append
        refused("a plain service", "TLS with", open_error(lines.address, move=1000, timeout=1000))
        same("it was asked nothing", [], frames)
        keeper.rule = None
    with secured_keeper() as (keeper, lines, _), Recorder() as told:
        keeper.told_lines = told.address
        with contextlib.closing(named_at(lines.address)) as connection:
            connection.execute("pragma synchronous = full")
            connection.execute("create table t(x)")
            same("told lines are asked by TLS alone", {b"\x16"}, set(told.first))
    with secured_keeper() as (keeper, lines, _), Recorder() as told:
        answer, page_server = keeper.answer, ("pages", "shop", told.address, "0" * 16, 1, 0)
        keeper.answer = lambda words: page_server if words[0] == "pages" else answer(words)
        with contextlib.closing(named_at(lines.address)) as writer:
            writer.execute("create table t(x)")
        keeper.more = ("pages=1",)
        reads = {"id": 3, "mode": "ro", "page_servers": "prefer", "keep": 0}

        def is_asked():
            """By an open that has heard of it in time."""
            with contextlib.closing(named_at(lines.address, **reads)) as reader:
                same("it reads at its service", 0, one(reader, "select count(*) from t"))
            return told.first

        until(is_asked, "the page server is asked")
        same("a page server is asked by TLS alone", {b"\x16"}, set(told.first))
    with secured_keeper(GOOD, wrong) as (_, lines, _):
        refused("lines of another host", "no keeper answers: TLS with", open_error(lines.address))
    with secured_keeper(clients=CA) as (_, lines, _):
        refused(
            "a client without a certificate",
            "alert certificate required",
            open_error(lines.address, move=1000),
        )
        named_at(lines.address, **CLIENT_FILES).close()


def open_error(lines, **more):
    try:
        named_at(lines, **more).execute("select 1")
        return ""
    except sqlite3.Error as error:
        return str(error)


# ---- Peers that stop, break off, and send what they like ----


def connects(address, tls, **how):
    with binding.Log(address, 3, tls=tls, patience_ms=1, **{"connect_ms": 20000, **how}) as log:
        found = log.status(binding.SECONDARY)[0]
        return found, log.words


def descriptors():
    return len(os.listdir("/proc/self/fd"))


def test_a_handshake_that_breaks_off_at_each_byte():
    """On the way here and on the way there: it is said, or it was enough; nothing hangs, and no descriptor is left."""
    with Service() as service, terminated(service, clients=CA) as front:
        with Halting(front.address) as peer:
            tls, before = binding.Tls(CA, **CLIENT_FILES), descriptors()
            peer.left = 1 << 30
            same("whole", binding.DONE, connects(peer.address, tls)[0])
            here, there, step = peer.came, peer.went, 1 if LONG else 9
            cases = [(left, 1 << 30) for left in range(0, here, step)]
            cases += [(1 << 30, toward) for toward in range(0, there, step)]
            for number, (peer.left, peer.toward) in enumerate(cases):
                trust = tls if number % 2 else binding.Tls(CA, **CLIENT_FILES)
                found, why = connects(peer.address, trust)
                true(
                    f"{peer.left} of {here} bytes here, {peer.toward} of {there} there: {found} {why}",
                    found == binding.DONE or (found == binding.LOST and why.startswith("lost")),
                )
            until(lambda: descriptors() <= before, "the descriptors of before")
        same("the front serves", "", outcome(front.address, sslrootcert=CA, **CLIENT_FILES))


def test_a_handshake_that_stands_still():
    """Time-outs hold in it, and say so. Peers that stand still are waited for side by side."""
    with Service() as service, terminated(service) as front:

        def stand(bytes_of):
            with Halting(front.address, stands=True) as peer:
                peer.left, peer.toward = bytes_of
                return bytes_of, *connects(peer.address, binding.Tls(CA), connect_ms=5000)

        cases = [(left, 1 << 30) for left in (0, 1, 5, 90, 200, 700)]
        cases += [(1 << 30, toward) for toward in (1, 5, 90, 200)]
        with concurrent.futures.ThreadPoolExecutor(len(cases)) as threads:
            for bytes_of, found, why in threads.map(stand, cases):
                same(
                    f"{bytes_of} bytes",
                    (binding.LOST, True),
                    (found, "its handshake did not come in time" in why),
                )


def test_records_of_any_size():
    """Of some bytes, and of 16 KiB with tickets and key updates between them, amid replies: a transaction, and a scan by a reader."""
    with Service() as service:
        for number, how in enumerate(
            ({"record": 61}, {"record": 1500, "odd": True}, {"odd": True})
        ):
            rows = 3 if number == 0 else 30
            with terminated(service, **how) as front:
                with contextlib.closing(connect(front.address, sslrootcert=CA)) as connection:
                    connection.execute(f"create table t{number}(a, b)")
                    for row in range(rows):
                        connection.execute(
                            f"insert into t{number} values (?, randomblob(?))",
                            (row, 3000 * (row % 9)),
                        )
                    wanted = one(connection, f"select sum(length(b)) from t{number}")
                with contextlib.closing(
                    connect(front.address, 3, None, mode="ro", sslrootcert=CA)
                ) as reader:
                    same(
                        "what is there",
                        (wanted, "ok"),
                        (
                            one(reader, f"select sum(length(b)) from t{number}"),
                            one(reader, "pragma integrity_check"),
                        ),
                    )


def shaken(secure, here, there):
    """The server's end of a handshake that is done, and where its records come out."""
    context = ssl.SSLContext(ssl.PROTOCOL_TLS_SERVER)
    context.load_cert_chain(f"{GOOD}.pem", f"{GOOD}.key")
    come, out = ssl.MemoryBIO(), ssl.MemoryBIO()
    server, is_done = context.wrap_bio(come, out, server_side=True), False
    while binding.lib.pagelog_secure_shake(secure) or not is_done:
        with contextlib.suppress(BlockingIOError):
            come.write(there.recv(1 << 16))
        with contextlib.suppress(ssl.SSLWantReadError):
            server.do_handshake()
            is_done = True
        there.sendall(out.read())
    return server, out


def test_what_has_come_is_held_until_it_is_received():
    """Also what was looked at alone, of which no poll tells any more; and what is no whole record is not."""
    tls, room = binding.Tls(CA), ctypes.create_string_buffer(100)
    here, there = socket.socketpair()
    with here, there:
        for each in (here, there):
            each.setblocking(False)
        secure = binding.lib.pagelog_secure_begin(tls.made, here.fileno(), b"localhost", b"1")
        server, out = shaken(secure, here, there)

        def receive(length):
            return binding.lib.pagelog_secure_receive(secure, room, length, socket.MSG_DONTWAIT)

        def holds():
            return binding.lib.pagelog_secure_holds(secure)

        same("tickets", (-1, False), (receive(100), holds()))
        server.write(b"x" * 36)
        there.sendall(out.read())
        same("it has not ended", False, binding.lib.pagelog_secure_has_ended(secure))
        same(
            "it is held",
            (True, 20, True, 16, False),
            (holds(), receive(20), holds(), receive(16), holds()),
        )
        for text in (b"y" * 10, b"z" * 10):
            server.write(text)
        records = out.read()
        there.sendall(records[:-5])
        same("a part of a record is nothing", (10, False), (receive(10), holds()))
        there.sendall(records[-5:])
        same("the rest of it", (10, b"z" * 10), (receive(100), room.raw[:10]))
        binding.lib.pagelog_secure_end(secure)


def test_pages_in_flight():
    """Replies of more than a read takes are waited for to their end, many, and one that is long."""
    with Service() as service, terminated(service) as front, binding.Log(
        service.address, 2
    ) as writer:
        writer.take_over(1)
        blocks = binding.Blocks(1)
        for page in range(1, 17):
            blocks.put(page, 0, b"x" * 8000)
            blocks.end()
        same("they are there", binding.DONE, writer.append(blocks))
        with binding.Log(
            front.address, 3, tls=binding.Tls(CA), reply_ms=20000, patience_ms=1
        ) as reader:
            found, reply = reader.pull(1, 16)
            same("a long reply", (binding.DONE, 16), (found, reply.count))
            for count in (64, 500, 1000):
                pages, out = (ctypes.c_uint32 * count)(*[1] * count), ctypes.create_string_buffer(
                    8192 * count
                )
                found = binding.lib.pagelog_get(
                    reader.made, binding.SECONDARY, 16, pages, count, out
                )
                same(
                    f"{count} pages",
                    (0, True),
                    (found, out.raw == (b"x" * 8000 + bytes(192)) * count),
                )


def test_replies_of_a_group_that_come_in_parts():
    """How many bytes a socket has says nothing of the replies in them, nor of what was taken from it before: all of them are in one record."""
    frames, group = [], 129

    def counted(frame):
        frames.append(frame)
        return frame

    with Service() as service, Proxy(
        service.address, between=counted, holds=lambda: 0 < len(frames) < group
    ) as gathered:
        with terminated(gathered) as front, Chopper(front.address, 1) as way, binding.Log(
            way.address, 2, tls=binding.Tls(CA)
        ) as writer:
            blocks = binding.Blocks(1)
            for page in range(64):
                blocks.put(page, 0, b"x" * 10)
                blocks.end()
            frames += [b""] * group
            same("it writes", binding.DONE, writer.take_over(1))
            frames.clear()
            same("they are there", (binding.DONE, group), (writer.append(blocks), len(frames)))


def test_bytes_that_are_spoiled_on_the_way():
    """Each statement ends, and what was acknowledged is there."""
    with Service() as service, terminated(service) as front:
        for seed in range(40 if LONG else 4):
            with Spoiler(front.address, seed) as way:
                done, connection = 0, None
                for number in range(60):
                    try:
                        connection = connection or connect(
                            way.address, sslrootcert=CA, name="s", timeout=20000
                        )
                        connection.execute("create table if not exists s(seed, number, b)")
                        connection.execute(
                            "insert into s values (?, ?, zeroblob(9000))", (seed, number)
                        )
                        done += 1
                    except sqlite3.Error:
                        connection.close() if connection else None
                        connection = None
                connection.close() if connection else None
                with contextlib.closing(connect(service.address, name="s")) as plain:
                    found = one(plain, f"select count(distinct number) from s where seed = {seed}")
                    true(
                        f"seed {seed}: {done} were acknowledged, {found} are there",
                        found >= done > 0,
                    )


def test_a_server_that_means_harm():
    """As the part hostile, inside TLS: each call ends, and the sanitizers see nothing."""
    program = CLIENT / "out" / "checked" / "hostile"
    environment = {**os.environ, "ASAN_OPTIONS": "detect_leaks=1"}
    with subprocess.Popen(
        [program, "1", "7", "serve"],
        stdin=subprocess.PIPE,
        stdout=subprocess.PIPE,
        text=True,
        env=plain_environment(ASAN_OPTIONS="detect_leaks=0"),
    ) as server:
        address = server.stdout.readline().strip()
        with Terminator(GOOD, address, record=300, odd=True) as front:
            done = subprocess.run(
                [program, "30" if LONG else "2", "7", front.address, CA],
                capture_output=True,
                text=True,
                env=environment,
            )
            same("its end", (0, ""), (done.returncode, done.stderr))
            true("it spoke by TLS", front.shaken > 0)
        server.stdin.close()


# ---- The process ----


def test_a_fork_while_connected():
    """A child sends nothing over what it inherits, and what it opens is its own; the parent goes on."""
    with Service() as service, terminated(service) as front:
        connection = connect(front.address, sslrootcert=CA)
        connection.execute("create table t(x)")

        def child():
            code = code_of(lambda: connection.execute("insert into t values (0)"))
            connection.close()
            with contextlib.closing(
                connect(front.address, 3, None, mode="ro", sslrootcert=CA)
            ) as own:
                return code, one(own, "select count(*) from t")

        shaken = front.shaken
        for number in range(3):
            same("in the child", ("SQLITE_MISUSE", number), in_child(child))
            connection.execute("insert into t values (1)")
        same("handshakes, of the children alone", 3, front.shaken - shaken)
        connection.close()


def test_a_host_program_with_sigpipe_at_its_default():
    """Writes to a peer that is gone raise no signal."""
    program = f"""if True:
        import signal, sqlite3, sys
        signal.signal(signal.SIGPIPE, signal.SIG_DFL)
        loader = sqlite3.connect(":memory:")
        loader.enable_load_extension(True)
        loader.load_extension({EXTENSION!r})
        connection = sqlite3.connect(sys.argv[1], uri=True, isolation_level=None)
        connection.execute("create table if not exists t(x)")
        for line in sys.stdin:
            try:
                connection.execute("insert into t values (zeroblob(3000000))")
                print("done", flush=True)
            except sqlite3.Error as error:
                print(error.sqlite_errorname, flush=True)"""
    with Service() as service, terminated(service) as front:
        words = [
            sys.executable,
            "-c",
            program,
            uri(front.address, sslrootcert=CA, timeout=20000, patience=100),
        ]
        child = subprocess.Popen(words, stdin=subprocess.PIPE, stdout=subprocess.PIPE, text=True)

        def insert():
            child.stdin.write("\n"), child.stdin.flush()
            return child.stdout.readline().strip()

        same("connected", "done", insert())
        front.__exit__()
        true("it lives", insert().startswith("SQLITE_"))
        true("it lives on", insert().startswith("SQLITE_"))
        child.stdin.close()
        same("its end", 0, child.wait())
        child.stdout.close()


def test_connections_of_one_process_with_other_trust():
    """Who believes another CA, or none, does not go over the connection of who is let in."""
    with Service() as service, terminated(service) as front:
        with contextlib.closing(connect(front.address, sslrootcert=CA)) as connection:
            connection.execute("create table t(x)")
            refused(
                "another CA",
                "unable to get local issuer",
                outcome(front.address, sslrootcert=OTHER),
            )
            refused("none", "", outcome(front.address))
            shaken = front.shaken
            with contextlib.closing(connect(front.address, sslrootcert=CA)) as beside:
                same(
                    "the same: one connection",
                    (0, shaken),
                    (one(beside, "select count(*) from t"), front.shaken),
                )


def test_errors_of_the_process_are_its_own():
    """OpenSSL's queue of errors is each thread's: what the client leaves there another user of it would find, and what that has left is none
    of the client's."""
    crypto, ssl = ctypes.CDLL("libcrypto.so.3"), ctypes.CDLL("libssl.so.3")
    crypto.ERR_peek_error.restype = ctypes.c_ulong
    ssl.TLS_client_method.restype = ssl.SSL_CTX_new.restype = ctypes.c_void_p
    ssl.SSL_CTX_new.argtypes, ssl.SSL_CTX_load_verify_file.argtypes = (ctypes.c_void_p,), (
        ctypes.c_void_p,
        ctypes.c_char_p,
    )
    context = ssl.SSL_CTX_new(ssl.TLS_client_method())
    with Service() as service, terminated(service) as front:
        with contextlib.closing(connect(front.address, sslrootcert=CA)) as connection:
            connection.execute("create table t(x)")
            for number in range(3):
                ssl.SSL_CTX_load_verify_file(context, b"/nowhere")
                true("an error of the process", crypto.ERR_peek_error() != 0)
                connection.execute("insert into t values (?)", (number,))
                same("nothing is left", 0, crypto.ERR_peek_error())
        with secured_keeper() as (_, lines, _), contextlib.closing(
            named_at(lines.address)
        ) as connection:
            connection.execute("create table t(x)")
            connection.execute("pragma synchronous = full")  # each insert asks
            connection.execute("insert into t values (0)")
            shaken = lines.shaken
            for number in range(5):
                ssl.SSL_CTX_load_verify_file(context, b"/nowhere")
                connection.execute("insert into t values (?)", (number,))
            true(
                "no line was taken for lost", lines.shaken - shaken <= 1
            )  # one is of the poll of the holder
        for more in (
            {"sslrootcert": OTHER},
            {"sslrootcert": "/nowhere"},
            {"sslrootcert": CA, **CLIENT_FILES, "sslkey": AUTHORITY / "good.key"},
        ):
            refused(str(more), "", outcome(front.address, **more))
            same("nothing is left", 0, crypto.ERR_peek_error())
        ssl.SSL_CTX_free(ctypes.c_void_p(context))


# ---- Files and sessions ----


def test_files_that_change():
    """They are read again at a connect; one that cannot be used leaves what was there in force."""
    file = pathlib.Path(AUTHORITY / "changing.pem")

    def becomes(data):
        beside = file.with_suffix(".new")
        beside.write_bytes(data)
        beside.replace(file)

    ca, other = pathlib.Path(CA).read_bytes(), pathlib.Path(OTHER).read_bytes()
    becomes(ca)
    with Service() as service, terminated(service) as front:
        tls = binding.Tls(str(file))
        for data, wanted in (
            (ca, binding.DONE),
            (b"none", binding.DONE),
            (other, binding.LOST),
            (b"", binding.LOST),
            (other + ca, binding.DONE),
        ):
            becomes(data)
            same(f"{data[:30]} {len(data)}", wanted, connects(front.address, tls)[0])


def test_sessions_are_of_one_host():
    """One that is taken up again is not verified again: so never for another name, by which the certificate would be refused."""
    only = AUTHORITY.make("only", "IP:127.0.0.1")
    with Service() as service, terminated(service, only) as front:
        tls = binding.Tls(CA)
        same(
            "each of them", [binding.DONE] * 3, [connects(front.address, tls)[0] for _ in range(3)]
        )
        same("taken up again", (3, 2), (front.shaken, front.reused))
        found, why = connects(f"localhost:{front.port}", tls)
        same("another name", (binding.LOST, True), (found, "hostname mismatch" in why))
        same("it was not taken up for that", 2, front.reused)


if __name__ == "__main__":
    run("tls", globals())
