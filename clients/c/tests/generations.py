"""SQLite over a named database, through successions and deaths of its service before each request that it sends. The keeper is a
stub of these tests, which makes generations of any shift."""

import contextlib
import ctypes
import hashlib
import hmac
import re
import socket
import sqlite3
import subprocess
import sys
import threading
import time

from binding import DATABASE, DENIED, DONE, LOST, Keepers, Proof, Token, nonce_of
from check import LONG, run, same, true
from database import TOKENS, code_of, connect, named, numbers, one, sqlite_of, uri_of
from service import CLIENT, Answer, Asker, Service, exchange, plain_environment, wire
from stub_keeper import EMPTY_HEAD, Before, Generation, StubKeeper, later, table_of, token_of
from vfs_forks import in_child

EVENTS = {
    "images": lambda keeper: keeper.succeed(),
    "images that are longer than the log": lambda keeper: keeper.succeed(empty=200),
    "block for block": lambda keeper: keeper.succeed(images=False),
    "a death, all was archived": lambda keeper: keeper.die(),
    "a death, one block was not": lambda keeper: keeper.die(lost=1),
    "a death, 64 were not": lambda keeper: keeper.die(lost=64),
}
LEVELS = {"full": {}, "normal": {}, "off": {"async_commits": 8}}


def fill(connection, count, size=100, first=0):
    for number in range(first, first + count):
        connection.execute("insert into t values (?, hex(randomblob(?)))", (number, size // 2))


def rows(connection):
    return [number for number, in connection.execute("select a from t not indexed order by a")]


def until(condition, what):
    deadline = time.monotonic() + 60
    while not condition():
        true(what, time.monotonic() < deadline)
        time.sleep(0.002)


def work(connection):
    """Transactions of one block and of many, reads of pages that are in no cache, a rollback, and a change of the file's size."""
    connection.execute("create table t(a, b)")
    connection.execute("create index i on t(b)")
    fill(connection, 5)
    connection.execute("begin immediate")
    fill(connection, 60, size=3000, first=5)
    connection.execute("commit")
    connection.execute("begin")
    fill(connection, 3, first=1000)
    connection.execute("rollback")
    connection.execute("pragma shrink_memory")
    same("all of them", list(range(65)), rows(connection))
    connection.execute("delete from t where a >= 60")
    connection.execute("vacuum")
    fill(connection, 3, first=60)
    connection.execute("pragma pagelog_async_commits = 0")


def look_at_work(keeper, connection):
    """The event may come as late as here."""
    same("rows", list(range(63)), rows(connection))
    same("whole", "ok", one(connection, "pragma integrity_check"))
    keeper.rule = None
    same("rows", list(range(63)), rows(connection))
    same(
        "moves and losses", (int(keeper.now.number > 1), 0), numbers(connection, "moves", "losses")
    )
    other = named(keeper, 3, mode="ro")
    same("a reader", (list(range(63)), "ok"), (rows(other), one(other, "pragma integrity_check")))


def requests_of(level):
    """How many requests the work takes."""
    with StubKeeper() as keeper:
        count = [0]

        def rule(frame):
            count[0] += 1
            return frame

        keeper.rule = rule
        connection = named(keeper, **LEVELS[level])
        connection.execute(f"pragma synchronous = {level}")
        work(connection)
        return count[0]


def test_an_event_before_each_request_of_a_writer():
    ran = 0
    for turn, level in enumerate(LEVELS):
        events, count = list(EVENTS.items()), requests_of(level)
        for number in range(1 + turn, count, 1 if LONG else 11):
            for name, event in events if LONG else [events[number // 11 % len(events)]]:
                with StubKeeper() as keeper:
                    keeper.rule = Before(number, lambda: event(keeper))
                    connection = named(keeper, **LEVELS[level])
                    connection.execute(f"pragma synchronous = {level}")
                    try:
                        work(connection)
                        look_at_work(keeper, connection)
                    except Exception as error:
                        raise AssertionError(
                            f"{level}, {name}, before request {number}: {error!r}"
                        ) from error
                    connection.close()
                ran += 1
    return f"{ran} events at requests of a writer"


# ---- The lines ----


@contextlib.contextmanager
def silent():
    """A keeper that takes connections and says nothing."""
    with socket.create_server(("127.0.0.1", 0)) as listener:
        yield "%s:%d" % listener.getsockname()


def test_tokens_of_a_run_are_those_of_the_keepers():
    with Keepers("127.0.0.1:1", "shop") as keepers:
        for length in range(0, 75):
            run, key = "f" * length, bytes(range(length, length + 16))
            same(
                f"{length} digits",
                hmac.new(key, f"shop/{run}".encode(), hashlib.sha256).digest()[:16],
                keepers.token(key, run),
            )


def test_a_proof_is_that_of_the_page():
    """The vector of docs/LINES.md, which keepers and the client in Python have too."""
    page = (CLIENT.parent.parent / "docs" / "LINES.md").read_text()
    [nonce] = re.findall(r"hello 2 nonce=([0-9a-f]{32})", page)
    [(token, proof)] = re.findall(r"token ([0-9a-f]{32})[^`]*`(prove [^`]*)`", page)
    _, name, principal, _, of = proof.split()
    made = Proof(
        principal=int(principal),
        token=Token(*bytes.fromhex(token)),
        name=name.encode(),
        of=of.removeprefix("of=").encode(),
    )
    same("the line", proof.encode() + b"\n", made.line(nonce.encode()))
    for length in (0, 1, 39, 40, 90, 119):  # what is hashed goes over the borders of chunks
        made.of = ("d" * min(length, 36) + "/" * (length > 36) + "r" * max(0, length - 37)).encode()
        text = f"prove {nonce} {name} {principal} ".encode() + made.of
        wanted = hmac.new(bytes.fromhex(token), text, hashlib.sha256).hexdigest()
        same(f"{length}", wanted, made.line(nonce.encode()).split()[3].decode())


def test_a_nonce_is_32_digits_and_nothing_else():
    digits = b"0123456789abcdef" * 2
    for told, found in (
        (b"hello 2 nonce=" + digits, digits),
        (b"hello 2 color=red nonce=" + digits + b" later=", digits),
        (b"hello 2", b""),
        (b"hello 2 nonce=", b""),
        (b"hello 2 nonce=" + digits[:31], b""),
        (b"hello 2 nonce=" + digits + b"0", b""),
        (b"hello 2 nonce=" + digits[:31] + b"/", b""),
        (b"hello 2 once=" + digits, b""),
        (b"what hello", b""),
    ):
        same(told, found, nonce_of(told))


def test_what_costs_a_keeper_something_is_proved_first():
    """Over each connection, before its first question; a keeper of before says no nonce, and is told nothing it does not know."""
    for says_nonce in (True, False):
        with StubKeeper() as keeper:
            keeper.says_nonce = says_nonce
            connection = named(keeper)
            connection.execute("pragma synchronous = full")
            connection.execute("create table t(a, b)")
            fill(connection, 20)
            keeper.cut_lines()
            keeper.succeed()
            fill(connection, 3, first=20)
            same("rows", list(range(23)), rows(connection))
            same("each was right", {(2, True)} if says_nonce else set(), set(keeper.proofs))
            same("asked without", [], keeper.unproved)
            true("a few in all", len(keeper.proofs) < 20)
    with StubKeeper() as keeper, Keepers(keeper.address) as keepers:
        keepers.prove(2, bytes.fromhex(TOKENS[3]))
        same("it is asked all the same", DONE, keepers.fate(1, 0)[0])
        same("of another's token", ([(2, False)], ["durable"]), (keeper.proofs, keeper.unproved))


def answered(ask, *words):
    """What keepers answer. They are asked again where none did in time, as a file asks them."""
    while (told := ask(*words))[0] == LOST:
        pass
    return told


def is_soon_nowhere(keepers):
    since = time.monotonic()
    same("it is nowhere", LOST, keepers.where()[0])
    return time.monotonic() - since < 0.8


def test_where_a_database_is():
    with StubKeeper() as keeper, silent() as quiet:
        with Keepers(f"127.0.0.1:1,{quiet},{keeper.address}") as keepers:
            outcome, place = answered(keepers.where)
            same(
                "place",
                (DONE, 1, b"run1", keeper.now.address.encode()),
                (outcome, place.generation, place.run, place.address),
            )
            same("none above", LOST, keepers.where(2)[0])
            keeper.is_published = False
            same("nobody serves it", LOST, keepers.where()[0])
            keeper.is_published = True
            for _ in range(3):
                same("again", DONE, answered(keepers.where)[0])
        with Keepers(keeper.address, "other") as keepers:
            same("no such name", DENIED, answered(keepers.where)[0])
        with Keepers(quiet) as keepers:
            since = time.monotonic()
            same("a keeper that is silent", LOST, keepers.where()[0])
            true("a second", 1 <= time.monotonic() - since < 60)
        keeper.is_published = False
        with Keepers(f"{quiet},{keeper.address}") as keepers:
            until(lambda: is_soon_nowhere(keepers), "one that is silent is not waited for")
    for addresses, name in (
        ("", "a"),
        ("127.0.0.1", "a"),
        ("127.0.0.1:1,", "a b"),
        ("127.0.0.1:1", ""),
        ("a:1," * 17, "a"),
    ):
        with Keepers(addresses, name) as keepers:
            same(f"{addresses} {name}", None, keepers.made)


def test_the_stub_says_what_keepers_say():
    """As many words as their page describes."""
    described = (CLIENT.parent.parent / "docs" / "LINES.md").read_text()
    words = re.search(r"\bat NAME [A-Z ]+ of=\S+", described)[0].split()
    with StubKeeper() as keeper:
        same("where", len(words), len(keeper.answer(["where", "shop"])))


def test_two_keepers_the_higher_generation_counts():
    """One that was cut off still says where the database was."""
    with StubKeeper() as old, StubKeeper() as new:
        new.succeed(images=False)
        new.address, old.address = old.address, new.address  # neither minds
        with Keepers(f"{old.address},{new.address}") as keepers:
            while keepers.where()[1].generation != 2:
                pass  # the old one was quicker, by so much that nobody waits for
            for _ in range(20):
                same("generation", 2, answered(keepers.where, 2)[1].generation)


@contextlib.contextmanager
def one_after_the_other(*answers):
    """Keepers that answer each question in this order."""
    with contextlib.ExitStack() as stack:
        listeners = [stack.enter_context(socket.create_server(("127.0.0.1", 0))) for _ in answers]

        def serve():
            with contextlib.suppress(OSError):
                lines = [listener.accept()[0].makefile("rwb", 0) for listener in listeners]
                for line in lines:
                    line.readline()
                    line.write(b"hello 2\n")
                while all([line.readline() for line in lines]):
                    for line, answer in zip(lines, answers):
                        line.write(answer.encode() + b"\n")

        threading.Thread(target=serve, daemon=True).start()
        yield ",".join("%s:%d" % listener.getsockname() for listener in listeners)


def test_two_keepers_of_one_generation_who_knows_most_of_the_archive_counts():
    """One that has not looked for a while may say where a service was that was ended since."""
    told = f"at shop 2 run2 127.0.0.1:%d %d 127.0.0.1:2 0 0 0 of={DATABASE}/run2"
    for order in ((11, 5), (12, 9), (13, 7)), ((12, 9), (11, 5), (13, 7)):
        with one_after_the_other(
            *(told % of for of in order),
            f"at shop 1 run1 127.0.0.1:14 99 127.0.0.1:2 0 0 0 of={DATABASE}/run1",
        ) as addresses:
            with Keepers(addresses) as keepers:
                places = (
                    keepers.where()[1] for _ in range(100)
                )  # who answers late is not waited for
                true(
                    order,
                    any(
                        (place.archived, place.address) == (9, b"127.0.0.1:12") for place in places
                    ),
                )


@contextlib.contextmanager
def saying(answers):
    """A keeper that says so to each word; to others `what`, as one of version 1."""
    with socket.create_server(("127.0.0.1", 0)) as listener:

        def serve(line):
            with line, line.makefile("rb") as asked:
                for text in asked:
                    words = text.decode().split()
                    told = answers.get(words[0])
                    line.sendall(
                        ((told(words) if callable(told) else told) or f"what {words[0]}").encode()
                        + b"\n"
                    )

        def accept():
            with contextlib.suppress(OSError):
                while True:
                    threading.Thread(
                        target=serve, args=(listener.accept()[0],), daemon=True
                    ).start()

        thread = threading.Thread(target=accept, daemon=True)
        thread.start()
        yield "%s:%d" % listener.getsockname()
        # A close does not end an `accept`, and a stop of the process begins it again, at whatever has the descriptor then.
        listener.shutdown(socket.SHUT_RDWR)
        thread.join()


def test_keepers_of_version_1():
    """They name no database: where there are no others they are refused. What one says of a number is of the run that it has."""
    at = "at shop 1 {} 127.0.0.1:11 5 127.0.0.1:2 0 0 0"
    for run, told, expected in (
        ("run1", "durable shop 1 7", DONE),
        ("another", "durable shop 1 7", LOST),
        ("run1", "over shop 1 7", LOST),
    ):
        with saying(
            {
                "where": at.format(run),
                "durable": lambda words, told=told: told if len(words) == 4 else None,
            }
        ) as address:
            with Keepers(address) as keepers:
                same("where", DENIED, keepers.where()[0])
                same(f"{run}: {told}", expected, keepers.fate(1, 6)[0])
            with Keepers(f"{address},127.0.0.1:1") as keepers:
                same("one that is away may be a newer one", LOST, keepers.where()[0])


def test_an_answer_is_of_the_run_that_was_asked_for():
    own, other = f"of={DATABASE}/run1", f"of={DATABASE}/run2"
    for told, expected in (
        (f"durable shop 1 7 {own}", (DONE, 0)),
        (f"durable shop 1 7 {other}", (LOST, 0)),
        ("durable shop 1 7", (LOST, 0)),
        (f"over shop 1 7 {other}", (LOST, 0)),
        (f"lost shop 1 dropped {own} color=red", (DONE, 1)),
        (f"lost shop 1 another by=0 {own}", (DONE, 2)),
        (f"lost shop 1 superseded by=4 {own}", (DONE, 3)),
        (f"lost shop 1 dropped {other}", (LOST, 0)),
    ):
        with saying({"hello": "hello 3", "durable": told}) as address, Keepers(address) as keepers:
            outcome, fate = keepers.fate(1, 6)
            same(told, expected, (outcome, fate.loss if outcome == DONE else 0))


def test_keys_that_it_does_not_know_are_passed_over():
    at, known = "at shop 7 run7 127.0.0.1:11 5 127.0.0.1:2 3 4 2", f"of={DATABASE}/run7"
    for told in (
        f"{at} {known}",
        f"{at} color=red {known} taste=a=b ancestor=older later=",
        f"{at} after=run6 {known}",
    ):
        with saying({"hello": "hello 3", "where": told}) as address, Keepers(address) as keepers:
            outcome, place = keepers.where()
            same(
                told,
                (DONE, DATABASE.encode(), 7, b"run7"),
                (outcome, place.database, place.generation, place.run),
            )
            same(told, (5, 3, 4), (place.archived, place.base, place.shift))


@contextlib.contextmanager
def silent_after_the_greeting(heard=None):
    """A keeper that answers nothing but the greeting; and its connections. What it is asked comes into a list, if there is one."""
    lines = []

    def serve(line):
        lines.append(line)
        with contextlib.suppress(OSError):
            for text in line.makefile("rb"):
                if text.startswith(b"hello"):
                    line.sendall(b"hello 2\n")
                elif heard is not None:
                    heard.append(text.decode().split())

    def accept():
        with contextlib.suppress(OSError):
            while True:
                threading.Thread(target=serve, args=(listener.accept()[0],), daemon=True).start()

    with socket.create_server(("127.0.0.1", 0)) as listener:
        threading.Thread(target=accept, daemon=True).start()
        yield "%s:%d" % listener.getsockname(), lines


def is_left(line):
    """Whether the other end has closed it."""
    with contextlib.suppress(BlockingIOError):
        return line.recv(1, socket.MSG_PEEK | socket.MSG_DONTWAIT) == b""
    return False


def test_a_keeper_that_is_silent_holds_up_no_word_of_another():
    """That the database was dropped: while the silent one, which comes first, is asked still, the other is."""
    with silent_after_the_greeting() as (address, lines), StubKeeper() as keeper:
        named(keeper).execute("create table t(a)")
        connection = sqlite_of(f"{address},{keeper.address}", "shop", 3, mode="ro")
        same("it reads", [], rows(connection))
        answer, left = keeper.answer, []

        def dropped(words):
            if words[0] == "durable":
                left.append(any(map(is_left, lines)))
                return "lost", "shop", words[2], "dropped", words[4]
            return ("unknown", "shop") if words[0] == "where" else answer(words)

        keeper.answer = dropped
        keeper.now.end()
        same("dropped", "SQLITE_PERM", code_of(lambda: rows(connection)))
        same("why", "denied: the database was dropped", one(connection, "pragma pagelog_error"))
        same("asked side by side", [False], left)


def test_a_host_with_an_address_that_is_silent():
    with StubKeeper() as keeper, Service() as service, contextlib.ExitStack() as stack:
        full = stack.enter_context(socket.socket())
        full.bind(("127.0.0.1", 0))
        full.listen(0)
        for _ in range(4):  # its queue is full: no connect is answered
            waiting = stack.enter_context(socket.socket())
            waiting.setblocking(False)
            waiting.connect_ex(full.getsockname())
        ran = subprocess.run(
            [
                CLIENT / "out" / "checked" / "addresses",
                str(full.getsockname()[1]),
                service.address,
                keeper.address,
            ],
            capture_output=True,
            text=True,
            env=plain_environment(),
        )
        same("reached", (0, ""), (ran.returncode, ran.stderr[-2000:]))


def test_what_has_become_of_a_position():
    with StubKeeper() as keeper, Keepers(keeper.address) as keepers:
        connection = named(keeper)
        connection.execute("create table t(a, b)")
        same(
            "durable",
            (DONE, 1, False),
            ((found := answered(keepers.fate, 1, 1))[0], found[1].end, found[1].is_over),
        )
        connection.execute("pragma synchronous = normal")
        fill(connection, 3)
        keeper.die(lost=2)
        same(
            "over",
            (DONE, 2, True),
            ((found := answered(keepers.fate, 1, 4))[0], found[1].end, found[1].is_over),
        )
        same(
            "the rest was sent again",
            (4, 2),
            (len(rows(connection)) + 1, numbers(connection, "resent")[0]),
        )


def test_a_line_that_has_ended_right_after_an_answer_is_asked_again():
    """Nobody looks then whether it has: the question goes over another connection to the same keeper, once."""
    with StubKeeper() as keeper, Keepers(keeper.address) as keepers:
        same("durable", DONE, answered(keepers.fate, 1, 0)[0])
        for _ in range(20):
            keeper.cut_lines()
            since = time.monotonic()
            outcome, _ = keepers.fate(1, 0)
            true("it is, or the machine is slow", outcome == DONE or time.monotonic() - since >= 3)
        answer, asked = keeper.answer, []

        def ends(words):
            if words[0] == "durable":
                asked.append(words)
                keeper.cut_lines()
            return answer(words)

        keeper.answer = ends
        same("it is not asked for ever", LOST, keepers.fate(1, 0)[0])
        true(f"but twice at most: {asked}", len(asked) <= 2)


# ---- Settings and pragmas ----


def test_settings_of_a_named_database():
    with StubKeeper() as keeper:
        for more, wanted in (
            ({"to": "127.0.0.1:1"}, "SQLITE_MISUSE"),
            ({"op": "x"}, "SQLITE_MISUSE"),
            ({"move": -1}, "SQLITE_MISUSE"),
            ({"durable": 2}, "SQLITE_MISUSE"),
            ({"name": "other"}, "SQLITE_PERM"),
            ({"name": ""}, "SQLITE_MISUSE"),
            ({"errors": "loud"}, "SQLITE_MISUSE"),
            ({"token": "00" * 16}, "SQLITE_PERM"),
        ):
            same(more, wanted, code_of(lambda: rows(named(keeper, **more))))
        connection = named(keeper)
        connection.execute("create table t(a, b)")
        same(
            "numbers",
            (1, 1, 1, 0),
            numbers(connection, "position", "durable", "generation", "moves"),
        )
        same(
            "roles",
            ("writer", "reader"),
            (
                one(connection, "pragma pagelog_role"),
                one(named(keeper, 3, mode="ro"), "pragma pagelog_role"),
            ),
        )


def refusal(action):
    """The name of an error, and its message."""
    try:
        action()
    except sqlite3.Error as error:
        return error.sqlite_errorname, str(error)
    return None


@contextlib.contextmanager
def nobody():
    """An address at which connections are refused."""
    with socket.socket() as held:
        held.bind(("127.0.0.1", 0))
        yield "%s:%d" % held.getsockname()


def test_an_open_that_is_refused_says_why():
    """And at once: a call would wait for five minutes here."""
    with StubKeeper() as keeper, nobody() as one_port, nobody() as other_port:
        for id, more in (2, {}), (3, {"mode": "ro"}):
            told = (
                "SQLITE_PERM",
                f"pagelog: denied: the table does not list principal {id} with this token",
            )
            same(
                f"a wrong token of {id}",
                told,
                refusal(lambda: named(keeper, id, token="00" * 16, **more)),
            )
        same(
            "another name",
            ("SQLITE_PERM", "pagelog: denied: the keepers know of no database blog"),
            refusal(lambda: named(keeper, name="blog")),
        )
        same(
            "no keeper",
            ("SQLITE_CANTOPEN", "pagelog: lost: no keeper answers: all connections are refused"),
            refusal(lambda: sqlite_of(f"{one_port},{other_port}", "shop", 2)),
        )
        same(
            "a setting",
            ("SQLITE_MISUSE", "pagelog: the setting colour is missing, unknown, or cannot be read"),
            refusal(lambda: named(keeper, colour=1)),
        )
        named(keeper).execute("create table t(a)")
        same("what may be opened still is", [], rows(named(keeper)))
        same("an open of something else", 1, one(sqlite3.connect(":memory:"), "select 1"))


def test_a_statement_that_is_barred_says_why():
    """Its operator has another token; and its table lets the principal only read."""
    for more, told in (
        ({"optoken": "00" * 16}, "denied: the table does not list operator 1 with this token"),
        (
            {},
            "denied: denied B2, value 0: this row of the table is the first that matches, and it denies",
        ),
    ):
        with barred() as keeper:
            connection = named(keeper, 5, **more)
            same(told, "SQLITE_PERM", code_of(lambda: connection.execute("create table t(a)")))
            same(told, told, one(connection, "pragma pagelog_error"))


@contextlib.contextmanager
def barred():
    """A keeper whose table lets principal 5 only read."""
    denied = '[[row]]\nverdict = "deny"\nwho = 5\nrole = "primary"\n[[row]]\nverdict = "allow"\nrole = "secondary"\n'
    with StubKeeper() as keeper:
        with keeper.now.asker(wire.OPERATOR) as operator:
            principals, _, rest = table_of(keeper.name, keeper.now.run).partition(
                '[[row]]\nverdict = "deny"'
            )
            operator.set_table(principals + denied + f'[[row]]\nverdict = "deny"{rest}')
        yield keeper


MESSAGES = """
import ctypes, sqlite3, sys
try:
    sqlite3.connect(sys.argv[1], uri=True).execute("create table t(a)")
except sqlite3.Error as error:
    print(error)
c, db, text = ctypes.CDLL("libsqlite3.so.0"), ctypes.c_void_p(), ctypes.c_char_p()
c.sqlite3_open_v2(sys.argv[1].encode(), ctypes.byref(db), 0x46, None)
c.sqlite3_exec(db, b"create table t(a)", None, None, ctypes.byref(text))
print(text.value.decode())
c.sqlite3_exec(db, b"create table sqlite_t(a)", None, None, ctypes.byref(text))
print(text.value.decode())
c.sqlite3_close(db)
"""


def test_the_message_of_a_statement_that_fails():
    """With the preload it says why, in Python, in C and in the shell; an extension has no way to say it."""
    subprocess.run(
        ["make", "-s", "-C", CLIENT, "out/pagelog_preload.so"], check=True, env=plain_environment()
    )
    with barred() as keeper:
        uri = uri_of(keeper.address, "shop", 5) + "&errors=log"
        why = "access permission denied: pagelog: denied: denied B2, value 0: this row of the table is the first that matches, and it denies"
        preloaded = plain_environment(LD_PRELOAD=str(CLIENT / "out" / "pagelog_preload.so"))
        ran = subprocess.run(
            [sys.executable, "-c", MESSAGES, uri], capture_output=True, text=True, env=preloaded
        )
        own = "object name reserved for internal use: sqlite_t"
        same(
            "Python, C, and what is none of the VFS",
            ([why, why, own], ""),
            (ran.stdout.splitlines(), ran.stderr),
        )
        ran = subprocess.run(
            ["sqlite3", uri, "create table t(a)"], capture_output=True, text=True, env=preloaded
        )
        true(f"the shell: {ran.stderr}", why in ran.stderr)
        same(
            "an extension",
            ("SQLITE_PERM", "access permission denied"),
            refusal(lambda: named(keeper, 5).execute("create table t(a)")),
        )


def test_a_token_is_wrong_only_where_its_run_says_so():
    """A run that is over may have lost its address to another service, which its keepers do not know at once."""
    with StubKeeper() as keeper:
        named(keeper).execute("create table t(a)")
        new = keeper.next(images=False)
        right, keeper.now.run = keeper.now.run, "another"  # the tokens of that are others

        def succeed():
            keeper.now.run = right
            keeper.switch(new)

        keeper.rule = Before(1, succeed)
        same(
            "it is looked for in the next generation",
            ([], (2,)),
            (rows(reader := named(keeper, 3, mode="ro")), numbers(reader, "generation")),
        )


def test_who_was_let_in_is_not_refused_by_another_service_at_the_address():
    """Until its keepers have seen that the service has ended, which may take longer than a wrong token."""
    with StubKeeper() as keeper:
        connection = named(keeper)
        connection.execute("create table t(a)")
        new = keeper.next(images=False)
        keeper.now.service.end()
        with Service(listen=keeper.now.service.address):
            later(1.0, lambda: keeper.switch(new))
            connection.execute("insert into t values (1)")
            same(
                "in the next generation",
                ([1], (2,)),
                (rows(connection), numbers(connection, "generation")),
            )


def test_synchronous_says_what_a_commit_waits_for():
    with StubKeeper() as keeper:
        connection = named(keeper)
        connection.execute("create table t(a, b)")
        for value, waits in (
            ("full", True),
            ("extra", True),
            ("2", True),
            ("3", True),
            ("normal", False),
            ("1", False),
            ("on", False),
            ("off", False),
            ("0", False),
        ):
            connection.execute(f"pragma synchronous = {value}")
            connection.execute("insert into t values (1, 1)")
            position, durable = numbers(connection, "position", "durable")
            same(f"{value}: is durable", waits, durable == position)
        connection.execute("pragma synchronous = full")
        connection.execute("begin immediate")
        code_of(
            lambda: connection.execute("pragma synchronous = off")
        )  # SQLite refuses it within a transaction
        connection.execute("insert into t values (1, 1)")
        connection.execute("commit")
        same("as before", 0, int.__sub__(*numbers(connection, "position", "durable")))


def test_a_commit_that_waits_lets_others_read():
    """Of its process: both a connection that shares the file, and one that only reads."""
    with StubKeeper() as keeper:
        connection, beside, follower = named(keeper), named(keeper), named(keeper, 3, mode="ro")
        connection.execute("create table t(a, b)")
        keeper.is_archiving = False
        done = []
        thread = threading.Thread(
            target=lambda: done.append(connection.execute("insert into t values (1, 1)"))
        )
        thread.start()
        while not rows(follower):
            pass
        same("it is seen", [1], rows(beside))
        same("another commit is busy", "SQLITE_BUSY", code_of(lambda: busy(named(keeper, busy=0))))
        true("it waits still", thread.is_alive())
        keeper.is_archiving = True
        thread.join()
        same("done", 1, len(done))


def busy(connection):
    connection.execute("insert into t values (2, 2)")


def test_readers_of_what_is_durable():
    """They see nothing that could still be lost, and never go back."""
    level = "pragma synchronous = off"  # of which a close leaves it so
    with StubKeeper() as keeper:
        connection, careful, other = (
            named(keeper),
            named(keeper, 3, mode="ro", durable=1),
            named(keeper, 3, mode="ro"),
        )
        connection.execute("create table t(a, b)")
        connection.execute(level)
        keeper.is_archiving = False
        fill(connection, 4)
        same("not yet", ([], 4), (rows(careful), len(rows(other))))
        keeper.archive_now()
        same("now", [0, 1, 2, 3], rows(careful))
        fill(connection, 4, first=4)
        same("opened now", [0, 1, 2, 3], rows(named(keeper, 3, mode="ro", durable=1)))
        connection.close()
        keeper.die(lost=4)
        same("after a death", ([0, 1, 2, 3], [0, 1, 2, 3]), (rows(careful), rows(other)))
        again = named(keeper)
        again.execute(level)
        keeper.is_archiving = True
        fill(again, 1, first=9)
        for event in (keeper.succeed, keeper.archive_now):
            event()
            same(
                "then",
                ([0, 1, 2, 3, 9], "ok"),
                (rows(careful), one(careful, "pragma integrity_check")),
            )


# ---- Readers ----


def test_a_transaction_that_reads_goes_on():
    """In a new generation of any shift, with nothing in its cache; what it reads is what it began with."""
    for name, event in EVENTS.items():
        with StubKeeper() as keeper:
            connection = named(keeper)
            connection.execute("create table t(a, b)")
            fill(connection, 40, size=4000)
            for reading in (named(keeper, 3, mode="ro", pages=4), named(keeper, pages=4)):
                reading.execute("pragma cache_size = 2")
                reading.execute("begin")
                same("before", 0, one(reading, "select min(a) from t"))
                event(keeper)
                same(
                    f"{name}: all of it",
                    (list(range(40)), "ok"),
                    (rows(reading), one(reading, "pragma integrity_check")),
                )
                reading.execute("commit")
                reading.close()


def test_a_database_without_a_transaction_in_a_run_of_another_shift():
    """Its blocks say nothing: what is read begins before the first of them, which is behind what an image stands for."""
    for shift in (2, -4):
        with StubKeeper() as keeper:
            keeper.now.fill([EMPTY_HEAD] * 3)
            with keeper.changed:
                keeper.now.close()
                keeper.archive_now()
                new = Generation(keeper, 2, 3, shift)
                new.fill([EMPTY_HEAD] * (3 - shift))
                keeper.switch(new)
            connection, reader = named(keeper), named(keeper, 3, mode="ro")
            same("nothing", 0, one(reader, "select count(*) from sqlite_master"))
            same("at no LSN", (0, 0), numbers(reader, "lsn", "position"))
            connection.execute("create table t(a, b)")
            fill(connection, 3)
            same(
                "a writer",
                ([0, 1, 2], "ok"),
                (rows(connection), one(connection, "pragma integrity_check")),
            )
            same(
                "a reader", ([0, 1, 2], "ok"), (rows(reader), one(reader, "pragma integrity_check"))
            )


def test_a_transaction_that_reads_what_was_lost():
    with StubKeeper() as keeper:
        connection = named(keeper)
        connection.execute("create table t(a, b)")
        connection.execute("pragma synchronous = off")
        fill(connection, 40, size=4000)
        reading = named(keeper, 3, mode="ro", pages=4)
        reading.execute("pragma cache_size = 2")
        reading.execute("begin")
        same("before", 0, one(reading, "select min(a) from t"))
        connection.close()
        keeper.die(
            lost=20, others=lambda new: overtaking(new, 25)
        )  # whose transactions stand at these positions
        same("told", "SQLITE_IOERR", code_of(lambda: rows(reading)))
        same("it is over", False, reading.in_transaction)
        same(
            "and goes on", (45, "ok"), (len(rows(reading)), one(reading, "pragma integrity_check"))
        )


def test_the_past_at_a_position():
    with StubKeeper() as keeper:
        connection = named(keeper)
        connection.execute("create table t(a, b)")
        fill(connection, 9)
        past = named(keeper, 3, at=4)
        same("three rows", [0, 1, 2], rows(past))
        keeper.succeed(images=False)
        same("block for block", [0, 1, 2], rows(past))
        keeper.succeed()
        fill(connection, 5, first=9)
        same(
            "it is before the base",
            "SQLITE_PROTOCOL",
            code_of(lambda: rows(named(keeper, 3, at=4))),
        )
        same(
            "its cache is no database",
            True,
            code_of(lambda: one(past, "pragma integrity_check")) in (None, "SQLITE_IOERR"),
        )
        same(
            "at the base, and after it",
            [(9, "ok"), (11, "ok")],
            [
                (len(rows(then)), one(then, "pragma integrity_check"))
                for then in (named(keeper, 3, at=10), named(keeper, 3, at=12))
            ],
        )


def test_an_event_before_each_request_of_a_reader():
    """Two writers take turns, so that each of its transactions sees another epoch."""
    for name in ("a death, all was archived", *(("images", "block for block") if LONG else ())):
        for number in range(1, 14):
            with StubKeeper() as keeper:
                connection, other = named(keeper), named(keeper, 5)
                connection.execute("create table t(a, b)")
                fill(connection, 10, size=4000)
                reading, asked = named(keeper, 3, mode="ro", pages=4), Before(
                    number, lambda: EVENTS[name](keeper)
                )
                for turn, each in enumerate((other, connection, other)):
                    fill(each, 1, first=10 + turn)
                    keeper.rule = asked
                    same(f"{name}, before request {number}", list(range(11 + turn)), rows(reading))
                    keeper.rule = None


def test_an_event_before_each_request_of_an_open():
    """And of a reader that is far behind: what it had read before is not asked for."""
    for name, event in EVENTS.items():
        for number in range(1, 6):
            for how in ({}, {"principal": 3, "mode": "ro"}):
                with StubKeeper() as keeper:
                    connection = named(keeper)
                    connection.execute("create table t(a, b)")
                    fill(connection, 3)
                    keeper.rule = Before(number, lambda: event(keeper))
                    same(f"{name}, before request {number}", [0, 1, 2], rows(named(keeper, **how)))
    for name, event in list(EVENTS.items())[:2]:
        with StubKeeper() as keeper:
            connection, reading = named(keeper), named(keeper, 3, mode="ro")
            connection.execute("create table t(a, b)")
            same("before", [], rows(reading))
            connection.execute("begin immediate")
            fill(connection, 420, size=1 << 16)
            connection.execute("commit")
            happens_at(keeper, wire.GET, 1, event)
            same(f"{name}, far behind", list(range(420)), rows(reading))


def test_a_service_that_stands_still():
    """Its client waits for no reply where the database is elsewhere."""
    with StubKeeper() as keeper:
        connection, reading, over = named(keeper), named(keeper, 3, mode="ro"), threading.Event()
        connection.execute("create table t(a, b)")
        fill(connection, 2)
        same("before", [0, 1], rows(reading))
        keeper.now.proxy.between = lambda frame: None if over.wait() else frame
        keeper.succeed()
        watch = later(60, over.set)
        fill(connection, 1, first=2)
        same("then", [0, 1, 2], rows(reading))
        true("nobody has waited for it", not over.is_set())
        watch.cancel()
        over.set()


# ---- Losses ----


def opened_in(new):
    """Another writer, in a generation that no keeper has told of yet."""
    keys = {
        what: token_of(bytes.fromhex(TOKENS[number]), new.keeper.name, new.run).hex()
        for what, number in (("token", 2), ("optoken", 1))
    }
    return connect(new.service.address, **keys)


def overtaking(new, count=1):
    """It is the first one there."""
    connection = opened_in(new)
    fill(connection, count, first=100)
    connection.close()


def test_another_writer_has_gone_on():
    """Before a writer has sent its blocks again: it is told once, by its next statement, and goes on from what is there."""
    with StubKeeper() as keeper:
        connection, beside = named(keeper), named(keeper)
        connection.execute("create table t(a, b)")
        connection.execute("pragma synchronous = normal")
        fill(connection, 6)
        keeper.die(lost=3)
        in_child(lambda: fill(named(keeper), 2, first=100))
        same("told", "SQLITE_IOERR_FSYNC", code_of(lambda: rows(connection)))
        wanted = [0, 1, 2, 100, 101]
        same("then", (wanted, wanted), (rows(connection), rows(beside)))
        same("once", 1, numbers(connection, "losses")[0])
        fill(connection, 1, first=200)
        same(
            "and goes on",
            ("ok", [*wanted, 200]),
            (one(connection, "pragma integrity_check"), rows(named(keeper, 3, mode="ro"))),
        )


def test_a_reader_of_what_was_lost_where_a_position_comes_again():
    """Another transaction stands there, with the same LSN and the same counter of changes: nothing of the lost one is read any more."""
    for mode in ({"mode": "ro"}, {}):
        with StubKeeper() as keeper:
            connection = named(keeper)
            connection.execute("create table t(a, b)")
            connection.execute("pragma synchronous = off")
            fill(connection, 3)
            reading = named(keeper, 3, **mode)
            fill(connection, 1, first=10)
            same("before", [0, 1, 2, 10], rows(reading))
            connection.close()
            keeper.die(lost=1, others=overtaking)
            same(
                "then",
                ([0, 1, 2, 100], "ok"),
                (rows(reading), one(reading, "pragma integrity_check")),
            )


def test_a_reader_of_what_has_failed_and_came_otherwise():
    """It has read a commit whose writer was told that it is in doubt, and which was lost with its service. Another one comes in its place,
    by the same writer, at the same position and with the same number."""
    with StubKeeper() as keeper:
        connection, reading = named(keeper, move=300), named(keeper, 3, mode="ro")
        connection.execute("create table t(a, b)")
        connection.execute("pragma synchronous = normal")
        fill(connection, 3)
        old, seen = keeper.now, []

        def rule(frame):
            if frame[33] != wire.REPORT:
                return frame
            keeper.rule = None
            with Asker(old.service.address, 2, wire.PRIMARY) as asker:
                asker.carry(frame)
            seen.append(rows(reading))
            keeper.is_published, keeper.rule = False, lambda frame: None
            return None

        keeper.rule = rule
        same("told", "SQLITE_IOERR_FSYNC", code_of(lambda: fill(connection, 1, first=10)))
        same("seen", [[0, 1, 2, 10]], seen)
        keeper.rule = None
        keeper.die(lost=1)
        fill(connection, 1, first=20)
        same("then", ([0, 1, 2, 20], "ok"), (rows(reading), one(reading, "pragma integrity_check")))
        same("at the writer", [0, 1, 2, 20], rows(connection))


def test_what_another_has_left_is_sent_again():
    """A writer opens upon commits that are not archived, and their writer goes, and then the service: nothing is lost."""
    with StubKeeper() as keeper:
        gone = named(keeper)
        gone.execute("create table t(a, b)")
        gone.execute("pragma synchronous = off")
        fill(gone, 20)
        connection = named(keeper, 5)
        connection.execute("pragma synchronous = normal")
        fill(connection, 1, first=20)
        gone.close()
        keeper.die(lost=21)
        same(
            "all of it",
            (list(range(21)), "ok"),
            (rows(connection), one(connection, "pragma integrity_check")),
        )
        same("sent again, and nothing lost", (21, 0), numbers(connection, "resent", "losses"))


def test_what_became_of_a_generation_is_asked_of_who_has_the_next_one():
    """Others wait there until this writer has sent what it lacks, and no longer: a keeper that is silent is not asked first."""
    heard = []
    with silent_after_the_greeting(heard) as (address, _), StubKeeper() as keeper:
        connection = sqlite_of(f"{address},{keeper.address}", "shop", 2)
        keeper.clients.add(connection)
        connection.execute("create table t(a, b)")
        connection.execute("pragma synchronous = normal")
        fill(connection, 2)
        keeper.die(lost=2)
        same("it is sent again", [0, 1], rows(connection))
        same("of it was asked", [], [words for words in heard if words[0] == "durable"])


def test_a_commit_that_waits_at_a_silent_keeper_hears_that_another_has_the_next_generation():
    """It sends there what it lacks as soon as others say so: the silent one is waited for no longer, nor asked first, nor is anybody else
    asked what is durable before it has come there."""
    heard, told, asked = [], [], []
    with silent_after_the_greeting(heard) as (address, _), StubKeeper() as keeper:
        first = named(keeper)
        first.execute("create table t(a, b)")
        first.close()
        keeper.told_lines, durable = address, keeper.durable
        connection = named(keeper)

        def noted(*words):
            asked.append(("durable", words[1]))
            return durable(*words)

        def rule(frame):
            asked.append(("service", keeper.now.number))
            return frame

        thread = threading.Thread(target=lambda: told.append(code_of(lambda: fill(connection, 1))))
        keeper.is_archiving = False
        thread.start()
        until(lambda: any(words[0] == "durable" for words in heard), "it waits at the silent one")
        keeper.told_lines, keeper.durable = keeper.address, noted
        keeper.die(lost=1)
        keeper.rule, keeper.is_archiving = rule, True
        thread.join()
        same("told", [None], told)
        same("it came there first", ("service", 2), asked[0])
        same("it is there", [0], rows(connection))


def test_a_move_that_is_cut_off():
    """Once a reader has come to a generation, and before it has looked what is there of what it read: then it looks when it begins again."""
    with StubKeeper() as keeper:
        connection, reading = named(keeper), named(keeper, 3, mode="ro", move=300)
        connection.execute("create table t(a, b)")
        connection.execute("pragma synchronous = off")
        fill(connection, 4)
        same("before", [0, 1, 2, 3], rows(reading))
        connection.close()
        keeper.die(lost=1, others=lambda new: overtaking(new, 2))
        keeper.rule = lambda frame: frame if frame[33] == wire.STATUS else None
        same("told", "SQLITE_IOERR", code_of(lambda: rows(reading)))
        keeper.rule = None
        same(
            "then",
            ([0, 1, 2, 100, 101], "ok"),
            (rows(reading), one(reading, "pragma integrity_check")),
        )


def at_the_takeover(keeper, event):
    """A rule: an event comes right before the next failover."""

    def rule(frame):
        if frame[33] == wire.FAILOVER:
            keeper.rule = None
            event()
        return frame

    return rule


def test_another_writes_before_blocks_are_sent_again():
    """After the writer has looked where the log ends, in the epoch that it has seen there, and in a later one."""
    for is_later in (False, True):
        with StubKeeper() as keeper:
            connection, others = named(keeper), []
            connection.execute("create table t(a, b)")
            connection.execute("pragma synchronous = normal")
            fill(connection, 4)
            keeper.die(
                lost=2, others=lambda new: None if is_later else others.append(opened_in(new))
            )
            keeper.rule = at_the_takeover(
                keeper, lambda: fill(others[0] if others else opened_in(keeper.now), 1, first=100)
            )
            same("told", "SQLITE_IOERR_FSYNC", code_of(lambda: rows(connection)))
            same(
                "then",
                ([0, 1, 100], "ok"),
                (rows(connection), one(connection, "pragma integrity_check")),
            )


def epoch_of(keeper):
    with keeper.now.asker(wire.SECONDARY) as asker:
        return asker.status()[0]


def test_a_writer_that_is_behind():
    """It has read before another wrote: it is busy, and fences nobody; and where one writes at its takeover it undoes nothing."""
    with StubKeeper() as keeper:
        connection, behind = named(keeper), named(keeper, 5)
        connection.execute("create table t(a, b)")
        fill(connection, 1)
        behind.execute("begin")
        same("before", [0], rows(behind))
        fill(connection, 1, first=1)
        epoch = epoch_of(keeper)
        true(
            "it is behind",
            code_of(lambda: fill(behind, 1, first=2)) in ("SQLITE_BUSY", "SQLITE_BUSY_SNAPSHOT"),
        )
        behind.execute("rollback")
        same("it has fenced nobody", epoch, epoch_of(keeper))
        fill(connection, 1, first=2)
        same("nor has the writer to begin another epoch", epoch, epoch_of(keeper))
        behind = named(
            keeper, 5
        )  # who was refused the turn has it before it reads, and is not behind
        behind.execute("begin")
        same("before", [0, 1, 2], rows(behind))
        keeper.rule = at_the_takeover(
            keeper, lambda: fill(opened_in(keeper.now), 1, first=3)
        )  # who asks for no turn
        true(
            "it is behind",
            code_of(lambda: fill(behind, 1, first=4)) in ("SQLITE_BUSY", "SQLITE_BUSY_SNAPSHOT"),
        )
        behind.execute("rollback")
        same(
            "all of it",
            ([0, 1, 2, 3], "ok"),
            (rows(named(keeper, 3, mode="ro")), one(behind, "pragma integrity_check")),
        )


def test_a_commit_that_is_overtaken():
    """It is in flight when its service dies, and another writer is first in the next generation."""
    with StubKeeper() as keeper:
        connection = named(keeper)
        connection.execute("create table t(a, b)")
        fill(connection, 3)
        connection.execute("begin immediate")
        fill(connection, 3, first=3)

        keeper.rule = Before(1, lambda: keeper.die(others=overtaking))
        same("told", "SQLITE_BUSY_SNAPSHOT", code_of(lambda: connection.execute("commit")))
        same(
            "why, after its rollback too",
            "fenced: another writer has gone on: it is not in the database",
            one(connection, "pragma pagelog_error"),
        )
        same("it is over", False, connection.in_transaction)
        same(
            "nothing of it is there",
            ([0, 1, 2, 100], "ok"),
            (rows(connection), one(connection, "pragma integrity_check")),
        )
        fill(connection, 1, first=200)
        same("and goes on", [0, 1, 2, 100, 200], rows(named(keeper, 3, mode="ro")))


def test_a_commit_that_asks_for_pages_and_is_overtaken():
    """Its service dies before it has the pages that its changes differ from. Nothing of it was sent."""
    with StubKeeper() as keeper:
        connection = named(keeper, pages=4)
        connection.execute("create table t(a, b)")
        fill(connection, 60, size=6000)
        connection.execute("begin immediate")
        connection.execute("update t set b = b || 'x'")
        happens_at(keeper, wire.GET, 1, lambda keeper: keeper.die(others=overtaking))
        same("told", "SQLITE_BUSY_SNAPSHOT", code_of(lambda: connection.execute("commit")))
        same(
            "nothing of it is there",
            ([*range(60), 100], 0),
            (rows(connection), one(connection, "select count(*) from t where b like '%x'")),
        )
        same("whole", "ok", one(connection, "pragma integrity_check"))


def test_a_commit_that_was_sent_again_and_is_in_doubt():
    """It is refused by a service that was closed, and the next one takes it, and is gone before it says so: no error says that it is
    not there."""
    with StubKeeper() as keeper:
        connection = named(keeper, move=300)
        connection.execute("create table t(a, b)")
        connection.execute("pragma synchronous = normal")
        fill(connection, 3)
        taken_over = []

        def is_sent_again(frame):
            taken_over.append(frame[33] == wire.FAILOVER)
            if frame[33] == wire.REPORT and any(taken_over):
                with Asker(keeper.now.service.address, 2, wire.PRIMARY) as asker:
                    asker.carry(frame)
                keeper.is_published, keeper.rule = False, lambda frame: None
            return frame

        def is_sent(frame):
            if frame[33] != wire.WRITE:
                return frame
            keeper.rule = None
            keeper.succeed()
            keeper.rule = is_sent_again
            return frame

        keeper.rule = is_sent
        same("told", "SQLITE_IOERR_FSYNC", code_of(lambda: fill(connection, 1, first=10)))
        keeper.is_published, keeper.rule = True, None
        same(
            "it is there",
            ([0, 1, 2, 10], "ok"),
            (rows(connection), one(connection, "pragma integrity_check")),
        )


def test_full_is_told_what_was_lost():
    """A COMMIT waits for the archive while its service dies, and another writer goes on: it is not there, and told so."""
    with StubKeeper() as keeper:
        connection = named(keeper)
        connection.execute("create table t(a, b)")
        keeper.is_archiving = False
        told = []
        thread = threading.Thread(target=lambda: told.append(code_of(lambda: fill(connection, 1))))
        follower = named(keeper, 3, mode="ro")
        thread.start()
        while not rows(follower):
            pass
        keeper.die(lost=1, others=overtaking)
        keeper.is_archiving = True
        thread.join()
        same("told", ["SQLITE_IOERR_FSYNC"], told)
        why = one(connection, "pragma pagelog_error")
        true(f"why: {why}", why.endswith("are lost: another writer has gone on"))
        same(
            "not there",
            ([100], "ok"),
            (rows(connection), one(connection, "pragma integrity_check")),
        )


def test_a_wait_for_the_archive_goes_on_from_a_move_that_was_cut_off():
    """Of another connection of its process: there another writer's transaction stands at the position, and that is durable."""
    with StubKeeper() as keeper:
        hear, of_file = keeper.hear, []

        def hear_file_alone(line, words):
            """The poll of the process is told nothing: it would end the question that waits."""
            asks = words[0] == "where"
            of_file.extend([line] if asks and not of_file else [])
            if asks and line is not of_file[0]:
                line.say("nowhere", keeper.name)
            else:
                hear(line, words)

        keeper.hear = hear_file_alone
        connection, beside = named(keeper, move=2000, pages=4), named(keeper)
        connection.execute("create table t(a, b)")
        fill(connection, 40, size=4000)
        beside.execute("pragma cache_size = 2")
        durable, told, has_come, may_answer = (
            keeper.durable,
            [],
            threading.Event(),
            threading.Event(),
        )

        def held(*words):
            keeper.durable = durable  # of all questions the first
            has_come.set()
            while not may_answer.is_set():
                keeper.changed.wait(0.02)
            return durable(*words)

        new = keeper.next(
            images=False
        )  # before, as no answer is waited for longer than three seconds
        overtaking(new)
        keeper.durable = held
        thread = threading.Thread(
            target=lambda: told.append(code_of(lambda: fill(connection, 1, first=40))), daemon=True
        )
        thread.start()
        true("it is in the log", has_come.wait(60))
        keeper.now.end()
        keeper.switch(new)
        keeper.archive_now()
        keeper.rule = lambda frame: frame if frame[33] == wire.STATUS else None
        same("the move is cut off", "SQLITE_IOERR", code_of(lambda: rows(beside)))
        keeper.rule = None
        may_answer.set()
        thread.join(60)
        same("told", ["SQLITE_IOERR_FSYNC"], told)
        same(
            "then",
            ([*range(40), 100], "ok"),
            (rows(connection), one(connection, "pragma integrity_check")),
        )


def test_a_wait_for_the_archive_asks_more_and_more_seldom():
    """Where no keeper says what is durable: after 5 ms, and up to five times a second."""
    with StubKeeper() as keeper:
        connection = named(keeper)
        connection.execute("create table t(a, b)")
        durable, times = keeper.durable, []

        def elsewhere(name, generation, _):
            times.append(time.monotonic())
            if len(times) == 9:
                keeper.durable = durable
            return "elsewhere", name, generation

        keeper.durable = elsewhere
        fill(connection, 1)
        gaps = [later - earlier for earlier, later in zip(times, times[1:])]
        for gap, least in zip(gaps, (0.005, 0.01, 0.02, 0.04, 0.08, 0.16, 0.2, 0.2), strict=True):
            true(f"after {least} s: {gaps}", gap >= least)


def test_a_generation_that_is_closed_for_a_while():
    """Nobody writes there, and nothing fails: a transaction waits for the next one."""
    with StubKeeper() as keeper:
        connection, other = named(keeper), named(keeper, 5)
        connection.execute("create table t(a, b)")
        for number, each in enumerate((connection, other, connection)):
            keeper.now.close()
            asked = keeper.asked

            def succeed():
                while keeper.asked < asked + 40:
                    time.sleep(0.01)
                keeper.archive_now()
                keeper.switch(keeper.next())

            thread = threading.Thread(target=succeed)
            thread.start()
            fill(each, 1, first=number)
            thread.join()
        same(
            "all of it",
            ([0, 1, 2], "ok"),
            (rows(connection), one(connection, "pragma integrity_check")),
        )


def test_a_generation_that_is_closed_as_a_writer_begins():
    """Right after its failover: it goes on in the next one, or where its keeper opens it again, and is not even busy."""
    for then in (StubKeeper.succeed, lambda keeper: keeper.now.give_up()):
        with StubKeeper() as keeper:
            connection = named(keeper, busy=0)
            for number in range(4):
                keeper.rule = at_the_first_question_of_a_primary(keeper, lambda: then(keeper))
                if number == 0:
                    connection.execute("create table t(a, b)")
                fill(connection, 1, first=number)
                same("it came", None, keeper.rule)
                keeper.succeed()
            same(
                "all of it",
                ([0, 1, 2, 3], "ok"),
                (rows(connection), one(connection, "pragma integrity_check")),
            )


def test_a_failover_whose_reply_is_lost_is_no_other_writer():
    """Of a writer that sends again what was cut off, and then finds no service for a while."""
    with StubKeeper() as keeper:
        connection, asked, carried = named(keeper), [], []
        connection.execute("create table t(a, b)")
        connection.execute("pragma synchronous = normal")
        fill(connection, 2)

        def gone(frame):
            """Till it asks where the database is: by a question more than a ring."""
            asked.append(keeper.asked)
            if keeper.asked > asked[0] + 1:
                keeper.rule = carries_out
                return carries_out(frame)
            return None

        def carries_out(frame):
            if frame[33] != wire.FAILOVER:
                return frame
            with socket.create_connection(keeper.now.proxy.target) as server:
                carried.append(exchange(server, frame))
            asked.clear()
            keeper.rule = gone if len(carried) == 1 else None
            return None if len(carried) == 1 else Answer(carried[-1][4:])

        keeper.rule = lambda frame: gone(frame) if frame[33] == wire.WRITE or asked else frame
        fill(connection, 1, first=2)
        same("its failovers", [b"\0\0\0\1\0"] * 2, carried)
        same(
            "all of it",
            ([0, 1, 2], (0, 0)),
            (rows(connection), numbers(connection, "moves", "losses")),
        )


def at_the_first_question_of_a_primary(keeper, event):
    """A rule: an event comes before it."""

    def rule(frame):
        if (frame[24], frame[33]) == (wire.PRIMARY, wire.STATUS):
            keeper.rule = None
            event()
        return frame

    return rule


def happens_at(keeper, operation, number, event):
    """The event comes with this request of its kind, before that is answered."""
    left = [number]

    def rule(frame):
        left[0] -= frame[33] == operation
        if left[0] == 0:
            keeper.rule = None
            event(keeper)
        return frame

    keeper.rule = rule


def test_a_keeper_hears_of_a_commit_while_the_service_has_it():
    """Of one that waits for the archive, before the service has its report; it answers nothing, also where the service dies then."""
    with StubKeeper() as keeper:
        connection, heard = named(keeper, keep=0), []
        connection.execute("create table t(a, b)")

        def rule(frame):
            if frame[33] == wire.REPORT:
                with keeper.changed:
                    keeper.changed.wait_for(lambda: keeper.rings, 60)
                heard.append(keeper.rings)
                keeper.rule = None
            return frame

        keeper.rule = rule
        fill(connection, 1)
        same("told before it is answered", [1], heard)
        connection.execute("pragma synchronous = normal")
        fill(connection, 1, first=1)
        same("not of one that waits for nothing", 1, keeper.rings)
        connection.execute("pragma synchronous = full")
        for number in (2, 3):
            happens_at(keeper, wire.WRITE, 1, lambda keeper: keeper.die(lost=0))
            fill(connection, 1, first=number)
        same(
            "all of them",
            (list(range(4)), "ok"),
            (rows(connection), one(connection, "pragma integrity_check")),
        )


def test_commits_on_their_way():
    """Nobody waits for them when the next generation comes, where their LSNs are others."""
    for name, event in EVENTS.items():
        for number in (1, 5):
            with StubKeeper() as keeper:
                connection = named(keeper, async_commits=64)
                connection.execute("pragma synchronous = full")
                connection.execute("create table t(a, b)")
                fill(connection, 5)
                connection.execute("pragma synchronous = off")
                happens_at(keeper, wire.REPORT, number, event)
                fill(connection, 20, first=5)
                connection.execute("pragma pagelog_async_commits = 0")
                same(
                    f"{name}, report {number}",
                    (list(range(25)), "ok"),
                    (rows(connection), one(connection, "pragma integrity_check")),
                )
                same("losses", 0, numbers(connection, "losses")[0])
                same("others see it", list(range(25)), rows(named(keeper, 3, mode="ro")))


def test_commits_on_their_way_when_a_keeper_says_that_their_generation_is_over():
    """All are in the log, and their replies were not looked for: nothing is lost."""
    with StubKeeper() as keeper:
        connection = named(keeper, async_commits=8, check=3600000)
        connection.execute("create table t(a, b)")
        connection.execute("pragma synchronous = normal")
        fill(connection, 1)
        connection.execute("pragma synchronous = off")
        fill(connection, 3, first=1)
        same("on their way", (3,), numbers(connection, "on_their_way"))
        until(
            lambda: len(keeper.now.blocks(0)) == numbers(connection, "position")[0],
            "they are in the log",
        )
        keeper.succeed()
        until(
            lambda: rows(connection) and numbers(connection, "generation") == (2,),
            "a keeper is asked once a second",
        )
        fill(connection, 1, first=4)
        connection.execute("pragma pagelog_async_commits = 0")
        same("all of it", (list(range(5)), (0,)), (rows(connection), numbers(connection, "losses")))


def test_a_repair_of_many_blocks():
    """It goes on from pages of the old generation in the new one, where their LSNs are others."""
    for name, event in list(EVENTS.items())[:2]:
        with StubKeeper() as keeper:
            gone, connection = named(keeper, move=300), named(keeper, 5)
            gone.execute("create table t(a, b)")
            fill(gone, 80, size=1 << 17)
            before = gone.execute("select sum(a), group_concat(b) from t").fetchone()
            gone.execute("begin immediate")
            gone.execute("update t set b = hex(randomblob(65536))")
            happens_at(
                keeper, wire.WRITE, 300, lambda keeper: setattr(keeper, "rule", lambda frame: None)
            )
            code_of(lambda: gone.execute("commit"))
            keeper.rule = None
            happens_at(keeper, wire.WRITE, 100, event)
            fill(connection, 1, first=1000)
            same(
                f"{name}: a repair",
                (1, 1 + (keeper.now.number > 1)),
                (*numbers(connection, "repairs"), keeper.now.number),
            )
            same(
                "nothing of it is there",
                before,
                connection.execute(
                    "select sum(a), group_concat(b) from t where a < 1000"
                ).fetchone(),
            )
            same("whole", "ok", one(connection, "pragma integrity_check"))


def test_a_transaction_of_many_blocks():
    """It goes on with the blocks that were made before a move, where their LSNs are others."""
    for name, event in EVENTS.items():
        with StubKeeper() as keeper:
            connection = named(keeper)
            connection.execute("create table t(a, b)")
            connection.execute("begin immediate")
            fill(connection, 90, size=1 << 16)
            happens_at(keeper, wire.WRITE, 150, event)  # amid the second 64 blocks, of two copies
            connection.execute("commit")
            true("there was an event", keeper.now.number > 1)
            same(
                name,
                (list(range(90)), "ok"),
                (rows(connection), one(connection, "pragma integrity_check")),
            )


def test_a_reader_leaves_a_generation_that_is_over():
    """Though its service is still there, and answers."""
    with StubKeeper() as keeper:
        connection, reading = named(keeper), named(keeper, 3, mode="ro")
        connection.execute("create table t(a, b)")
        fill(connection, 2)
        same("before", [0, 1], rows(reading))
        keeper.succeed()
        fill(connection, 1, first=2)
        same("then", [0, 1, 2], rows(reading))


def test_nobody_goes_back():
    """One keeper says where the database was, and the others are not there: then it is nowhere."""
    with StubKeeper() as old, StubKeeper() as keeper:
        keeper.succeed(images=False)
        while True:
            connection = sqlite_of(f"{old.address},{keeper.address}", "shop", 2, move=300)
            if numbers(connection, "generation") == (2,):
                break  # the old one was not the quicker one by far
            connection.close()
        connection.execute("create table t(a, b)")
        fill(connection, 1)
        keeper.is_published, keeper.rule = False, lambda frame: None
        keeper.now.proxy.cut()
        same("told", "SQLITE_IOERR", code_of(lambda: rows(connection)))
        keeper.is_published, keeper.rule = True, None
        until(lambda: code_of(lambda: rows(connection)) is None, "it is found again")
        same("then", ([0], (2,)), (rows(connection), numbers(connection, "generation")))


# ---- Two databases, and a lock that is kept ----


def test_a_commit_to_two_named_databases():
    """What happens to one of them, or to both, is no error of it."""
    for name, event in EVENTS.items():
        for happens_to in ((0,), (1,), (0, 1)):
            with StubKeeper() as one_keeper, StubKeeper("stock") as other:
                keepers = one_keeper, other
                connection = named(one_keeper)
                connection.execute("attach ? as stock", (uri_of(other.address, "stock", 2),))
                connection.execute("create table t(a, b)")
                connection.execute("create table stock.u(a, b)")
                for level in ("full", "normal"):
                    connection.execute(f"pragma main.synchronous = {level}")
                    connection.execute(f"pragma stock.synchronous = {level}")
                    for number in range(3):
                        connection.execute("begin immediate")
                        fill(connection, 1, first=number)
                        connection.execute("insert into stock.u values (?, 1)", (number,))
                        for each in happens_to if number == 1 else ():
                            event(keepers[each])
                        connection.execute("commit")
                counts = [
                    one(connection, f"select count(*) from {table}") for table in ("t", "stock.u")
                ]
                same(f"{name} to {happens_to}", [6, 6], counts)
                same(
                    "whole",
                    ["ok", "ok"],
                    [
                        one(connection, f"pragma {which}.integrity_check")
                        for which in ("main", "stock")
                    ],
                )
                same(
                    "others see it",
                    [6, 6],
                    [
                        len(rows(named(one_keeper, 3, mode="ro"))),
                        one(named(other, 3, mode="ro"), "select count(*) from u"),
                    ],
                )
                connection.close()


def test_a_writer_that_keeps_the_lock():
    """It begins no transaction of the file any more, and goes on through what is no loss; after a loss it has to give the lock back."""
    for name, event in EVENTS.items():
        with StubKeeper() as keeper:
            connection = named(keeper)
            connection.execute("create table t(a, b)")
            connection.execute("pragma synchronous = normal")
            connection.execute("pragma locking_mode = exclusive")
            fill(connection, 3)
            event(keeper)
            fill(connection, 3, first=3)
            same(
                name,
                (list(range(6)), "ok"),
                (rows(connection), one(connection, "pragma integrity_check")),
            )
            same("others see it", list(range(6)), rows(named(keeper, 3, mode="ro")))
    with StubKeeper() as keeper:
        connection = named(keeper)
        connection.execute("create table t(a, b)")
        connection.execute("pragma synchronous = normal")
        connection.execute("pragma locking_mode = exclusive")
        fill(connection, 3)
        keeper.die(lost=1, others=overtaking)
        same("told", "SQLITE_IOERR_FSYNC", code_of(lambda: fill(connection, 1, first=9)))
        connection.execute("pragma locking_mode = normal")
        code_of(lambda: rows(connection))
        same(
            "then",
            ([0, 1, 100], "ok"),
            (rows(connection), one(connection, "pragma integrity_check")),
        )
        fill(connection, 1, first=9)
        same("others see it", [0, 1, 9, 100], rows(named(keeper, 3, mode="ro")))


def test_a_writer_holds_so_much_and_no_more():
    """Of what is not durable: then a commit waits for the archive, whatever the level."""
    with StubKeeper() as keeper:
        connection = named(keeper)
        connection.execute("create table t(a, b)")
        connection.execute("pragma synchronous = normal")
        fill(connection, 1)
        same("nobody has asked", 1, numbers(connection, "durable")[0])
        fill(connection, 20, size=1 << 20, first=1)
        true("sixteen MiB", numbers(connection, "durable")[0] > 1)
        keeper.die(lost=20)
        same(
            "the rest was sent again",
            (list(range(21)), 0),
            (rows(connection), numbers(connection, "losses")[0]),
        )


def test_what_is_durable_is_not_lost():
    """Others have written on before a succession, and its base is one of their transactions, which this writer has not seen."""
    with StubKeeper() as keeper:
        connection, other = named(keeper), named(keeper, 5)
        connection.execute("create table t(a, b)")
        for each in (connection, other):
            each.execute("pragma synchronous = normal")
        fill(connection, 3)
        fill(other, 3, first=3)
        keeper.succeed()
        keeper.old[-1].end()
        same("all of it", (list(range(6)), 0), (rows(connection), numbers(connection, "losses")[0]))


def test_a_commit_that_finds_no_room_is_not_done():
    """So much is held that it has to wait for the archive, which says nothing: it is refused, and nothing was sent."""
    with StubKeeper() as keeper:
        connection = named(keeper, move=300)
        connection.execute("create table t(a, b)")
        connection.execute("pragma synchronous = normal")
        keeper.is_archiving = False
        fill(connection, 62, size=1 << 18)
        number = 62
        while (
            code := code_of(lambda: fill(connection, 1, size=6000, first=number))
        ) is None and number < 300:
            number += 1
            same("all of it", number, one(connection, "select count(*) from t"))
        same("told", "SQLITE_IOERR", code)
        same("it is not there", number, one(connection, "select count(*) from t"))
        keeper.is_archiving = True
        until(
            lambda: code_of(lambda: fill(connection, 1, size=6000, first=number)) is None,
            "room, once it is archived",
        )
        same(
            "all of it",
            ([*range(number + 1)], "ok"),
            (rows(named(keeper, 3, mode="ro")), one(connection, "pragma integrity_check")),
        )


def test_a_writer_waits_for_a_part_of_what_it_holds():
    with StubKeeper() as keeper:
        keeper.archives_what_is_asked = True
        connection = named(keeper)
        connection.execute("create table t(a, b)")
        connection.execute("pragma synchronous = normal")
        fill(connection, 20, size=1 << 20)
        position, durable = numbers(connection, "position", "durable")
        true(f"{durable} of {position}", 1 < durable < position // 2)


# ---- Ends of waits ----


def test_waits_for_a_generation_end():
    with StubKeeper() as keeper:
        for how in ({"move": 300}, {"busy": 1.2}):
            connection = named(keeper, **how)
            connection.execute("create table if not exists t(a, b)")
            connection.execute("pragma synchronous = normal")
            fill(connection, 1)
            keeper.is_published = False
            keeper.now.proxy.cut()
            keeper.rule = lambda frame: None
            since = time.monotonic()
            same("a read", "SQLITE_IOERR", code_of(lambda: rows(connection)))
            code = code_of(lambda: fill(connection, 1))
            true(f"a commit: {code}", code in ("SQLITE_IOERR", "SQLITE_IOERR_FSYNC"))
            true(f"it ended: {how}", time.monotonic() - since < 100)
            keeper.is_published, keeper.rule = True, None
            same("whole", "ok", one(connection, "pragma integrity_check"))
            connection.close()


def asks_after_a_takeover(keeper):
    """How often the busy handler is asked while 640 blocks are sent again, once it is asked at all; and how many seconds that took
    beside what it slept itself."""
    library, handle, asked, published = ctypes.CDLL("libsqlite3.so.0"), ctypes.c_void_p(), [], []

    def sleep(*_):
        since = time.monotonic()
        time.sleep(0.1)
        asked.append((since, time.monotonic() - since))
        return 1

    def publish(new):
        new.address = new.service.address
        thread.start()
        until(lambda: asked, "it is asked")
        published.append(time.monotonic())

    handler = ctypes.CFUNCTYPE(ctypes.c_int, ctypes.c_void_p, ctypes.c_int)(sleep)
    done = lambda text: same(text, 0, library.sqlite3_exec(handle, text.encode(), None, None, None))
    same(
        "open",
        0,
        library.sqlite3_open_v2(
            uri_of(keeper.address, "shop", 2).encode(), ctypes.byref(handle), 0x46, None
        ),
    )
    library.sqlite3_busy_handler(handle, handler, None)
    for text in [
        "create table if not exists t(a, b)",
        "pragma synchronous = normal",
        *["insert into t values (1, 1)"] * 640,
    ]:
        done(text)
    thread = threading.Thread(target=done, args=("insert into t values (2, 2)",))
    keeper.die(lost=640, others=publish)
    thread.join()
    took = time.monotonic() - published[0]
    library.sqlite3_close(handle)
    slept = [seconds for since, seconds in asked if since > published[0]]
    return len(slept), took - sum(slept)


def test_a_busy_handler_is_asked_only_where_nothing_comes():
    """For ten milliseconds: not at each of ten groups of replies."""
    with StubKeeper() as keeper:
        count, took = asks_after_a_takeover(keeper)
        same("all were sent again", 642, len(keeper.now.blocks(0)))
        true(f"asked {count} times in {took} s", count <= 5 + took / 0.01)


def test_a_wait_for_the_archive_ends():
    """The commit is in the log, and in doubt: its rollback undoes nothing, and it is there once it is asked again."""
    with StubKeeper() as keeper:
        connection = named(keeper, move=300)
        connection.execute("create table t(a, b)")
        keeper.is_archiving = False
        same("told", "SQLITE_IOERR_FSYNC", code_of(lambda: fill(connection, 1)))
        same(
            "it is there",
            ([0], "ok"),
            (rows(connection), one(connection, "pragma integrity_check")),
        )
        keeper.is_archiving = True
        fill(connection, 1, first=1)
        same("and durable", 0, int.__sub__(*numbers(connection, "position", "durable")))
        same("for others too", [0, 1], rows(named(keeper, 3, mode="ro", durable=1)))


def test_a_busy_handler_ends_a_wait_for_the_archive():
    with StubKeeper() as keeper:
        connection = named(keeper, busy=1.2)
        connection.execute("create table t(a, b)")
        keeper.is_archiving = False
        since = time.monotonic()
        same("told", "SQLITE_IOERR_FSYNC", code_of(lambda: fill(connection, 1)))
        true("it ended", time.monotonic() - since < 100)


def test_a_fork_leaves_the_keepers_alone():
    with StubKeeper() as keeper:
        connection = named(keeper)
        connection.execute("create table t(a, b)")
        fill(connection, 2)
        in_child(
            lambda: (
                same("refused", "SQLITE_MISUSE", code_of(lambda: rows(connection))),
                connection.close(),
                fill(named(keeper), 2, first=10),
            )
        )
        same("both", [0, 1, 10, 11], rows(connection))
        fill(connection, 1, first=2)
        same("a writer again", [0, 1, 2, 10, 11], rows(connection))


if __name__ == "__main__":
    run(
        "generations",
        dict(globals()),
        (
            "test_an_event_before_each_request_of_a_writer",
            "test_an_event_before_each_request_of_an_open",
            "test_a_repair_of_many_blocks",
            "test_a_busy_handler_is_asked_only_where_nothing_comes",
        ),
    )
