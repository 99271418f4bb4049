"""What a URI and the pragmas of the VFS take and refuse, names of databases, and a process that was fenced and writes again."""

import contextlib
import os
import sqlite3
import subprocess
import sys
import tempfile
import time

from check import run, same, true
from database import EXTENSION, TOKENS, code_of, connect, one, reader, uri
from service import (
    CLIENT,
    START_TABLE,
    TABLE,
    Peer,
    Proxy,
    Service,
    plain_environment,
    stopped,
    wire,
)
from vfs_forks import in_child

MOST_BYTES = 4294967295 * 8192


@contextlib.contextmanager
def environment(address, principal=2, **more):
    """Settings of the environment."""
    settings = {
        "TO": address,
        "ID": str(principal),
        "TOKEN": TOKENS[principal],
        "OP": "1",
        "OPTOKEN": TOKENS[1],
        **more,
    }
    settings = {f"PAGELOG_{name}": text for name, text in settings.items()}
    os.environ.update(settings)
    try:
        yield
    finally:
        for name in settings:
            del os.environ[name]


def opened(text):
    return sqlite3.connect(text, uri=True, isolation_level=None)


def error_of(action):
    """The name of an error, and its words."""
    try:
        action()
    except sqlite3.Error as error:
        return error.sqlite_errorname, str(error)
    return None, ""


def test_a_parameter_that_means_nothing_is_refused():
    with Service() as service:
        for more, code in (
            ({"chekc": 50}, "SQLITE_MISUSE"),
            ({"CHECK": 50}, "SQLITE_MISUSE"),
            ({"check": 50}, None),
            ({"check": 3600001}, "SQLITE_MISUSE"),
            ({"check": -1}, "SQLITE_MISUSE"),
            ({"patience": "99999999999999999999"}, "SQLITE_MISUSE"),
            ({"check": "0" * 300}, "SQLITE_MISUSE"),
            ({"cache": "private", "psow": 1}, None),
            ({"name": "n" * 255}, None),
            ({"name": "n" * 256}, "SQLITE_MISUSE"),
        ):
            same(more, code, code_of(lambda: connect(service.address, **more).close()))


def test_a_file_of_credentials_that_others_may_read_is_named():
    with tempfile.NamedTemporaryFile("w", suffix=".cred") as file:
        os.chmod(file.name, 0o644)
        same(
            "the sentence",
            ("SQLITE_PERM", f"pagelog: others may read {file.name}: chmod 600 {file.name}"),
            error_of(
                lambda: opened(f"file:test?vfs=pagelog&to=127.0.0.1:1&credentials={file.name}")
            ),
        )


def test_a_pragma_that_means_nothing_is_refused():
    with Service() as service:
        connection = connect(service.address)
        for text, code, words in (
            ("pagelog_check = -1", "SQLITE_MISUSE", "pagelog_check is a number from 0 to 3600000"),
            ("pagelog_check = 3600001", "SQLITE_MISUSE", "from 0 to 3600000"),
            ("pagelog_check = abc", "SQLITE_MISUSE", "from 0 to 3600000"),
            ("pagelog_spin = 1000001", "SQLITE_MISUSE", "from 0 to 1000000"),
            ("pagelog_async_commits = 65", "SQLITE_MISUSE", "from 0 to 64"),
            ("pagelog_lsn = 5", "SQLITE_MISUSE", "pagelog_lsn cannot be set"),
            ("pagelog_chekc", "SQLITE_ERROR", "no such pragma: pagelog_chekc"),
            ("pagelog_check = 3600000", None, ""),
        ):
            found = error_of(lambda: connection.execute(f"pragma {text}").fetchall())
            same(text, (code, True), (found[0], words in found[1]))
        same("the last one", "3600000", one(connection, "pragma pagelog_check"))


def test_a_database_has_one_name():
    """That by which a writer committed first; before a commit any is taken. Who has another name is refused before it fences
    anybody."""
    with Service() as service:
        with_name = lambda name, **more: code_of(
            lambda: connect(service.address, name=name, **more).close()
        )
        same("empty", (None, None), (with_name("shop"), with_name("blog")))
        writer = connect(service.address, name="shop")
        writer.execute("create table t(a)")
        same("in this process", "SQLITE_CANTOPEN", with_name("blog"))
        for principal in (2, 5):
            same(
                "in another",
                ["SQLITE_CANTOPEN"] * 2 + [None],
                in_child(
                    lambda: [
                        with_name("blog", principal=principal),
                        with_name("sho", principal=principal),
                        code_of(lambda: reader(service.address, name="shop")),
                    ]
                ),
            )
        same(
            "a reader",
            ("SQLITE_CANTOPEN", None),
            (
                code_of(lambda: reader(service.address, name="blog")),
                code_of(lambda: reader(service.address, name="shop")),
            ),
        )
        same("nobody was fenced", None, code_of(lambda: writer.execute("insert into t values (1)")))
        same(
            "of the past",
            "SQLITE_CANTOPEN",
            code_of(lambda: connect(service.address, 4, None, at=1, name="blog")),
        )
        for number in range(600):
            writer.execute("update t set a = ?", (number,))
        same(
            "also once its page was written as a whole",
            "SQLITE_CANTOPEN",
            code_of(lambda: reader(service.address, name="blog")),
        )
        writer.close()
        same("closed", ("SQLITE_CANTOPEN", None), (with_name("blog"), with_name("shop")))


def log_of(*uris, then=""):
    """What SQLite's log says where a shell opens these, one after the other, and then does more."""
    text = (
        f".log stdout\n.load {EXTENSION}\n" + "".join(f".open '{each}'\n" for each in uris) + then
    )
    preload = {"LD_PRELOAD": os.environ["LD_PRELOAD"]} if "LD_PRELOAD" in os.environ else {}
    return subprocess.run(
        ["sqlite3"],
        input=text,
        capture_output=True,
        text=True,
        timeout=120,
        env=plain_environment(ASAN_OPTIONS="detect_leaks=0", **preload),
    ).stdout


def shown_by_a_shell(text, **settings):
    """What the VFS writes to standard error there, beside the shell's own errors."""
    preload = {"LD_PRELOAD": os.environ["LD_PRELOAD"]} if "LD_PRELOAD" in os.environ else {}
    said = subprocess.run(
        ["sqlite3"],
        input=f".load {EXTENSION}\n{text}",
        capture_output=True,
        text=True,
        timeout=120,
        env=plain_environment(ASAN_OPTIONS="detect_leaks=0", **preload, **settings),
    ).stderr
    return [line for line in said.splitlines() if line.startswith("pagelog: ")]


def test_what_shows_no_message_writes_it_to_standard_error():
    """SQLite's shell does, once for what is said again, and who asks for it; not who shares a database and waits."""
    lists_nobody = "pagelog: denied: denied A1, value 0: the table does not list this principal with this token"
    counts = "pagelog: denied: there is no operator to ask for"
    with Service() as service:
        connect(service.address).execute("create table t(a)")
        wrong, right = uri(service.address, token="00" * 16), uri(
            service.address, 3, None, mode="ro"
        )
        text = f".open '{wrong}'\n.open '{right}'\n" + 3 * "pragma pagelog_entries;\n"
        for settings, shown in (
            ({}, [lists_nobody, counts]),
            ({"PAGELOG_ERRORS": "log"}, []),
            ({"PAGELOG_ERRORS": "stderr"}, [lists_nobody, counts]),
        ):
            same(settings, shown, shown_by_a_shell(text, **settings))
        same("of one URI", [], shown_by_a_shell(f".open '{wrong}&errors=log'\n"))
        program = "import sqlite3, sys\ntry: sqlite3.connect(sys.argv[1], uri=True)\nexcept sqlite3.Error as error: print(error)"
        subprocess.run(
            ["make", "-s", "-C", CLIENT, "out/pagelog_preload.so"],
            check=True,
            env=plain_environment(),
        )
        for more, shown in ("", f"{lists_nobody}\n"), ("&errors=log", ""):
            ran = subprocess.run(
                [sys.executable, "-c", program, wrong + more],
                capture_output=True,
                text=True,
                timeout=120,
                env=plain_environment(LD_PRELOAD=str(CLIENT / "out" / "pagelog_preload.so")),
            )
            same(
                f"a program that is not changed{more}",
                (f"{lists_nobody}\n", shown),
                (ran.stdout, ran.stderr),
            )


def test_another_name_is_told_with_that_of_the_database():
    """In SQLite's log, and to a connection that was open before by a pragma. What the other wrote there goes to no terminal."""
    with Service(dbs=2) as service:
        connect(service.address, name="shop").execute("create table t(a)")
        for who in (
            uri(service.address, 3, None, mode="ro", name="blog"),
            uri(service.address, name="blog"),
        ):
            true(
                f"both names: {log_of(who)}",
                "the database has the name shop, and not blog" in log_of(who),
            )
        early = reader(service.address, name="blog", db=1)
        connect(service.address, name="s\x1b" + 253 * "p", db=1).executescript(
            "create table t(a);" + 600 * "insert into t values (1);"
        )
        same(
            "of one that was open",
            "SQLITE_CANTOPEN",
            code_of(lambda: one(early, "select count(*) from t")),
        )
        same(
            "the pragma",
            f"malformed: the database has the name s?{253 * 'p'}, and not blog",
            one(early, "pragma pagelog_error"),
        )


def test_a_database_that_another_client_has_written_over():
    """Page 0, as an example of the library does it: who opens the database is told, and from where on it can still be read. Nobody is
    fenced for that."""
    from vfs_statements import mark, write_as_another

    with Service() as service:
        write_as_another(service.address, 1, (0, 0, mark(8)))
        said = log_of(uri(service.address))
        true(
            f"of another log: {said}",
            "page 0 says that a SQLite database ends at LSN 8, above LSN 1: the log is not its own"
            in said,
        )
    foreign = "page 0 was written by another client: this is no SQLite database; at={} still reads what was before"
    for data, is_known in ((b"hello", True), (bytes(39) + b"x", False)):
        with Service() as service:
            writer = connect(service.address, name="shop")
            writer.executescript("create table t(a); insert into t values (1)")
            lsn = int(one(writer, "pragma pagelog_lsn"))
            write_as_another(service.address, lsn + 1, (0, 0, data))
            openings = uri(service.address, 3, None, mode="ro", name="shop"), uri(
                service.address, name="shop"
            )
            said = log_of(*openings)
            same(f"told: {said}", 2, said.count(foreign.format(lsn if is_known else "LSN")))
            with service.operator() as operator:
                same("the epoch of its first writer", 2, operator.status()[0])
            past = connect(service.address, 3, None, at=lsn, name="shop")
            same(
                "what was before",
                (1, str(lsn)),
                (one(past, "select a from t"), one(past, "pragma pagelog_lsn")),
            )
            same(
                "who was open",
                ("SQLITE_NOTADB", True),
                (
                    code_of(lambda: one(writer, "select a from t")),
                    foreign.format(lsn) in one(writer, "pragma pagelog_error"),
                ),
            )


def test_a_plain_file_needs_its_own_vfs():
    """Of ATTACH and VACUUM INTO. Without it SQLite's log says how it is named."""
    with Service() as service, tempfile.TemporaryDirectory() as folder:
        where = uri(service.address)
        connection = connect(service.address)
        connection.executescript("create table t(a); insert into t values (7)")
        for number, words in enumerate(("vacuum into '{}'", "attach '{}' as other")):
            file = f"{folder}/{number}.db"
            same(words, "SQLITE_MISUSE", code_of(lambda: connection.execute(words.format(file))))
            said = log_of(where, then=words.format(file) + ";\n")
            true(
                f"{words}: {said}",
                f"{file} has no setting `to` or `where`; a plain file is opened as file:{file}?vfs=unix"
                in said,
            )
            same("it is not there", False, os.path.exists(file))
            connection.execute(words.format(f"file:{file}?vfs=unix"))
        same(
            "the copy",
            [(7,)],
            sqlite3.connect(f"{folder}/0.db").execute("select a from t").fetchall(),
        )
        connection.execute("create table other.u as select * from t")
        same(
            "the other",
            [(7,)],
            sqlite3.connect(f"{folder}/1.db").execute("select a from u").fetchall(),
        )


def test_a_database_without_a_name_takes_the_first():
    """As one of a client that knew no names, and one that a writer without a name has made."""
    with Service() as service:
        import binding

        with binding.File(service.address, 2, operator=1) as file:
            same(
                "commit",
                [binding.DONE] * 4,
                [file.open(), file.begin(), file.write(0, b"x"), file.commit()],
            )
            same(
                "size",
                (binding.DONE, binding.DONE, binding.DONE),
                (file.begin(), file.resize(0), file.commit()),
            )
        same("any", None, code_of(lambda: reader(service.address, name="blog")))
        connect(service.address, name="shop").execute("create table t(a)")
        same(
            "then one",
            ("SQLITE_CANTOPEN", None),
            (
                code_of(lambda: reader(service.address, name="blog")),
                code_of(lambda: reader(service.address, name="shop")),
            ),
        )


def test_attach_by_a_bare_name_with_settings_of_the_environment():
    """It is the same database, whose name is another one."""
    with Service() as service, environment(service.address):
        main = opened("file:main.db?vfs=pagelog")
        same(
            "before a commit",
            "SQLITE_CANTOPEN",
            code_of(lambda: main.execute("attach 'other.db' as other")),
        )
        main.execute("create table t(a)")
        same(
            "after it",
            "SQLITE_CANTOPEN",
            code_of(lambda: main.execute("attach 'other.db' as other")),
        )
        same("rows", 0, one(main, "select count(*) from t"))


def test_one_service_under_two_spellings_of_its_address():
    """Connections of one process share the database: none fences the other."""
    with Service(listen="127.0.0.1:0") as service:
        first = connect(service.address)
        first.execute("create table t(a)")
        second = connect(service.address.replace("127.0.0.1", "localhost"))
        for number, connection in enumerate((first, second, first)):
            connection.execute("insert into t values (?)", (number,))
        same(
            "one epoch",
            ("2", "2"),
            tuple(one(connection, "pragma pagelog_epoch") for connection in (first, second)),
        )
        same("one connection", "1", one(first, "pragma pagelog_connects"))


def take_over(address):
    """Another process, of the same principal, begins an epoch."""
    in_child(lambda: connect(address).execute("insert into t values ('other')").close())


def test_a_pool_that_was_fenced_writes_again():
    """An old connection stays open. A new one with an operator takes over for all of the process, one without does not; while
    another one reads, once that has ended."""
    with Service() as service:
        old, other = connect(service.address), connect(service.address)
        old.execute("create table t(a)")
        for is_reading in (False, True):
            take_over(service.address)
            insert = lambda connection: code_of(
                lambda: connection.execute("insert into t values ('own')")
            )
            same("fenced", "SQLITE_READONLY", insert(old))
            same(
                "without an operator", "SQLITE_READONLY", insert(connect(service.address, 2, None))
            )
            if is_reading:
                other.execute("begin")
                rows = one(other, "select count(*) from t")
            new = connect(service.address)
            if is_reading:
                same("not yet", "SQLITE_READONLY", insert(new))
                same("it reads on", rows, one(other, "select count(*) from t"))
                other.execute("commit")
            for connection in (new, old, other):
                same("writes", None, insert(connection))
            new.close()
        same(
            "rows",
            (2, 6),
            tuple(one(old, f"select count(*) from t where a = '{a}'") for a in ("other", "own")),
        )
        same("integrity", "ok", one(reader(service.address), "pragma integrity_check"))


def test_taking_over_by_hand():
    with Service() as service:
        connection, other = connect(service.address), connect(service.address)
        connection.execute("create table t(a)")
        take_over(service.address)
        same(
            "fenced",
            "SQLITE_READONLY",
            code_of(lambda: connection.execute("insert into t values (1)")),
        )
        other.execute("begin")
        one(other, "select count(*) from t")
        same(
            "others read",
            "SQLITE_BUSY",
            code_of(lambda: connection.execute("pragma pagelog_take_over")),
        )
        other.execute("commit")
        same("the epoch", "4", one(connection, "pragma pagelog_take_over"))
        connection.execute("insert into t values (2)")
        same("rows", [("other",), (2,)], other.execute("select a from t").fetchall())
        same(
            "a reader",
            "SQLITE_MISUSE",
            code_of(lambda: reader(service.address).execute("pragma pagelog_take_over")),
        )


def test_a_restarted_service_and_a_new_connection():
    """Old connections refuse for good. One that is opened after them has the new history, and writes it."""
    with Service() as service:
        old = connect(service.address, patience=1000)
        old.execute("create table t(a)")
        service.end()
        with Service(listen=service.address):
            same("old", "SQLITE_IOERR", code_of(lambda: one(old, "select count(*) from t")))
            new = connect(service.address, patience=1000)
            new.execute("create table u(a)")
            same("old", "SQLITE_IOERR", code_of(lambda: one(old, "select count(*) from t")))
            same("new", 0, one(new, "select count(*) from u"))


def test_a_vfs_on_top_that_makes_names_of_its_own():
    """It opens the database and its journal by names that SQLite knows nothing of."""
    loader = sqlite3.connect(":memory:")
    loader.enable_load_extension(True)
    loader.load_extension(str(CLIENT / "out" / "checked" / "stacked.so"))
    with Service() as service, environment(service.address):
        connection = opened("file:shop?vfs=stacked")
        connection.execute("create table t(a)")
        connection.execute("begin")
        connection.execute("insert into t values (1)")
        connection.execute("rollback")
        connection.execute("insert into t values (2)")
        same("rows", [(2,)], connection.execute("select a from t").fetchall())
        connection.close()


def test_an_end_mark_whose_size_no_log_can_have():
    """It is none: each page of a file has a record of its own in the log. Nobody opens the database, nor sends zeros for hours."""
    from vfs_statements import mark, write_as_another

    with Service(dbs=2) as service:
        for db, size in enumerate((MOST_BYTES, 6554 * 8192)):
            write_as_another(service.address, 1, (0, 0, mark(1, size)), database=db)
            same(
                size,
                ["SQLITE_NOTADB"] * 2,
                [
                    code_of(lambda: reader(service.address, db=db)),
                    code_of(lambda: connect(service.address, db=db)),
                ],
            )


def test_a_list_that_fills_is_warned_of():
    """In SQLite's log, as the shell shows it, and by pragmas, each of which takes some 24 entries. Once it is full the error is
    another one than that of a service without memory."""
    with Service(audit=2000) as service:
        connection = connect(service.address, audit=2000)
        count, left = (
            int(one(connection, f"pragma pagelog_{name}")) for name in ("entries", "entries_left")
        )
        true(f"{count} and {left}", 20 < count < 60 and 2000 - 60 < count + left <= 2000)
        connection.execute("create table t(a)")
        same(
            "a reader",
            "SQLITE_PERM",
            code_of(lambda: reader(service.address).execute("pragma pagelog_entries")),
        )
        said = []
        for rows in (300, 150):
            connection.executescript("insert into t values (1);" * rows)
            connection.close()
            text = f".log stdout\n.load {EXTENSION}\n.open '{uri(service.address, audit=2000)}'\nselect count(*) from t;\n"
            preload = {"LD_PRELOAD": os.environ["LD_PRELOAD"]} if "LD_PRELOAD" in os.environ else {}
            said.append(
                subprocess.run(
                    ["sqlite3"],
                    input=text,
                    capture_output=True,
                    text=True,
                    timeout=120,
                    env=plain_environment(ASAN_OPTIONS="detect_leaks=0", **preload),
                ).stdout
            )
            connection = connect(service.address)
        same(
            f"warned {said}",
            [False, True],
            ["nine tenths of the audit list" in text for text in said],
        )
        codes = set()
        while not codes:
            try:
                connection.execute("insert into t values (1)")
            except sqlite3.Error as error:
                codes.add(error.sqlite_errorcode)
        same("full", {13 + 256}, codes)
    peer = Peer()
    with Service() as service, Proxy(service.address, between=peer) as proxy:
        connection = connect(proxy.address, patience=200)
        connection.execute("create table t(a)")
        peer.body = b"\6"
        same("no memory", "SQLITE_FULL", code_of(lambda: connection.execute("select * from t")))


def test_what_is_in_doubt_where_nothing_was_promised():
    """A repair, at BEGIN and at an open, that is not known to be in the log: an error, and not of a COMMIT. After a COMMIT in doubt
    the words of its rollback do not take the place of its own."""
    from vfs_statements import write_as_another

    is_armed, is_away = [False], [False]

    def between(frame):
        is_away[0] = is_away[0] or is_armed[0] and frame[33] == wire.REPORT
        return None if is_away[0] else frame

    with Service() as service, Proxy(service.address, between=between) as proxy:
        writer = connect(proxy.address, patience=200)
        writer.executescript("create table t(a); insert into t values (1);")
        write_as_another(
            service.address, int(one(writer, "pragma pagelog_end")) + 1, (2, 100, b"other")
        )
        is_armed[0] = True
        same("at BEGIN", "SQLITE_IOERR", code_of(lambda: writer.execute("begin immediate")))
        writer.close()
        is_away[0] = False
        with service.operator() as operator:
            operator.failover(2)
        write_as_another(service.address, service_end(service) + 1, (2, 100, b"again"))
        same("at an open", "SQLITE_CANTOPEN", code_of(lambda: connect(proxy.address, patience=200)))
        is_armed[0] = is_away[0] = False
        writer = connect(proxy.address, patience=200, check=3600000)
        is_armed[0] = True
        same(
            "of a COMMIT",
            "SQLITE_IOERR_FSYNC",
            code_of(lambda: writer.execute("insert into t values (2)")),
        )
        same("why", "in doubt", one(writer, "pragma pagelog_error").split(":")[0])


def test_waits_end_with_the_busy_timeout():
    """A statement, a COMMIT whose requests have left, and the time to connect again: by `timeout` and `patience` each would take
    minutes. What was in doubt is looked for once the service answers."""
    more = {"timeout": 600000, "patience": 600000, "busy": 0.2}
    with Service() as service:
        writer, follower = connect(service.address, **more), reader(service.address, **more)
        writer.execute("create table t(a)")
        same("rows", 0, one(follower, "select count(*) from t"))
        start = time.monotonic()
        with stopped(service):
            for text in ("select count(*) from t", "insert into t values (0)"):
                for connection in (writer, follower)[: 1 + text.startswith("select")]:
                    same(text, "SQLITE_IOERR", code_of(lambda: connection.execute(text)))
        writer.execute("pragma pagelog_check = 3600000")
        same("goes on", 0, one(writer, "select count(*) from t"))
        writer.execute("begin immediate")
        writer.execute("insert into t values (1)")
        with stopped(service):
            same("a COMMIT", "SQLITE_IOERR_FSYNC", code_of(lambda: writer.execute("commit")))
        true("soon", time.monotonic() - start < 300)
        rows = writer.execute("select a from t").fetchall()
        same(
            "as a reader sees it",
            rows,
            reader(service.address).execute("select a from t").fetchall(),
        )
        writer.execute("insert into t values (2)")
        same("and on", rows + [(2,)], follower.execute("select a from t").fetchall())


def test_a_connection_without_a_busy_timeout_goes_by_its_own():
    with Service() as service:
        writer = connect(service.address, busy=0, timeout=3000, patience=1)
        writer.execute("create table t(a)")
        with stopped(service):
            start = time.monotonic()
            same(
                "a statement",
                "SQLITE_IOERR",
                code_of(lambda: writer.execute("select count(*) from t")),
            )
            true("not before", time.monotonic() - start >= 3)


def test_a_writer_that_is_overtaken_while_it_opens():
    """Another epoch begins right after its failover: it opens, reads, and writes nothing until it takes over again. One that may
    not read is refused."""
    for table, code in ((TABLE, None), (START_TABLE, "SQLITE_READONLY")):
        is_armed = [True]

        def between(frame):
            if is_armed[0] and frame[33] == wire.STATUS and frame[24] == wire.PRIMARY:
                is_armed[0] = False
                with service.operator() as operator:
                    operator.failover(3)
            return frame

        with Service(table=table) as service, Proxy(service.address, between=between) as proxy:
            same("open", code, code_of(lambda: connect(proxy.address).close()))
            is_armed[0] = True
            if code is None:
                writer = connect(proxy.address)
                same(
                    "fenced",
                    "SQLITE_READONLY",
                    code_of(lambda: writer.execute("create table t(a)")),
                )
                same("taken over", "6", one(writer, "pragma pagelog_take_over"))
                writer.execute("create table t(a)")


def test_the_words_of_a_commit_in_doubt_stay():
    """SQLite ends its rollback by a commit, in which pages of the free list differ, that no journal has. It is refused."""
    is_armed, is_away = [False], [False]

    def between(frame):
        is_away[0] = is_away[0] or is_armed[0] and frame[33] == wire.REPORT
        return None if is_away[0] else frame

    with Service() as service, Proxy(service.address, between=between) as proxy:
        writer = connect(proxy.address, patience=200, check=3600000)
        writer.execute("create table t(a integer primary key, b)")
        writer.executemany(
            "insert into t values (?, randomblob(7000))", [(number,) for number in range(40)]
        )
        writer.execute("delete from t where a > 5")
        writer.execute("begin immediate")
        writer.executemany(
            "insert into t values (?, randomblob(7000))", [(number,) for number in range(10, 30)]
        )
        is_armed[0] = True
        same("in doubt", "SQLITE_IOERR_FSYNC", code_of(lambda: writer.execute("commit")))
        same("why", "in doubt", one(writer, "pragma pagelog_error").split(":")[0])


def service_end(service):
    with service.operator() as operator:
        return operator.status()[2]


if __name__ == "__main__":
    run("vfs settings", globals())
