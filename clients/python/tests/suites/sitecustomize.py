"""Leads the databases of another project's tests to named ones, or to plain files beside them: see scripts/suites.

Python imports it in each process of such a suite, as its folder is in PYTHONPATH. It knows by SUITE_FILES which file names are databases,
and what follows is in SUITE_URI: the URI of one, in which NAME stands for its name. Outcomes of tests are written to SUITE_OUTCOMES.
"""

from __future__ import annotations

import itertools
import json
import os
import re
import sqlite3
import sqlite3.dbapi2
import time
import unittest
from typing import Any, Callable

_FILES: dict[str, str] = json.loads(os.environ.get("SUITE_FILES", "{}"))
"""The name of the database of each file whose name begins so; `:memory:` has several names, which are given in turn."""
_URI = os.environ.get("SUITE_URI", "")
_ATTACH = re.compile(r"""(attach\s+(?:database\s+)?)["']([^"']+)["']""", re.IGNORECASE)
_connect, _unlink = sqlite3.connect, os.unlink
_turns = itertools.count()
_open: list[sqlite3.Connection] = []
"""Connections to `:memory:` of the test that runs."""
_OUTCOMES = ("Success", "Error", "Failure", "Skip", "ExpectedFailure", "UnexpectedSuccess")


def _name_of(file: object) -> str | None:
    """The database of a file that a test names, if it is one."""
    if not isinstance(file, str):
        return None
    base = os.path.basename(file.removeprefix("file:").partition("?")[0])
    return next(
        (name for start, name in _FILES.items() if start != ":memory:" and base.startswith(start)),
        None,
    )


def _uri_of(name: str, file: str = "") -> str:
    return _URI.replace("NAME", name) + ("&mode=ro" if "mode=ro" in file else "")


class InUse(Exception):
    """Another connection is in a transaction of it."""


def _go_on(status: int, _: int, __: int) -> None:
    """Python repeats a step for ever that finds the database locked."""
    if status not in (0, 101):
        raise InUse


def make_empty(name: str, patience: float = 60.0) -> None:
    """As a file that is deleted: what it has is replaced by a database without anything. Raises `InUse`."""
    target, nothing = _connect(
        _uri_of(name), uri=True, timeout=patience, isolation_level=None
    ), _connect(":memory:")
    try:
        target.execute("BEGIN EXCLUSIVE")
        is_empty = (
            target.execute("SELECT count(*) FROM sqlite_master").fetchone()
            == target.execute("PRAGMA user_version").fetchone()
            == (0,)
        )
        target.execute("ROLLBACK")
        if not is_empty:
            nothing.backup(target, progress=_go_on)
    except sqlite3.OperationalError as error:
        raise InUse(str(error)) from error
    finally:
        nothing.close()
        target.close()


def _free(names: list[str]) -> str:
    """One of these, which is empty, and in which nobody is in a transaction."""
    for _ in range(100):
        name = names[next(_turns) % len(names)]
        try:
            make_empty(name, 0.0)
            return name
        except InUse:
            time.sleep(0.01)
    raise InUse(", ".join(names))


class Connection(sqlite3.Connection):
    """One whose ATTACH of a file that is a database here takes that one."""

    def execute(self, statement: str, *arguments: Any) -> sqlite3.Cursor:
        found = _ATTACH.match(statement.strip()) if isinstance(statement, str) else None
        name = _name_of(found[2]) if found else None
        if found and name is not None:
            statement = f"{found[1]}'{_uri_of(name)}'{statement.strip()[found.end():]}"
        return super().execute(statement, *arguments)


def connect(database: Any, *arguments: Any, **named: Any) -> sqlite3.Connection:
    """As sqlite3.connect."""
    name = _name_of(database)
    if database == ":memory:" and (names := _FILES.get(":memory:", "").split()):
        name = _free(names)
    if name is None:
        return _connect(database, *arguments, **named)
    if "pysqlite_test_schema.db" in _FILES:
        named.setdefault("factory", Connection)
    made = _connect(_uri_of(name, database), *arguments[:6], **{**named, "uri": True})
    if database == ":memory:":
        _open.append(made)
    return made


def _closing(stop: Callable[..., None]) -> Callable[..., None]:
    """What a test has left open in memory is no other's."""

    def stopped(result: unittest.TestResult, test: unittest.TestCase) -> None:
        stop(result, test)
        while _open:
            try:
                _open.pop().close()
            except sqlite3.Error:
                pass  # it is of another thread, or its class has not made it whole

    return stopped


def unlink(path: Any, *arguments: Any, **named: Any) -> None:
    """As os.unlink, of a database."""
    name = _name_of(path)
    if name is None:
        return _unlink(path, *arguments, **named)
    make_empty(name)


def _note(outcome: str, add: Callable[..., None]) -> Callable[..., None]:
    def noted(result: unittest.TestResult, test: unittest.TestCase, *more: Any) -> None:
        why = (
            str(more[0][1] if isinstance(more[0], tuple) else more[0])
            if more and more[0] is not None
            else ""
        )
        note(test.id(), outcome, why)
        add(result, test, *more)

    return noted


def note(test: str, outcome: str, why: str = "") -> None:
    """Writes the outcome of a test."""
    with open(os.environ["SUITE_OUTCOMES"], "a") as file:
        file.write(json.dumps([test, outcome, why[:300]]) + "\n")


def _install() -> None:
    if extension := os.environ.get("SUITE_EXTENSION"):
        loader = _connect(":memory:")
        loader.enable_load_extension(True)
        loader.load_extension(extension)
        loader.close()
    sqlite3.connect = sqlite3.dbapi2.connect = connect  # type: ignore[assignment]
    os.unlink = os.remove = unlink  # type: ignore[assignment]
    for outcome in _OUTCOMES:
        method = f"add{outcome}"
        setattr(unittest.TestResult, method, _note(outcome, getattr(unittest.TestResult, method)))
    sub = unittest.TestResult.addSubTest

    def add_sub(result: Any, test: Any, subtest: Any, error: Any) -> None:
        if error is not None:
            note(
                subtest.id(),
                "Failure" if issubclass(error[0], test.failureException) else "Error",
                str(error[1]),
            )
        sub(result, test, subtest, error)

    unittest.TestResult.addSubTest = add_sub  # type: ignore[method-assign]
    unittest.TestResult.stopTest = _closing(unittest.TestResult.stopTest)  # type: ignore[method-assign]


if _URI:
    _install()
