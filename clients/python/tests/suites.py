"""Other projects' tests over named databases, see scripts/suites."""

from __future__ import annotations

import itertools
import json
import os
import re
import signal
import subprocess
import sys
import threading
import time
from collections import Counter
from dataclasses import dataclass, field
from pathlib import Path
from typing import Callable, Iterator, Mapping, Sequence

HERE = Path(__file__).resolve().parent
sys.path[:0] = [str(HERE), str(HERE.parent / "src")]

from keepers import Keeping, new_url  # noqa: E402
from pagelog import PagelogError  # noqa: E402
from service import token  # noqa: E402
from sqlite_named import C, load  # noqa: E402

TTL = 1.5
EACH = float(os.environ.get("SUITES_EACH", "3"))
"""Seconds between two faults."""
ROUNDS = 12
"""How often a suite is run at most, until each kind of fault has come."""
LONGEST = 3600.0
SCRIPT_LONGEST = 600.0
"""Seconds that a suite may take, and one script of SQLite's."""
DJANGO = """aggregation aggregation_regress annotations backends basic bulk_create cache case_when conditional_processing constraints
custom_columns custom_lookups custom_managers custom_pk dates datetimes db_functions db_typecasts db_utils dbshell defer defer_regress
delete delete_regress distinct_on_fields empty expressions expressions_case expressions_window extra_regress field_defaults
filtered_relation fixtures fixtures_model_package fixtures_regress force_insert_update foreign_object from_db_value generic_relations
generic_relations_regress get_earliest_or_latest get_object_or_404 get_or_create indexes inspectdb introspection known_related_objects
lookup m2m_and_m2o m2m_intermediary m2m_multiple m2m_recursive m2m_regress m2m_signals m2m_through m2m_through_regress m2o_recursive
many_to_many many_to_one many_to_one_null max_lengths migrate_signals migration_test_data_persistence migrations migrations2
model_enums model_fields model_inheritance model_inheritance_regress model_indexes model_meta model_options model_regress
multiple_database mutually_referential nested_foreign_keys null_fk null_fk_ordering null_queries one_to_one or_lookups order_with_respect_to
ordering prefetch_related properties proxy_model_inheritance proxy_models queries queryset_pickle raw_query reserved_names reverse_lookup
save_delete_hooks schema select_for_update select_related select_related_onetoone select_related_regress serializers servers sessions_tests
signals sites_tests str string_lookup swappable_models test_runner test_utils timezones transaction_hooks transactions
unmanaged_models update update_only_fields validation xor_lookups""".split()
SCRIPTS = """analyze autoinc between bigrow blob boundary1 cast check coalesce collate1 collate2 collate3 collate4 collate5
conflict conflict2 count cse date default delete delete2 descidx1 distinct e_createtable e_delete e_insert e_reindex e_select2 e_update
fkey1 fkey2 fkey3 func2 in in2 in3 index index3 insert insert2 insert3 insert4 insert5 intpkey join join2 join3 join5 json101 lastinsert
like limit minmax misc2 misc3 notnull null orderby1 printf quote rowid savepoint savepoint2 select1 select2 select3 select4 select5 select6
select7 select8 subquery subselect temptable trans trigger1 trigger2 trigger3 trigger4 trigger5 unique update update2 upsert1 upsert2 view
where where2 where3 window1 with1 with2 without_rowid1 without_rowid3""".split()


@dataclass
class Outcomes:
    """Of one suite at one place: each test's, and how it ended."""

    of: dict[str, str] = field(default_factory=dict)
    why: dict[str, str] = field(default_factory=dict)
    status: int = 0
    seconds: float = 0.0

    def take(self, plain: Outcomes, other: Outcomes) -> None:
        """Those of one more round: of a test the one that is not as `plain` has it, where there is one."""
        for test in {*plain.of, *other.of}:
            outcome = other.of.get(test, "not run")
            if test not in self.of or self.of[test] == plain.of.get(test):
                self.of[test], self.why[test] = outcome, other.why.get(test, "")
        self.status = self.status or other.status
        self.seconds += other.seconds

    def counts(self) -> str:
        """How many of each."""
        return ", ".join(
            f"{count} {outcome}" for outcome, count in sorted(Counter(self.of.values()).items())
        )


class Faults(threading.Thread):
    """Successions, switchovers and kills of services and keepers, one after the other, as long as a suite runs."""

    def __init__(self, keeping: Keeping, names: Sequence[str]) -> None:
        super().__init__(daemon=True)
        self._keeping, self._names = keeping, names
        self._over = threading.Event()
        self.done: Counter[str] = Counter()

    def run(self) -> None:
        deeds: Iterator[Callable[[], None]] = itertools.cycle(
            (self.succession, self.switchover, self.kill_service, self.kill_keeper)
        )
        while not self._over.wait(EACH):
            deed = next(deeds)
            try:
                deed()
            except (AssertionError, OSError, PagelogError) as error:
                self.done[f"{deed.__name__} that was refused"] += 1
                print(f"  {deed.__name__}: {error}", file=sys.stderr)

    def end(self) -> None:
        self._over.set()
        self.join()

    @property
    def is_each_done(self) -> bool:
        """Whether each kind has come."""
        return all(
            self.done[kind]
            for kind in ("successions", "switchovers", "kills of a service", "kills of a keeper")
        )

    def _ask(self, subcommand: str, what: str) -> None:
        """Calls it for each database, all at once."""
        keeping, called = self._keeping, []
        for name in self._names:
            words = [
                sys.executable,
                "-B",
                "-m",
                "pagelog",
                subcommand,
                name,
                "--credentials",
                str(keeping.file),
            ]
            called.append(
                subprocess.Popen(
                    words,
                    env=keeping.environment,
                    stdout=subprocess.DEVNULL,
                    stderr=subprocess.DEVNULL,
                )
            )
        for process in called:
            self.done[what if process.wait() == 0 else f"{what} that were refused"] += 1

    def succession(self) -> None:
        self._ask("rollover", "successions")

    def switchover(self) -> None:
        self._ask("switchover", "switchovers")

    def kill_service(self) -> None:
        for name in self._names:
            os.kill(self._keeping.pid(name), signal.SIGKILL)
            self.done["kills of a service"] += 1

    def kill_keeper(self) -> None:
        holder = str(self._keeping.row(self._names[0]).holder)
        self._keeping.kill(holder)
        self.done["kills of a keeper"] += 1
        self._keeping.start(holder)


@dataclass(frozen=True)
class Suite:
    """Tests of another project. `files` are those that are databases, by the beginning of their name."""

    name: str
    files: Mapping[str, str]
    words: Callable[[Path, Sequence[str]], list[str]]
    folder: Callable[[Path], Path]

    @property
    def databases(self) -> list[str]:
        return list(dict.fromkeys(name for names in self.files.values() for name in names.split()))

    def run(self, sources: Path, folder: Path, uri: str, only: Sequence[str]) -> Outcomes:
        """Runs it, with its databases at this URI."""
        noted = folder / f"{self.name}.outcomes"
        noted.write_text("")
        environment = {
            **os.environ,
            "PYTHONPATH": os.pathsep.join((str(HERE / "suites"), *self._paths(sources))),
            "PYTHONDONTWRITEBYTECODE": "1",
            "SUITE_FILES": json.dumps(self.files),
            "SUITE_URI": uri,
            "SUITE_OUTCOMES": str(noted),
            "SUITE_EXTENSION": str(C / "pagelog_vfs.so") if "vfs=pagelog" in uri else "",
        }
        began = time.monotonic()
        with (folder / f"{self.name}.log").open("w") as log:
            words = self.words(sources, only)
            try:
                status = subprocess.run(
                    words,
                    cwd=self.folder(sources),
                    env=environment,
                    stdin=subprocess.DEVNULL,
                    stdout=log,
                    stderr=log,
                    timeout=LONGEST,
                ).returncode
            except subprocess.TimeoutExpired:
                status = -1
        found = Outcomes(status=status, seconds=time.monotonic() - began)
        for line in noted.read_text().splitlines():
            test, outcome, why = json.loads(line)
            if found.of.get(test) in (None, "Success", "passed"):
                found.of[test], found.why[test] = outcome, why
        return found

    def _paths(self, sources: Path) -> list[str]:
        return [str(sources / "django"), str(sources / "python")]


def _python_words(sources: Path, only: Sequence[str]) -> list[str]:
    return [sys.executable, "-B", "-m", "unittest", "-v", *(only or ["test.test_sqlite3"])]


def _django_words(sources: Path, only: Sequence[str]) -> list[str]:
    there = [
        name
        for name in only or DJANGO
        if (sources / "django" / "tests" / name.partition(".")[0]).is_dir()
    ]
    return [
        sys.executable,
        "-B",
        "-W",
        "ignore",
        "runtests.py",
        "--settings=django_settings",
        "--parallel=1",
        "-v1",
        *there,
    ]


def _sqlalchemy_words(_: Path, only: Sequence[str]) -> list[str]:
    return [
        sys.executable,
        "-B",
        "-m",
        "pytest",
        "-q",
        "-p",
        "no:cacheprovider",
        *only,
        "suite_of_sqlalchemy.py",
    ]


SUITES = {
    suite.name: suite
    for suite in (
        Suite(
            "python",
            {":memory:": "m0 m1 m2 m3 m4 m5", "@test_": "file"},
            _python_words,
            lambda sources: sources / "scratch",
        ),
        Suite(
            "django",
            {"default.suite": "default", "other.suite": "other"},
            _django_words,
            lambda sources: sources / "django" / "tests",
        ),
        Suite(
            "sqlalchemy",
            {"main.suite": "main", "pysqlite_test_schema.db": "schema"},
            _sqlalchemy_words,
            lambda _: HERE / "suites",
        ),
    )
}


# SQLite's own scripts.


def script_outcomes(text: str) -> tuple[dict[str, str], dict[str, str]]:
    """What a script says of each of its tests, and what those that fail had in place of what was expected. A number that a test has
    behind its name is drawn at random."""
    found: dict[str, str] = {}
    why: dict[str, str] = {}
    test = ""
    for line in text.splitlines():
        if match := re.match(r"^(\S+?)(?:-\d{3,})?\.\.\.(.*)$", line):
            found[match[1]] = "passed" if match[2].endswith("Ok") else "failed"
            test = match[1]
        elif line.startswith("Error: "):
            why[test] = line
        elif match := re.match(r"^! (\S+?)(?:-\d{3,})? (expected|got): +(.*)$", line):
            found[match[1]] = "failed"
            why[match[1]] = match[3][:160]
    return found, why


def run_scripts(sources: Path, folder: Path, where: str, only: Sequence[str]) -> Outcomes:
    """Runs SQLite's scripts, over named databases t0 to t3, or over files where `where` is empty."""
    found, began = Outcomes(), time.monotonic()
    fixture, tests = sources / "sqlite3" / "bld" / "testfixture", sources / "sqlite3" / "test"
    scratch = folder / "scripts"
    scratch.mkdir(exist_ok=True)
    for script in only or SCRIPTS:
        path = tests / f"{script}.test"
        words = [str(fixture), str(path), "--verbose=1"]
        if where:
            words = [
                str(fixture),
                str(C / "tests" / "prelude.tcl"),
                str(C / "pagelog_vfs.so"),
                f"where={where}",
                str(path),
                "--verbose=1",
            ]
        try:
            done = subprocess.run(
                words,
                cwd=scratch,
                capture_output=True,
                text=True,
                errors="replace",
                timeout=SCRIPT_LONGEST,
                stdin=subprocess.DEVNULL,
            )
            text, status = done.stdout + done.stderr, done.returncode
        except subprocess.TimeoutExpired as error:
            text, status = (error.stdout or b"").decode(errors="replace"), -1
        (folder / f"{script}.log").write_text(text)
        outcomes, why = script_outcomes(text)
        found.of.update({f"{script}: {test}": outcome for test, outcome in outcomes.items()})
        found.why.update({f"{script}: {test}": reason for test, reason in why.items()})
        if "errors out of" not in text:
            found.of[
                f"{script}: its end"
            ] = f"none, status {status}: {text.strip().splitlines()[-1:] or ''}"
    found.seconds = time.monotonic() - began
    return found


# The run.


def differences(plain: Outcomes, named: Outcomes) -> list[str]:
    """Each test that had another outcome."""
    found = []
    for test in sorted({*plain.of, *named.of}):
        if (one := plain.of.get(test, "not run")) != (other := named.of.get(test, "not run")):
            found.append(f"{test}: {one} on a file, {other}: {named.why.get(test, '')}")
    return found


def uri_of(keeping: Keeping) -> str:
    return (
        f"file:NAME?vfs=pagelog&where={','.join(keeping.addresses)}&name=NAME&id=2&token={token(2)}&op=1&optoken={token(1)}"
        f"&errors=log"
    )


def play(name: str, sources: Path, logs: Path, only: Sequence[str]) -> list[str]:
    """One suite, on files, and on named databases beside faults. Prints what came of it, and returns the differences."""
    databases = SUITES[name].databases if name in SUITES else [f"t{number}" for number in range(4)]
    folders = {kind: logs / f"{name}-{kind}" for kind in ("plain", "named")}
    for folder in folders.values():
        folder.mkdir(parents=True, exist_ok=True)
        for file in folder.glob("*.database*"):
            file.unlink()
    if name in SUITES:
        plain = SUITES[name].run(
            sources, folders["plain"], f"file:{folders['plain']}/NAME.database", only
        )
    else:
        plain = run_scripts(sources, folders["plain"], "", only)
    print(
        f"{name}: on files: {plain.counts()}; status {plain.status}, {plain.seconds:.0f} s",
        flush=True,
    )
    with Keeping(ttl=TTL, url=new_url()) as keeping:
        for database in databases:
            keeping.word("create", database, "--table", keeping.table)
        keeping.start("a", "b")
        for database in databases:
            keeping.place(database)
        faults = Faults(keeping, databases)
        faults.start()
        try:
            named, rounds = Outcomes(), 0
            while rounds < ROUNDS and not (rounds and faults.is_each_done):
                rounds += 1
                if name in SUITES:
                    named.take(
                        plain, SUITES[name].run(sources, folders["named"], uri_of(keeping), only)
                    )
                else:
                    named.take(
                        plain,
                        run_scripts(sources, folders["named"], ",".join(keeping.addresses), only),
                    )
        finally:
            faults.end()
        (folders["named"] / "keepers.log").write_text(keeping.said())
    print(
        f"{name}: named, {rounds} times: {named.counts()}; status {named.status}, {named.seconds:.0f} s"
    )
    print(
        f"  meanwhile {', '.join(f'{count} {what}' for what, count in sorted(faults.done.items())) or 'nothing'}, over {len(databases)} databases"
    )
    found = differences(plain, named)
    same = len({*plain.of, *named.of}) - len(found)
    print(f"  {same} the same, {len(found)} another outcome", *found, sep="\n  ", flush=True)
    return found


def main(words: Sequence[str]) -> int:
    sources, logs = Path(os.environ["SUITES"]), Path(os.environ["SUITES"]) / "logs"
    (sources / "scratch").mkdir(exist_ok=True)
    load()
    names = [words[0]] if words else [*SUITES, "sqlite"]
    found = [play(name, sources, logs, words[1:]) for name in names]
    return 1 if any(found) else 0


if __name__ == "__main__":
    sys.exit(main(sys.argv[1:]))
