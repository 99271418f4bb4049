"""Runs the tests part by part: a line for each, and a count at the end. Called by the script `test` beside this folder."""

from __future__ import annotations

import importlib
import os
import re
import resource
import shutil
import signal
import subprocess
import sys
import tempfile
import time
import unittest
from pathlib import Path

sys.path.insert(0, str(Path(__file__).resolve().parent.parent / "src"))

PATIENCE = (
    3600
    if os.environ.get("PAGELOG_TEST_LONG")
    else 2 * int(os.environ.get("PAGELOG_TEST_PATIENCE", "300"))
)
"""How many seconds a test may take before it is taken to hang. Most take less than one where the machine is idle."""
PARTS = {
    "test_bytes": "blocks, requests and replies against the trial and the pages",
    "test_replies": "every reply, rule and fault of the service",
    "test_service_protocol": "the service's protocol without IO, and its drivers",
    "test_connection": "connections that are cut, silent or refused",
    "test_trust": "TLS: who is refused, and peers that do as they like",
    "test_bounds": "peers that are no service, threads and forks",
    "test_primary": "commits and epochs",
    "test_doubts": "blocks whose replies were lost",
    "test_histories": "a service that was restarted and restored",
    "test_reader": "readers, page servers and operators",
    "test_credentials": "credentials",
    "test_archive": "archives, whole up to their LSN",
    "test_engine": "the databases of archives, by their drivers",
    "test_care": "damaged archives, and files and URLs that are wrong",
    "test_ends": "what fills, hangs or is told to end",
    "test_followers": "archivers that are killed, cut off and told to end",
    "test_restore": "restore and verify",
    "test_moving": "moves",
    "test_words": "what subcommands delete, and what they say of what is not there",
    "test_waiting": "services that wait for their restore, and the tables of fences",
    "test_zones": "six copies, and rows that end at an LSN",
    "test_trail": "trails of audit lists, kept and asked",
    "test_replay": "trails decided again by the reference model",
    "test_verify": "trails exported, and verified by pagelog-verify",
    "test_at_rest": "trails and archives: times, missing pieces, and names that are given again",
    "test_console": "the console: its JSON, its events, and who may look",
    "test_console_board": "what the console makes of its looks, and browsers that take nothing",
    "test_console_page": "the console's page in a browser",
    "test_alerts": "alert rules, and scrapes where something hangs",
    "test_looking": "status, top, audit and metrics",
    "test_explaining": "explain, and help",
    "test_identity": "names that are used again, numbers that come again",
    "test_lines": "the words of docs/LINES.md",
    "test_mixed": "keepers and clients of 0.1.0 beside these",
    "test_seeds": "what others may send: the seeds of the fuzz targets",
    "test_upon": "commits upon what is not durable yet",
    "test_orders": "a named writer in many orders of deaths and other writers",
    "test_named": "writers and readers of named databases, without keepers",
    "test_readers": "how old what a reader sees may be",
    "test_keepers": "named databases under a keeper",
    "test_group": "threads that share a writer of a named database",
    "test_changes": "tables and tokens of named databases that change",
    "test_successions": "successions, from images at the same positions",
    "test_top": "a live page of named databases",
    "test_standbys": "standbys, switchovers, and keepers that are gone",
    "test_attacks": "doubts, hangs and interrupts of keepers and of their clients",
    "test_kept_trails": "trails of named databases",
    "test_lives": "keepers that end, begin, and take a folder",
    "test_set_back": "a PostgreSQL that is set back before or behind a statement",
    "test_rescue": "what is saved of a database that PostgreSQL has lost",
    "test_strangers": "what one can do to keepers who has no token",
    "test_grants": "PostgreSQL with least privilege",
    "test_sealed": "tables of principals that are sealed",
    "test_proofs": "lines that are bound to a principal",
    "test_fast_path": "the fast path of a hot database, which is a thread of C",
    "test_looks": "looks at services, without a thread each",
    "test_fronts": "the front that speaks TLS before the services of a keeper",
    "test_secured": "keepers and clients by TLS",
    "test_to_tls": "the steps from plain to TLS, and back, beneath writers",
    "test_tapped": "what a wiretap hears at public sockets",
    "test_runs": "a run of a service, its tokens and its process",
    "test_runner": "services that run as another user than their keeper",
    "test_repeating": "waits between repetitions, and how often they are said",
    "test_many": "keepers of very many databases",
    "test_machine": "what a keeper decides",
    "test_house": "what the source keeps to",
    "test_meanwhile": "what changes while a keeper waits for something",
    "test_idle": "what a look at an idle database costs, and what ends that",
    "test_beginnings": "what changes while a service is filled, adopted, or follows",
    "test_turns": "whose turn it is to write",
    "test_fast_turns": "the thread that gives turns",
    "test_postgresql_page": "the commands of docs/POSTGRESQL.md, as they are printed",
    "test_pages": "page servers beside the service",
    "test_pages_compared": "page servers beside one another",
    "test_pages_reads": "page servers of a database whose reads are audited",
    "test_pages_rotten": "page servers whose files rot",
    "test_pages_secured": "page servers by TLS",
    "test_pages_sqlite": "SQLite at page servers",
    "test_pages_nearest": "readers beside a service that ask page servers for pages",
    "test_tasks_page": "the commands of docs/TASKS.md, as they are printed",
    "test_disks": "what durable means as PostgreSQL loses its standby, its leader, or room",
    "test_soak": "named databases that live on for a while",
    "test_administered": "the check of the torture of administration",
    "test_images": "images of pages, and blocks of them",
    "test_store": "the object store below the archive: seal, put, keep, cut, whatever dies or goes back",
    "test_compacting": "packs of images of which little is needed still",
    "test_rescues": "databases that are made again from their store alone",
    "test_forward": "databases that are brought forward by their store, as PostgreSQL went back",
    "test_branches": "branches of named databases",
    "test_buckets": "the store in a bucket, and under keepers",
    "test_bases": "bases in PostgreSQL, pruned, and begun again",
    "test_referee": "one writer of an archive, by statements of PostgreSQL",
}
LONGEST = (
    "mixed",
    "to_tls",
    "identity",
    "changes",
    "successions",
    "console",
    "set_back",
    "pages",
    "disks",
    "keepers",
    "lives",
    "care",
    "kept_trails",
    "standbys",
    "postgresql_page",
    "words",
    "archive",
)
"""These are begun first, so that none of them goes on alone at the end."""
END = 40
"""So many lines of a part that failed are shown once more."""

# What speaks to a service alone, and asks for nothing of its own processes, memory or workers.
OF_ANY_SERVICE = ("test_replies", "test_primary", "test_doubts", "test_reader")


class Timed(unittest.TestResult):
    """Counts, ends a test that hangs, and with PAGELOG_TEST_TIMES in the environment says what each took."""

    def startTest(self, test: unittest.TestCase) -> None:
        super().startTest(test)
        self.began, self.spent = time.monotonic(), processor_time()
        signal.alarm(PATIENCE)

    def stopTest(self, test: unittest.TestCase) -> None:
        signal.alarm(0)
        super().stopTest(test)
        if os.environ.get("PAGELOG_TEST_TIMES"):
            print(
                f"{time.monotonic() - self.began:6.2f} s, {processor_time() - self.spent:6.2f} s of a processor: {test.id()}"
            )


def processor_time() -> float:
    """What this process has taken of processors, and those that it has waited for."""
    return sum(
        resource.getrusage(who).ru_utime + resource.getrusage(who).ru_stime
        for who in (resource.RUSAGE_SELF, resource.RUSAGE_CHILDREN)
    )


def hangs(_: int, __: object) -> None:
    raise TimeoutError(f"the test did not end in {PATIENCE} s")


def play(module: str, words: str, only: str | None) -> tuple[int, int]:
    began = time.monotonic()
    signal.signal(signal.SIGALRM, hangs)
    result, texts = Timed(), []
    loader = unittest.TestLoader()
    if only:
        loader.testNamePatterns = [f"*{only}*"]
    try:
        suite = loader.loadTestsFromModule(importlib.import_module(module))
        suite.run(result)
    except Exception as error:  # a module that cannot be imported is a failed test
        texts.append((module, f"{type(error).__name__}: {error}"))
        result.testsRun += 1
    # A class that cannot be set up is a failed test too, or one that is left out.
    ended = result.errors + result.skipped
    result.testsRun += sum(not isinstance(test, unittest.TestCase) for test, _ in ended)
    # A test whose cases fail one by one is listed here once for each of them.
    texts += [(str(test), text) for test, text in result.failures + result.errors]
    failed = min(len(texts), result.testsRun)
    passed = result.testsRun - failed - len(result.skipped)
    for test, text in texts:
        print(f"{test}: {text}", file=sys.stderr)
    if result.testsRun:
        reasons = sorted({reason for _, reason in result.skipped})
        left = f", {len(result.skipped)} left out: {'; '.join(reasons)}" if reasons else ""
        print(
            f"{module[5:]}: {words}: {passed} passed, {failed} failed{left}, {time.monotonic() - began:.1f} s",
            flush=True,
        )
    return passed, failed


def side_by_side(names: list[str]) -> list[subprocess.Popen[str]]:
    """Each part in a process of its own, as many at a time as there are processors, and at most four."""
    running: list[subprocess.Popen[str]] = []
    for name in names:
        while sum(process.poll() is None for process in running) >= min(4, os.cpu_count() or 1):
            time.sleep(0.05)
        command = [sys.executable, __file__, name[5:]]
        output = tempfile.TemporaryFile("w+")
        running.append(
            subprocess.Popen(command, stdout=output, stderr=subprocess.STDOUT, text=True)
        )
        running[-1].output = output  # type: ignore[attr-defined]
    return running


def play_all(names: list[str]) -> tuple[int, int]:
    """What each part said is shown at its end, and the end of what a failed one said once more behind all of them."""
    passed = failed = 0
    ends: list[str] = []
    for process in side_by_side(names):
        process.wait()
        process.output.seek(0)  # type: ignore[attr-defined]
        said = process.output.read()  # type: ignore[attr-defined]
        counts = re.findall(r"^clients/python: (\d+) passed, (\d+) failed\n", said, re.MULTILINE)
        good, bad = map(int, counts[-1]) if counts else (0, 1)
        passed, failed = passed + good, failed + bad
        lines = [line for line in said.splitlines() if not line.startswith("clients/python: ")]
        print("\n".join(lines), flush=True)
        ends += lines[-END:] if bad else []
    for line in ends:
        print(line)
    return passed, failed


def main(arguments: list[str]) -> int:
    # A shell without job control starts what runs in its background with SIGINT ignored, which would go on to each program of a test.
    signal.signal(signal.SIGINT, signal.default_int_handler)
    os.environ.setdefault("PAGELOG_TEST_FSYNC", "off")
    passed = failed = 0
    is_model = arguments == ["--model"]
    if arguments and not is_model:
        only = arguments[1] if len(arguments) > 1 else None
        passed, failed = play(f"test_{arguments[0]}", PARTS.get(f"test_{arguments[0]}", ""), only)
    else:
        if not is_model:
            import postgres

            os.environ[postgres.CLUSTER] = str(postgres.make_cluster())
        names = [f"test_{name}" for name in LONGEST]
        names += [name for name in reversed(PARTS) if name not in names]
        passed, failed = play_all(
            [name for name in names if name in OF_ANY_SERVICE or not is_model]
        )
    if not arguments and os.environ.get("PAGELOG_TEST_LONG") and shutil.which("mypy"):
        done = subprocess.run(
            ["mypy"], cwd=Path(__file__).resolve().parent.parent, capture_output=True, text=True
        )
        print(f"mypy: {done.stdout.strip()}")
        passed, failed = passed + (done.returncode == 0), failed + (done.returncode != 0)
    print(f"clients/python: {passed} passed, {failed} failed")
    return 0 if failed == 0 and passed > 0 else 1


if __name__ == "__main__":
    sys.exit(main(sys.argv[1:]))
