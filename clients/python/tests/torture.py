"""The torture of keepers, see clients/python/torture; called with `write`, `share` or `read` it is a client of its own process."""

from __future__ import annotations

import itertools
import json
import os
import random
import re
import shutil
import signal
import subprocess
import sys
import tempfile
import threading
import time
from collections import Counter
from pathlib import Path
from typing import Callable, Iterator

HERE = Path(__file__).resolve().parent
sys.path[:0] = [str(HERE), str(HERE.parent / "src")]

import psycopg  # noqa: E402

from by_tls import VARIABLE, authority, trust  # noqa: E402
from keepers import Keeping, eventually  # noqa: E402
from long_runs import STOP, LongRun, is_client, text_of, texts_of  # noqa: E402
from pagelog import (
    Block,
    Group,
    Lost,
    NamedPrimary,
    PagelogError,
    Primary,
    Put,
    Reader,
    Unwritten,
)  # noqa: E402
from pagelog.referee.rows import Row  # noqa: E402
from pagelog.keeper.run import fronts_of  # noqa: E402
from pagelog.place import Keepers  # noqa: E402
from replicated import Pair, url_of  # noqa: E402
from secured import Certificates, SecureAlone, Secured  # noqa: E402
from service import PATIENCE, TOP, token  # noqa: E402
from torture_copies import Copies, look
from torture_faults import PAGES_DISK, fill, mount
from torture_processes import end_of, in_own_space, is_in_own_space, shut_some
from torture_secrets import Secrets

TTL = 2.0
NAME = "shop"
REQUIRE, BY_TLS, STORE = "--require-standby", "--tls", "--store"
VERIFY = os.environ.get("PAGELOG_VERIFY") or str(
    TOP / "crates" / "pagelog_verify" / "out" / "pagelog_verify"
)
THREADS = 6


# Clients, each a process with books of its own: a line of JSON for each thing that it was told.


def write(folder: Path, who: str, addresses: list[str], seed: float) -> None:
    """Commits until there is a file `stop`; some commits are durable at once, some later. In the end all are."""
    id, chance, number, open_commits = int(who), random.Random(seed), 0, {}
    books = (folder / f"writer{id}").open("a", buffering=1)

    def note(what: str, **facts: object) -> None:
        books.write(json.dumps({"what": what, **facts}) + "\n")

    def new() -> object:
        return Primary.named(
            NAME,
            keepers=addresses,
            principal=id,
            token=token(id),
            operator=(1, token(1)),
            patience=20.0,
            timeout=TTL,
            trust=trust(),
        )

    primary = new()
    while not (stops := (folder / STOP).exists()) or open_commits:
        try:
            if stops or chance.random() < 0.3:
                position = max(open_commits, default=0)
                if position:
                    primary.durable(position)
            else:
                number += 1
                text = f"{id} {number}"
                note("try", text=text)
                primary.append(Put(0, 0, text.encode() + b"." * chance.randrange(60)))
                open_commits[primary.commit()] = text
            for position in [
                position for position in open_commits if position <= primary.durable_end
            ]:
                note(
                    "durable",
                    text=open_commits.pop(position),
                    position=position,
                    generation=primary.place.generation,
                )
        except Lost as lost:
            for position in [position for position in open_commits if position >= lost.position]:
                note("lost", text=open_commits.pop(position), position=position)
        except PagelogError as error:
            # Fenced by the other writer, or in doubt: what is not known to be durable is open for ever.
            note("ended", why=f"{type(error).__name__}: {error}", open=list(open_commits.values()))
            open_commits.clear()
            primary.close()
            time.sleep(chance.uniform(0, 3 * TTL) if not stops else 0)
            primary = new()
    note("end")


class Sharing:
    """Threads that share a writer as a group commit until there is a file `stop`. Where the group has ended the writer finds out what
    became of what was begun, and another one is made."""

    def __init__(self, folder: Path, id: int, addresses: list[str]) -> None:
        self._id, self._stop, self._addresses = id, folder / STOP, addresses
        self._books, self._guard = (folder / f"writer{id}").open("a", buffering=1), threading.Lock()
        self._numbers = itertools.count(1)
        self._begun: list[str] = []

    def note(self, what: str, **facts: object) -> None:
        with self._guard:
            self._books.write(json.dumps({"what": what, **facts}) + "\n")

    def run(self) -> None:
        while not self._stop.exists():
            self._share()
            time.sleep(0 if self._stop.exists() else TTL)  # the other writer's turn
        self.note("end")

    def _share(self) -> None:
        with Primary.named(
            NAME,
            keepers=self._addresses,
            principal=self._id,
            token=token(self._id),
            operator=(1, token(1)),
            patience=5.0,
            timeout=TTL,
            trust=trust(),
        ) as primary:
            group, self._begun = Group(primary), []
            threads = [
                threading.Thread(target=self._commit, args=(primary, group, thread))
                for thread in range(THREADS)
            ]
            for thread in threads:
                thread.start()
            for thread in threads:
                thread.join()
            try:
                primary.commit(durable=True)
                for text in self._begun:
                    self.note("found", text=text)
            except PagelogError as error:
                self.note("open", why=f"{type(error).__name__}: {error}", open=self._begun)

    def _commit(self, primary: NamedPrimary, group: Group, thread: int) -> None:
        """Goes on until the group has ended."""
        while not self._stop.exists():
            text = f"{self._id} {next(self._numbers)}"
            self.note("try", text=text)
            try:
                position = group.commit(Put(0, 0, text.encode()))
                assert primary.place is not None
                # It may have moved on meanwhile: then the end that is compared is a later one.
                self.note(
                    "durable",
                    text=text,
                    position=position,
                    generation=primary.place.generation,
                    thread=thread,
                )
            except Lost as lost:
                return self.note("lost", text=text, position=lost.position)
            except Unwritten:
                return self.note("unwritten", text=text)
            except PagelogError as error:
                self.note("ended", why=f"{type(error).__name__}: {error}", open=[text])
                return self._begun.append(text)


def share(folder: Path, who: str, addresses: list[str], _: float) -> None:
    """Threads of one process write."""
    Sharing(folder, int(who), addresses).run()


def read(folder: Path, who: str, addresses: list[str], _: float) -> None:
    """Follows what is durable, and notes each block."""
    id = int(who)
    books = (folder / f"reader{id}").open("a", buffering=1)
    reader = Reader.named(
        NAME,
        keepers=addresses,
        principal=id,
        token=token(id),
        durable_only=True,
        patience=60.0,
        timeout=TTL,
        trust=trust(),
    )
    position = 1
    while not (folder / STOP).exists():
        try:
            for block in reader.blocks(position, idle=0.1, stop=(folder / STOP).exists):
                books.write(
                    json.dumps({"what": "read", "position": block.lsn, "text": text_of(block)})
                    + "\n"
                )
                position = block.lsn + 1
        except PagelogError as error:
            books.write(
                json.dumps({"what": "ended", "why": f"{type(error).__name__}: {error}"}) + "\n"
            )
            reader.close()
            time.sleep(0.1)


class Torture(LongRun):
    def __init__(
        self,
        seconds: float,
        seed: int,
        *,
        requires_standby: bool,
        by_tls: bool,
        store: bool = False,
    ) -> None:
        self.seconds, self.chance = seconds, random.Random(seed)
        self.pair = Pair(certificates=authority())
        more = "unproved = false\n" + "require_standby = true\n" * requires_standby
        more += "trail = 1\n" * store
        super().__init__(
            __file__, (SecureAlone if by_tls else Keeping)(ttl=TTL, url=self.pair.url, more=more)
        )
        self.folder = Path(tempfile.mkdtemp(prefix="pagelog-torture-")) if store else None
        if self.folder is not None:
            self.keeping.stores(self.folder, seal="64KiB", age="1s", tail="1s")
        self.done: Counter[str] = Counter()
        self.is_first_round, self.shut, self.shut_pages = True, 0, 0
        self.died: list[str] = []
        """Keepers that ended by themselves, or that somebody else has ended."""
        self.deeds: list[tuple[int, Callable[[], None]]] = [
            (4, self.kill_service),
            (2, self.stop_service),
            (3, self.kill_keeper),
            (1, self.kill_keeper_for_long),
            (2, self.stop_keeper),
            (1, self.stop_machine),
            (2, self.switch_over),
            (1, self.end_keeper),
            (2, self.cut_lines),
            (2, self.shut_lines),
            (1, self.fail_over_postgresql),
            (1, self.zombie_postgresql),
            (2, self.kill_pages),
            (2, self.stop_pages),
            (2, self.cut_pages),
        ]
        if by_tls:
            self.deeds += [(3, self.kill_front), (1, self.stop_front), (1, self.renew)]
        self.copies = Copies(self.keeping, self.chance)
        self.is_mounted = mount(self.copies.folder, PAGES_DISK)
        if self.is_mounted:
            self.deeds.append((2, self.fill_pages))

    def names(self) -> list[str]:
        return [name for name, process in self.keeping.processes.items() if process.poll() is None]

    def service(self) -> int | None:
        row = self.row()
        found = list(self.keeping.folder.glob(f"*/{NAME}.{row.run}.json"))
        try:
            return int(json.loads(found[0].read_text())["pid"]) if found else None
        except (OSError, ValueError):
            return None

    def row(self) -> Row:
        return self.keeping.row(NAME)

    def kill_service(self) -> None:
        pid = self.service()
        if pid is not None:
            self.send(pid, signal.SIGKILL)

    def send(self, pid: int, number: int) -> None:
        try:
            os.kill(pid, number)
        except ProcessLookupError:
            pass

    def hold(self, *pids: int | None) -> None:
        """These stand still for longer than a ttl, or for less, as in no first round."""
        for pid in pids:
            if pid is not None:
                self.send(pid, signal.SIGSTOP)
        time.sleep(TTL * (2.5 if self.is_first_round else self.chance.choice([0.3, 2.5])))
        for pid in pids:
            if pid is not None:
                self.send(pid, signal.SIGCONT)

    def front(self) -> int | None:
        """The process of the front of a keeper."""
        fronts = fronts_of(self.keeping.folder / self.some_keeper())
        for each in fronts:
            os.close(each.descriptor)
        return fronts[0].facts.pid if fronts else None

    def kill_front(self) -> None:
        if (pid := self.front()) is not None:
            self.send(pid, signal.SIGKILL)

    def stop_front(self) -> None:
        self.hold(self.front())

    def renew(self) -> None:
        """All keepers get another certificate."""
        assert isinstance(self.keeping, Secured)
        self.keeping.put(self.chance.choice(["good", "renewed"]))

    def stop_service(self) -> None:
        self.hold(self.service())

    def some_keeper(self) -> str:
        holder = self.row().holder
        return (
            holder
            if holder in self.names() and self.chance.random() < 0.8
            else self.chance.choice(self.names())
        )

    def kill_keeper(self) -> None:
        name = self.some_keeper()
        self.keeping.kill(name)
        self.keeping.start(name)

    def kill_keeper_for_long(self) -> None:
        name = self.some_keeper()
        self.keeping.kill(name)
        time.sleep(2.5 * TTL)
        self.keeping.start(name)

    def stop_keeper(self) -> None:
        self.hold(self.keeping.processes[self.some_keeper()].pid)

    def stop_machine(self) -> None:
        name = self.row().holder
        if name in self.keeping.processes:
            self.hold(self.keeping.processes[name].pid, self.service())

    def switch_over(self) -> None:
        try:
            self.keeping.referee.wish(NAME, "*")
        except PagelogError:
            pass

    def end_keeper(self) -> None:
        name = self.some_keeper()
        self.keeping.processes[name].send_signal(signal.SIGTERM)
        try:
            self.keeping.processes[name].wait(4 * TTL)
        except subprocess.TimeoutExpired:
            self.keeping.kill(name)
        self.keeping.start(name)

    def cut_lines(self) -> None:
        """PostgreSQL ends all sessions of keepers, and says so."""
        try:
            with psycopg.connect(
                self.pair.url + "&target_session_attrs=read-write", autocommit=True
            ) as boss:
                boss.execute(
                    "SELECT pg_terminate_backend(pid) FROM pg_stat_activity WHERE application_name LIKE 'pagelog keeper%'"
                )
        except psycopg.Error:
            pass

    def shut_lines(self) -> None:
        """Of a process, lines are cut at this end: to PostgreSQL, to services, keepers or clients. Nobody is told."""
        processes = [
            *(self.keeping.processes[name].pid for name in self.names()),
            *(client.pid for client in self.clients),
            self.service(),
        ]
        pid = self.chance.choice(processes)
        if pid is not None:
            self.shut += shut_some(pid, self.chance)

    def fail_over_postgresql(self) -> None:
        self.pair.fail_over()

    def zombie_postgresql(self) -> None:
        """The old leader goes on beside the new one for longer than a ttl, and until something has become durable without it."""

        def beside() -> None:
            with psycopg.connect(url_of(self.pair.leader), autocommit=True) as session:
                archived = "SELECT archived FROM pagelog_log WHERE name = %s"
                before = session.execute(archived, (NAME,)).fetchone()
                time.sleep(2.5 * TTL)
                eventually(
                    lambda: session.execute(archived, (NAME,)).fetchone() != before,
                    "a durable commit beside an old leader",
                )

        self.pair.fail_over_beside(beside)

    def deeds_in_turn(self) -> Iterator[Callable[[], None]]:
        """Each one once, and then as they are drawn. In the first round there is a holder, and a service, for them to meet."""
        deeds, weights = [deed for _, deed in self.deeds], [weight for weight, _ in self.deeds]
        for deed in self.chance.sample(deeds, len(deeds)):
            eventually(
                lambda: self.row().holder in self.names() and self.service() is not None,
                "a service",
            )
            yield deed
        self.is_first_round = False
        while True:
            yield from self.chance.choices(deeds, weights)

    def kill_pages(self) -> None:
        self.copies.kill()

    def stop_pages(self) -> None:
        self.hold(*self.copies.hold())

    def cut_pages(self) -> None:
        """Of a page server, lines are cut at its end: to readers, to keepers, or to PostgreSQL. Nobody is told. Some times, as it has few."""
        for _ in range(20):
            self.shut_pages += sum(shut_some(pid, self.chance) for pid in self.copies.hold())
            time.sleep(self.chance.uniform(0, 0.1))

    def fill_pages(self) -> None:
        """The disk of both page servers is full for a while."""
        rest = fill(self.copies.folder)
        time.sleep(self.chance.uniform(0, 2 * TTL))
        rest.unlink()

    # The run.

    def run(self) -> int:
        keeping, secrets = self.keeping, Secrets(self.keeping)
        keeping.word("create", NAME, "--table", keeping.table)
        keeping.start("a", "b")
        keeping.place()
        self.copies.start()
        clients = [
            self.client(what, id, self.chance.random())
            for what, id in (("write", 2), ("share", 5), ("read", 3), ("look", 3))
        ]
        began = time.monotonic()
        for fault in self.deeds_in_turn():
            if time.monotonic() - began > self.seconds and not self.is_first_round:
                break
            self.done[fault.__name__] += 1
            print(f"{time.monotonic() - began:6.1f} s: {fault.__name__}", flush=True)
            self.start_keepers_that_died()
            fault()
            time.sleep(self.chance.uniform(0.2, 2 * TTL))
        eventually(lambda: keeping.place() is not None)
        (keeping.folder / STOP).touch()
        ended = [self.ended(client, PATIENCE) for client in clients]
        return self.report(
            Check(keeping).violations()
            + self.copies.violations()
            + self.faults(ended)
            + self.died
            + secrets.found()
            + self.unverified()
            + self.pair.plain_sessions()
        )

    def start_keepers_that_died(self) -> None:
        for name, process in self.keeping.processes.items():
            if process.poll() is not None:
                self.died.append(f"keeper {name} {end_of(process.returncode)}")
        self.keeping.start(*(set(self.keeping.processes) - set(self.names())))

    def unverified(self) -> list[str]:
        """What pagelog-verify says of each list of the trail that is of no database, if there are trails and that is built."""
        if self.folder is None or not os.access(VERIFY, os.X_OK):
            return []
        said = self.keeping.word("trail", NAME, "--export", self.folder / "trail")
        found = re.findall(r"^  pagelog-verify (.*)$", said, flags=re.M)
        ended = [
            subprocess.run([VERIFY, *words.split()], capture_output=True, text=True)
            for words in found
        ]
        agreed = [done.stdout for done in ended if done.returncode == 0]
        lines = [int(text.split()[1]) for text in agreed]
        print(f"trail: {len(found)} lists are exported, {len(lines)} agree, of {sum(lines)} lines")
        return [
            f"{words}: {done.stdout}{done.stderr}"
            for words, done in zip(found, ended)
            if done.returncode != 0
        ]

    def report(self, violations: list[str]) -> int:
        for violation in violations[:20]:
            print(f"violation: {violation}")
        books = Check(self.keeping).books
        counts = Counter(line["what"] for line in books if line["what"] != "end")
        print(
            "faults: "
            + ", ".join(f"{name} {count}" for name, count in self.done.most_common())
            + f"; {self.shut} lines were shut, and {self.shut_pages} of page servers"
        )
        print(
            "page servers: "
            + ", ".join(f"{what} {count}" for what, count in self.copies.done.most_common())
        )
        print("told: " + ", ".join(f"{what} {count}" for what, count in counts.most_common()))
        print(
            f"torture: {counts['durable']} durable commits over {self.keeping.row(NAME).generation} generations, "
            f"{sum(self.done.values())} faults, {len(violations)} violations"
        )
        return 1 if violations or not counts["durable"] else 0

    def stop(self) -> None:
        self.copies.stop()
        if self.is_mounted:
            subprocess.run(["umount", "-l", self.copies.folder], check=False)
        super().stop()
        self.pair.stop()
        if self.folder is not None:
            shutil.rmtree(self.folder, ignore_errors=True)


class Check:
    """Knows nothing but the books of the clients, and the archive."""

    def __init__(self, keeping: Keeping) -> None:
        self.keeping = keeping
        self.books: list[dict[str, object]] = []
        for file in (*keeping.folder.glob("writer*"), *keeping.folder.glob("reader*")):
            self.books += [
                json.loads(line) | {"who": file.name} for line in file.read_text().splitlines()
            ]

    def violations(self) -> list[str]:
        texts = dict(
            enumerate((texts_of(Block.decode(block)) for block in self.keeping.archive(NAME)), 1)
        )
        counts = Counter(text for each in texts.values() for text in each)
        found = [f"{text!r} is there {count} times" for text, count in counts.items() if count > 1]
        tried = {line["text"] for line in self.books if line["what"] == "try"}
        found += [f"{text!r} was not tried" for text in counts if text not in tried]
        ends = self.ends()
        for line in self.books:
            if line["what"] in ("durable", "read") and line["text"] not in texts.get(line["position"], ()):  # type: ignore[call-overload]
                found.append(f"{line} and the archive has {texts.get(line['position'])!r}")  # type: ignore[call-overload]
            if line["what"] == "durable" and line["position"] > ends.get(line.get("generation"), 1 << 60):  # type: ignore[operator,call-overload]
                found.append(f"{line} after the end of its generation, {ends[line['generation']]}")  # type: ignore[index]
            if line["what"] in ("lost", "unwritten") and line["text"] in counts:
                found.append(f"{line} and it is there")
            if line["what"] == "found" and line["text"] not in counts:
                found.append(f"{line} and it is not there")
        for who in {(line["who"], line.get("thread")) for line in self.books}:
            told = [
                line
                for line in self.books
                if (line["who"], line.get("thread")) == who and line["what"] in ("durable", "read")
            ]
            positions = [line["position"] for line in told]
            if positions != sorted(set(positions)):  # type: ignore[type-var]
                found.append(f"{who} was told positions out of order")
        return found

    def ends(self) -> dict[int, int]:
        """Where each generation that is over ended."""
        with psycopg.connect(self.keeping.url + "&target_session_attrs=read-write") as connection:
            rows = connection.execute(
                "SELECT generation, base FROM pagelog_generation ORDER BY generation"
            ).fetchall()
        return {generation: base for (generation, _), (_, base) in zip(rows, rows[1:])}


def main(words: list[str]) -> int:
    if is_client(words, {"write": write, "share": share, "read": read, "look": look}):
        return 0
    called = [sys.executable, __file__, *words]
    if not is_in_own_space() and (own := in_own_space(called)) != called:
        return subprocess.run(own).returncode
    requires_standby, by_tls, store = (word in words for word in (REQUIRE, BY_TLS, STORE))
    words = [word for word in words if word not in (REQUIRE, BY_TLS, STORE)]
    if by_tls:
        os.environ[VARIABLE] = str(Certificates().ca)
    return Torture(
        float(words[0]) if words else 120.0,
        int(words[1]) if len(words) > 1 else 1,
        requires_standby=requires_standby,
        by_tls=by_tls,
        store=store,
    ).whole()


if __name__ == "__main__":
    sys.exit(main(sys.argv[1:]))
