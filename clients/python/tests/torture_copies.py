"""Page servers in the torture of keepers: two, which are killed and stopped, and a reader that asks nobody else."""

from __future__ import annotations

import json
import os
import random
import signal
import subprocess
import sys
import time
from collections import Counter
from contextlib import closing
from pathlib import Path
from typing import Iterator, Mapping

import pages_program
from by_tls import environment, trust
from keepers import Keeping, eventually
from long_runs import STOP
from pagelog import Block, Connection, Credentials, PagelogError, Reader
from pagelog.run_tokens import token_of
from pagelog.pages.stores import asides_in
from service import PATIENCE, token

NAME, READER, HEAD, SAMPLE = "shop", 3, 96, 60
"""The database, the principal that reads, how many bytes of page 0 are compared, and at how many positions in the end."""


def look(folder: Path, who: str, addresses: list[str], seed: float) -> None:
    """A client: reads page 0 at positions of all ages from page servers alone, and notes what it is shown."""
    books, chance, highest = (folder / f"pages{who}").open("a", buffering=1), random.Random(seed), 0
    reader = Reader.named(
        NAME,
        keepers=addresses,
        principal=READER,
        token=token(READER),
        pages="only",
        patience=30.0,
        timeout=5.0,
        trust=trust(),
    )
    while not (folder / STOP).exists():
        try:
            end = reader.end()
            if end < highest:
                books.write(json.dumps({"what": "back", "end": end, "before": highest}) + "\n")
            highest = max(highest, end)
            for position in (
                end,
                chance.randint(1, max(1, end)),
                *(chance.randint(max(1, end - 30), max(1, end)) for _ in range(3)),
            ):
                if position <= end:
                    data = reader.page(0, position).data
                    books.write(
                        json.dumps(
                            {"what": "page", "position": position, "head": data[:HEAD].hex()}
                        )
                        + "\n"
                    )
        except PagelogError as error:
            books.write(
                json.dumps({"what": "ended", "why": f"{type(error).__name__}: {error}"}) + "\n"
            )
        time.sleep(0.02)


MACHINES = ("one", "two")


class Servers:
    """Two page servers of some databases, each with a folder of its own."""

    def __init__(
        self,
        folder: Path,
        logs: Path,
        file: Path,
        names: tuple[str, ...],
        environment: Mapping[str, str],
        chance: random.Random,
    ) -> None:
        """`folder` is for their stores, and `file` their credentials."""
        self.folder, self._logs, self._file, self._names, self._environment, self._chance = (
            folder,
            logs,
            file,
            names,
            environment,
            chance,
        )
        self._words: dict[str, subprocess.Popen[bytes]] = {}

    def start(self) -> None:
        """Those that do not run."""
        for name in MACHINES:
            if name not in self._words or self._words[name].poll() is not None:
                words = [
                    sys.executable,
                    "-m",
                    "pagelog",
                    "pages",
                    *self._names,
                    "--folder",
                    self.folder / name,
                    "--program",
                    pages_program.program(),
                    "--machine",
                    name,
                    "--cache",
                    "8",
                    "--credentials",
                    self._file,
                ]
                with (self._logs / f"pages-{name}.log").open("ab") as log:
                    self._words[name] = subprocess.Popen(
                        list(map(str, words)), stderr=log, env=self._environment
                    )

    def kill(self) -> None:
        """A program, or who feeds it, which is started again: its program ends as it does."""
        word = self._words[self._chance.choice(sorted(self._words))]
        if self._chance.random() < 0.5:
            for pid in self._programs(word):
                _send(pid, signal.SIGKILL)
        else:
            word.kill()
            word.wait()
            time.sleep(self._chance.choice([0, 2]))
        self.start()

    def hold(self) -> list[int]:
        """Those of one that stand still together: a program, who feeds it, or both."""
        word = self._words[self._chance.choice(sorted(self._words))]
        return self._chance.choice(
            [[word.pid], list(self._programs(word)), [word.pid, *self._programs(word)]]
        )

    @staticmethod
    def _programs(word: subprocess.Popen[bytes]) -> Iterator[int]:
        try:
            yield from map(
                int, Path(f"/proc/{word.pid}/task/{word.pid}/children").read_text().split()
            )
            for task in Path(f"/proc/{word.pid}/task").iterdir():
                yield from (
                    int(each)
                    for each in (task / "children").read_text().split()
                    if task.name != str(word.pid)
                )
        except OSError:
            return

    def stop(self) -> None:
        for word in self._words.values():
            for pid in (word.pid, *self._programs(word)):
                _send(pid, signal.SIGCONT)
            word.kill()
            word.wait()


class Copies(Servers):
    """Of one database, and what their readers were shown."""

    def __init__(self, keeping: Keeping, chance: random.Random) -> None:
        super().__init__(
            keeping.folder / "copies",
            keeping.folder,
            keeping.file_of("a"),  # page servers speak TLS as that keeper does
            (NAME,),
            keeping.environment | environment(),
            chance,
        )
        self._keeping = keeping
        self.done: Counter[str] = Counter()

    def violations(self) -> list[str]:
        """What was shown is the archive replayed, by both in the end too, and nothing was quarantined: nothing was lost."""
        heads = list(self._heads())
        notes = [
            json.loads(line)
            for file in self._keeping.folder.glob("pages*")
            if not file.name.endswith(".log")
            for line in file.read_text().splitlines()
        ]
        self.done.update(note["what"] for note in notes)
        found = [
            f"page 0 at {note['position']} was shown as {note['head']}"
            for note in notes
            if note["what"] == "page" and not _is_at(heads, note)
        ]
        found += [
            f"the end of page servers fell: {note}" for note in notes if note["what"] == "back"
        ]
        found += [
            f"{name} has quarantined {each}"
            for name in MACHINES
            for each in asides_in(self.folder / name)
        ]
        for name in MACHINES:
            found += self._compared(name, heads)
        return found + ([] if self.done["page"] else ["nobody was shown a page"])

    def _heads(self) -> Iterator[bytes]:
        """How page 0 begins at each position."""
        page = bytearray(HEAD)
        yield bytes(page)
        for block in self._keeping.archive(NAME):
            for record in Block.decode(block).records:
                data = record.data[:HEAD]  # type: ignore[union-attr]
                page[: len(data)] = data
            yield bytes(page)

    def _compared(self, name: str, heads: list[bytes]) -> list[str]:
        row = self._keeping.row(NAME)
        known = lambda: [
            each
            for each in self._keeping.referee.everything().pages_of(row.id)
            if each.machine == name and each.position == len(heads) - 1
        ]  # noqa: E731
        eventually(lambda: bool(known()), f"all that is archived at {name}")
        [pages] = known()
        credentials = Credentials(READER, token_of(bytes.fromhex(token(READER)), NAME, pages.run))
        address = pages.told(trust() is not None)
        assert address is not None
        connection = Connection(address, timeout=PATIENCE, trust=trust())
        with closing(Reader(connection, credentials)) as reader:
            positions = self._chance.sample(range(len(heads)), min(SAMPLE, len(heads)))
            return [
                f"{name} has another page 0 at {at}"
                for at in positions
                if reader.page(0, at).data[:HEAD] != heads[at]
            ]


def _is_at(heads: list[bytes], note: dict[str, str]) -> bool:
    position = int(note["position"])
    return position < len(heads) and heads[position].hex() == note["head"]


def _send(pid: int, number: int) -> None:
    try:
        os.kill(pid, number)
    except ProcessLookupError:
        pass
