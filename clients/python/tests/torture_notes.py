"""What clients of the torture of administration write down, and the sums by which a part of it that is torn, lost or another's is seen.

Nothing here knows the product: a writer notes each thing that it is about to commit, and each that was acknowledged to it; a reader
notes what it was shown. Times are of CLOCK_MONOTONIC, which all processes of a machine share.
"""

from __future__ import annotations

import hashlib
import itertools
import json
import os
import random
import sys
import time
from dataclasses import dataclass, field
from pathlib import Path
from typing import Any, Iterator

STOP = "stop"
"""The file with which clients end."""
ENTRIES, SIZE = 400, 20
"""Of a page of Python's clients, and bytes of each."""
GENESIS = "-"
"""What stands in place of the sum before the first one."""


def now() -> float:
    return time.monotonic()


def link(before: str, life: str, who: str, number: int) -> str:
    """The sum of an entry, which holds those of all before it."""
    return hashlib.sha256(f"{before}|{life}|{who}|{number}".encode()).hexdigest()[:24]


def entry(life: str, who: str, number: int) -> bytes:
    """Twenty bytes of a page that no other life, writer or number has."""
    return (
        number.to_bytes(4, "big") + hashlib.sha256(f"{life}|{who}|{number}".encode()).digest()[:16]
    )


class Notes:
    """The file of one client, or of one thread of it. A line that was begun as the client was killed is left out by who reads."""

    def __init__(self, folder: Path, who: str) -> None:
        self.who = who
        file = folder / f"{who}.notes"
        known = notes_of(file)[0] if file.exists() else []
        self.last = max((int(note["number"]) for note in known if "number" in note), default=0)
        """The highest number that a client of this name has had before it was killed."""
        self._file = os.open(file, os.O_WRONLY | os.O_APPEND | os.O_CREAT, 0o644)
        if file.stat().st_size:
            os.write(self._file, b"\n")  # behind what may be half a line

    def __call__(self, what: str, **facts: object) -> None:
        os.write(
            self._file,
            (
                json.dumps({"what": what, "noted": now(), "process": os.getpid(), **facts}) + "\n"
            ).encode(),
        )


def notes_of(file: Path, offset: int = 0) -> tuple[list[dict[str, Any]], int]:
    """The whole lines from this byte on, and where the next one begins."""
    with file.open("rb") as lines:
        lines.seek(offset)
        text = lines.read()
    whole = text[: text.rfind(b"\n") + 1]
    return [
        {**note, "who": file.stem} for note in map(_note, whole.splitlines()) if note is not None
    ], offset + len(whole)


def _note(line: bytes) -> dict[str, Any] | None:
    try:
        return json.loads(line) if line else None
    except ValueError:
        return None  # its client was killed


@dataclass
class Job:
    """What a client is told as it starts."""

    folder: Path
    addresses: list[str]
    name: str
    who: str
    seed: int
    other: str = ""
    """A second database, which is attached."""
    drawn: Iterator[int] = field(default_factory=itertools.count)
    """Numbers what is drawn: of sessions that are cut short none is for ever the same."""

    @property
    def is_over(self) -> bool:
        return (self.folder / STOP).exists()

    def until_over(self, pause: float) -> Iterator[random.Random]:
        """One time after the other, with pauses that chance draws around this length."""
        chance = random.Random(f"{self.seed} {self.who} {next(self.drawn)}")
        while not self.is_over:
            yield chance
            time.sleep(pause * 2 * chance.random())

    def words(self) -> list[str]:
        return [
            str(self.folder),
            ",".join(self.addresses),
            self.name,
            self.who,
            str(self.seed),
            self.other,
        ]

    @classmethod
    def of(cls, words: list[str]) -> Job:
        return cls(Path(words[0]), words[1].split(","), words[2], words[3], int(words[4]), words[5])


def fail_loudly(error: object) -> None:
    """A client ends with each of its threads."""
    sys.__excepthook__(error.exc_type, error.exc_value, error.exc_traceback)  # type: ignore[attr-defined]
    os._exit(1)
