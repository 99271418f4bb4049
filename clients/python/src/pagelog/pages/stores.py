"""The stores in the folder of a page server: which one of a database is in use, and those that were quarantined, as PostgreSQL went back. What
was quarantined may be the only copy of what PostgreSQL has lost.

    NAME.IDENTITY.json           the run whose store is in use
    NAME.IDENTITY.RUN, ..oldest  a store, and the position from which on it has all
    aside/                       those that were quarantined, under the same names, each with what it has in ..json
"""

from __future__ import annotations

import json
import shutil
from dataclasses import dataclass
from pathlib import Path
from typing import Any, Mapping, TypeVar

Kind = TypeVar("Kind")
MOST_ASIDE = 3
"""Of one database. Where there are more the oldest one goes."""
_ASIDE = "aside"
_OLDEST = ".oldest"
"""Behind the name of a store: the file that its program has beside it."""


@dataclass(frozen=True)
class PageStore:
    """A store on the disk: of which database it is, and the run that its tokens are made of. A new store has another one."""

    name: str
    identity: str
    run: str

    @property
    def stem(self) -> str:
        """How its files are called."""
        return f"{self.name}.{self.identity}.{self.run}"

    def folder(self, of: Path) -> Path:
        """Where it is while it is in use."""
        return of / self.stem

    def save(self, folder: Path) -> None:
        """Notes that it is in use, before anything is in it."""
        _write(folder / f"{self.name}.{self.identity}.json", vars(self))

    @classmethod
    def found(cls, folder: Path, name: str, identity: str) -> PageStore | None:
        """The one that is in use."""
        return _read(cls, folder / f"{name}.{identity}.json")

    def left(self, folder: Path) -> list[PageStore]:
        """Others of the same database, of which nothing is noted."""
        of_it = f"{self.name}.{self.identity}.*"
        beside = {each.name for each in folder.glob(of_it) if each.is_dir()} - {self.stem}
        aside = {each.name for each in (folder / _ASIDE).glob(of_it) if each.is_dir()} - {
            each.stem for each in asides_in(folder)
        }
        return [
            PageStore(self.name, self.identity, name.rpartition(".")[2])
            for name in sorted(beside | aside)
        ]


@dataclass(frozen=True)
class SetAside:
    """A store that was quarantined, the `number`th of its database. It has the pages at positions `oldest` to `last`, and all blocks between;
    None where it could not be opened."""

    name: str
    identity: str
    run: str
    number: int
    oldest: int | None
    last: int | None
    why: str

    @property
    def stem(self) -> str:
        """How its files are called."""
        return PageStore(self.name, self.identity, self.run).stem

    def path(self, folder: Path) -> Path:
        """Where it is now, in the folder of the page server."""
        return folder / _ASIDE / self.stem

    def report(self, folder: Path) -> dict[str, Any]:
        """As its page server's row has it."""
        return {
            "run": self.run,
            "oldest": self.oldest,
            "last": self.last,
            "folder": str(self.path(folder)),
        }


def move_aside(folder: Path, store: PageStore) -> Path:
    """Moves it, and returns where it is then. Cut off, it is moved the next time: what belongs to it goes first."""
    aside = folder / _ASIDE
    aside.mkdir(mode=0o700, exist_ok=True)
    for ending in (_OLDEST, ""):
        if (source := folder / f"{store.stem}{ending}").exists():
            source.rename(aside / source.name)
    return aside / store.stem


def note_aside(
    folder: Path, store: PageStore, positions: tuple[int, int] | None, why: str
) -> SetAside:
    """Notes what one has that was moved."""
    oldest, last = positions or (None, None)
    number = (
        max(
            (each.number for each in asides_in(folder) if each.identity == store.identity),
            default=0,
        )
        + 1
    )
    made = SetAside(store.name, store.identity, store.run, number, oldest, last, why)
    _write(folder / _ASIDE / f"{store.stem}.json", vars(made))
    return made


def asides_in(folder: Path) -> list[SetAside]:
    """Those of a folder that are there still, by databases, the oldest first."""
    found = [_read(SetAside, file) for file in (folder / _ASIDE).glob("*.json")]
    there = [each for each in found if each is not None and each.path(folder).is_dir()]
    return sorted(there, key=lambda each: (each.name, each.identity, each.number))


def not_aside_in(folder: Path) -> list[PageStore]:
    """Those that are in use, or were when PostgreSQL had their databases."""
    found = (_read(PageStore, file) for file in sorted(folder.glob("*.json")))
    return [each for each in found if each is not None and each.folder(folder).is_dir()]


def beyond_bound(folder: Path, identity: str) -> list[SetAside]:
    """The oldest ones of a database, above the bound."""
    return [each for each in asides_in(folder) if each.identity == identity][:-MOST_ASIDE]


def delete(path: Path) -> None:
    """Deletes one that was moved. Cut off, it is done the next time."""
    shutil.rmtree(path, ignore_errors=True)
    for ending in (_OLDEST, ".json"):
        path.with_name(f"{path.name}{ending}").unlink(missing_ok=True)


def reported(folder: Path, identity: str) -> list[dict[str, Any]]:
    """Those of a database, as its page server's row has them."""
    return [each.report(folder) for each in asides_in(folder) if each.identity == identity]


def sentence(name: str, machine: str, report: Mapping[str, Any]) -> str:
    """What a report says, for a person."""
    has = (
        "what it has is not known"
        if report["last"] is None
        else f"positions {report['oldest']} to {report['last']}"
    )
    return f"store {report['run']} of {name} at {machine}, {report['folder']}: {has}"


def _write(file: Path, values: dict[str, Any]) -> None:
    fresh = file.with_suffix(".new")
    fresh.write_text(json.dumps(values))
    fresh.rename(file)


def _read(kind: type[Kind], file: Path) -> Kind | None:
    try:
        return kind(**json.loads(file.read_text()))
    except (FileNotFoundError, ValueError, TypeError):
        return None
