"""The histories that a store has of a database, by its keys alone: each object says which digest it follows, so that they lead from
position 0, or from a base below which all was pruned, to an end. Where PostgreSQL went back two of them part somewhere. No IO is here, but
for what `within` does."""

from __future__ import annotations

import re
from dataclasses import dataclass
from typing import Callable, Iterable

from pagelog.errors import PagelogError
from pagelog.objects.pack import NamedBase, named_base
from pagelog.objects.segment import Named, named


class NoHistory(PagelogError):
    """The store has no history of a database, or none that is whole."""


@dataclass(frozen=True)
class Part:
    """An object of a history, whose blocks belong to it up to `last`: where a branch began amid an object that is not its end."""

    key: str
    said: Named
    last: int


@dataclass(frozen=True)
class History:
    """All blocks from position 1, or behind a base, to `last`; perhaps none behind a base."""

    parts: tuple[Part, ...]
    base: NamedBase | None = None

    @property
    def _end(self) -> Named | NamedBase:
        if self.parts:
            return self.parts[-1].said
        assert self.base is not None
        return self.base

    @property
    def start(self) -> int:
        """The first position that can be restored."""
        return 0 if self.base is None else self.base.position

    @property
    def last(self) -> int:
        """Where it ends."""
        return self.parts[-1].last if self.parts else self.start

    @property
    def after(self) -> bytes:
        """The digest of all its blocks."""
        return self._end.after if isinstance(self._end, Named) else self._end.chain

    @property
    def generation(self) -> int:
        """In which its last object was sealed: of two histories the higher one is the later."""
        return self._end.generation

    def has(self, base: NamedBase, within: Callable[[str, int], bytes]) -> bool:
        """Whether a base is one of it: it has these blocks up to there."""
        if self._part_at(base.position) is None:
            return self.base == base
        return base.chain == self.chain_at(base.position, within)

    def chain_at(self, position: int, within: Callable[[str, int], bytes]) -> bytes | None:
        """The digest of all blocks up to a position; None where no object of it has that."""
        part = self._part_at(position)
        if part is None:
            return None
        if position in (part.said.first - 1, part.said.last):
            return part.said.before if position < part.said.first else part.said.after
        return within(part.key, position)

    def _part_at(self, position: int) -> Part | None:
        """The object that has a position, or begins behind it."""
        return next(
            (
                part
                for part in self.parts
                if part.said.first <= position + 1 and position <= part.last
            ),
            None,
        )

    def parts_from(self, other: History) -> int:
        """The position after which it parts from another."""
        theirs = {(part.last, part.said.after) for part in other.parts}
        return max(
            (part.last for part in self.parts if (part.last, part.said.after) in theirs), default=0
        )


def folders_of(name: str, keys: Iterable[str]) -> dict[str, list[str]]:
    """The keys of blocks and of bases of a database of this name, by folder: each that had the name has one. A name may be the begin of
    another's."""
    folder, found = (
        re.compile(rf"({re.escape(name)}\.[0-9a-f]{{8}})/(blocks|bases)/.*"),
        dict[str, list[str]](),
    )
    for key in keys:
        said = folder.fullmatch(key)
        if said is not None and (named(key) or named_base(key)) is not None:
            found.setdefault(said[1], []).append(key)
    return found


def histories(
    keys: Iterable[str], others: Callable[[], Iterable[str]], within: Callable[[str, int], bytes]
) -> list[History]:
    """All of a folder that are whole, the latest first. `others` are the keys of other folders, which are asked for where a branch begins in
    one of them, and `within` is the digest of all blocks up to a position that an object has. Raises `NoHistory`.
    """
    keys = list(keys)
    own = {key: said for key in keys if (said := named(key)) is not None}
    bases = sorted(
        (base for base in map(named_base, keys) if base is not None), key=lambda base: base.position
    )
    behind, found, broken = _by_end(own), list[History](), 0
    for key in _ends(own, behind):
        said = own[key]
        way = _way_to(key, own, behind)
        if way[0].said.first > 1:
            way = _begun_elsewhere(way, others(), within)
        if (made := _begun(way, bases, within)) is not None:
            found.append(made)
        else:
            broken = max(broken, said.last)
    if bases and bases[-1].position > max((each.last for each in found), default=broken):
        found.append(History((), bases[-1]))  # all blocks were pruned
    if not found:
        raise NoHistory(
            f"no history leads from position 1, or from a base, to {broken}: what is below is missing"
            if broken
            else "there is none"
        )
    return sorted(found, key=_age, reverse=True)


def beyond(
    keys: Iterable[str], position: int, chain: bytes, within: Callable[[str, int], bytes]
) -> list[History]:
    """All of a folder that go on behind a position at which all blocks have this digest, the latest first, each as far as its objects lead back.
    What is below is not asked for: who has it knows it by the digest."""
    own = {key: said for key in keys if (said := named(key)) is not None}
    behind = _by_end(own)
    ways = (History(tuple(_way_to(key, own, behind))) for key in _ends(own, behind))
    return sorted(
        (way for way in ways if way.last > position and way.chain_at(position, within) == chain),
        key=_age,
        reverse=True,
    )


def _age(history: History) -> tuple[int, int]:
    """Of two histories the one with the higher generation is the later."""
    return history.generation, history.last


def _ends(keys: dict[str, Named], behind: dict[tuple[int, bytes], str]) -> list[str]:
    """Those from which no other goes on, one of each end."""
    continued = {(said.first - 1, said.before) for said in keys.values()}
    return [
        key
        for key, said in keys.items()
        if (said.last, said.after) not in continued and behind[said.last, said.after] == key
    ]


def _begun(
    way: list[Part], bases: list[NamedBase], within: Callable[[str, int], bytes]
) -> History | None:
    """The history of these objects: from position 1, or from the first base that is one of it; None where there is none."""
    whole = History(tuple(way))
    if way[0].said.first == 1:
        return whole
    base = next(
        (base for base in bases if base.position <= whole.last and whole.has(base, within)), None
    )
    return (
        None
        if base is None
        else History(tuple(part for part in way if part.last > base.position), base)
    )


def _by_end(keys: dict[str, Named]) -> dict[tuple[int, bytes], str]:
    """The first key that ends there."""
    found: dict[tuple[int, bytes], str] = {}
    for key in sorted(keys):
        found.setdefault((keys[key].last, keys[key].after), key)
    return found


def _way_to(key: str, keys: dict[str, Named], behind: dict[tuple[int, bytes], str]) -> list[Part]:
    """The objects that lead to this one, as far as there are some."""
    way: list[Part] = []
    at: str | None = key
    while at is not None:
        said = keys[at]
        way.append(Part(at, said, said.last))
        at = behind.get((said.first - 1, said.before)) if said.first > 1 else None
    return way[::-1]


def _begun_elsewhere(
    way: list[Part], keys: Iterable[str], within: Callable[[str, int], bytes]
) -> list[Part]:
    """The same, behind what leads to its begin in other folders, as far as that is there."""
    all_of = {key: said for key in keys if (said := named(key)) is not None}
    behind = _by_end(all_of)
    while way[0].said.first > 1:
        position, wanted = way[0].said.first - 1, way[0].said.before
        whole = behind.get((position, wanted))
        if whole is not None:
            way = _way_to(whole, all_of, behind) + way
            continue
        amid = (key for key, said in sorted(all_of.items()) if said.first <= position < said.last)
        key = next((key for key in amid if within(key, position) == wanted), None)
        if key is None:
            break
        before = _way_to(key, all_of, behind)
        way = [*before[:-1], Part(key, all_of[key], position), *way]
    return way
