"""The check of the torture of administration. It knows the notes of clients, and when names were dropped and PostgreSQL lost something."""

from __future__ import annotations

import functools
from bisect import bisect
from collections import Counter, defaultdict
from dataclasses import dataclass
from pathlib import Path
from typing import Any, Iterator

from torture_notes import ENTRIES, GENESIS, notes_of
from torture_rig import TTL, Loss

BOUND = 3 * TTL + 5
"""Seconds for which a reader may not have what was acknowledged, and after which nobody may be stuck."""
Note = dict[str, Any]


@dataclass
class Drop:
    """A subcommand that has dropped a name, or was cut off at it."""

    name: str
    began: float
    ended: float
    is_done: bool


@dataclass
class Restored:
    """A copy of a database as it was at a position."""

    copy: str
    name: str
    at: int
    began: float


class Past:
    """What was done to a name that takes acknowledged commits away, and copies that were made of it."""

    def __init__(self) -> None:
        self.drops: list[Drop] = []
        self.restored: list[Restored] = []
        self.losses: list[Loss] = []
        self.bound = BOUND

    def lose(self, loss: Loss, copied: float, back: float) -> None:
        """PostgreSQL was set back: drops between the copy and that did not happen."""
        self.losses.append(loss)
        self.drops = [
            drop for drop in self.drops if not (drop.began > copied and drop.ended < back)
        ]

    def lost(self, began: float, ended: float) -> bool:
        return any(loss.excuses(began, ended) for loss in self.losses)

    def was_told_in_vain(self, told: float) -> bool:
        """Whether PostgreSQL has lost what it said by then, as of a drop, which a keeper may say for a while still."""
        return any(loss.kept <= told <= loss.over + self.bound for loss in self.losses)

    def dropped(self, name: str, began: float) -> bool:
        """Whether what was acknowledged then may have been dropped with its database since."""
        return any(drop.name == name and drop.ended >= began for drop in self.drops)

    def went(self, name: str, tried: float, looked: float, lost: float | None) -> bool:
        """Whether what was tried had gone with its database at a look, which may have it for a while still; and, where it was told to be lost
        since the drop began, whether it went after the look."""
        return any(
            drop.name == name
            and drop.ended >= tried
            and looked <= drop.ended + self.bound
            and drop.began <= (looked if lost is None else max(looked, lost))
            for drop in self.drops
        )

    def changed(self, name: str, began: float, ended: float) -> bool:
        """Whether a database may have become another, or less, between these times, as far as a reader sees it a while later."""
        return any(
            drop.name == name and drop.began <= ended and drop.ended + self.bound >= began
            for drop in self.drops
        ) or any(loss.kept <= ended and loss.over + self.bound >= began for loss in self.losses)


class Chains:
    """The links of one life, as writers have noted them."""

    def __init__(self) -> None:
        self.before: dict[str, Note] = {}
        self._chains: list[dict[int, str]] = []

    def chain(self, top: str, seq: int) -> dict[int, str]:
        """The sums up to this link by their numbers; of a chain that goes further too."""
        for known in self._chains:
            if known.get(seq) == top:
                return known
        found, sum = {}, top
        while sum != GENESIS and sum in self.before:
            found[self.before[sum]["seq"]] = sum
            sum = self.before[sum]["before"]
        if sum == GENESIS:
            self._chains.append(found)
        return found

    def has(self, look: Note, link: Note) -> bool:
        return bool(
            link["seq"] <= look["seq"]
            and self.chain(look["sum"], look["seq"]).get(link["seq"]) == link["sum"]
        )


def _same(one: Note, other: Note) -> bool:
    """Whether two looks are of one connection."""
    return bool((one["who"], one["opened"]) == (other["who"], other["opened"]))


class Shown:
    """Looks at one life, or at one page of it, by the time at which they began."""

    def __init__(self) -> None:
        self.looks: list[Note] = []
        self._began: list[float] = []

    def add(self, look: Note) -> None:
        at = bisect(self._began, look["began"])
        self.looks.insert(at, look)
        self._began.insert(at, look["began"])

    def after(self, time: float) -> Note | None:
        """The first one that began after it."""
        at = bisect(self._began, time)
        return self.looks[at] if at < len(self.looks) else None


class Check:
    def __init__(self, folder: Path, past: Past) -> None:
        self.past, self.bound = past, past.bound
        self.notes: list[Note] = []
        for file in folder.glob("*.notes"):
            self.notes += notes_of(file)[0]
        self.notes.sort(key=lambda note: float(note["noted"]))
        self.chains: defaultdict[tuple[str, str], Chains] = defaultdict(Chains)
        self.shown: defaultdict[tuple[object, ...], Shown] = defaultdict(Shown)
        self.tries: defaultdict[tuple[str, str, str], set[int]] = defaultdict(set)
        self.lives: defaultdict[tuple[str, str], float] = defaultdict(lambda: float("inf"))
        for note in self.notes:
            self._take(note)

    def _take(self, note: Note) -> None:
        if note["what"] == "try":
            for link in note["links"]:
                key = link["name"], link["life"]
                self.lives[key] = min(self.lives[key], note["noted"])
                self.tries[*key, note["who"]].add(note["number"])
                if "sum" in link:
                    self.chains[key].before[link["sum"]] = link
        elif note["what"] == "look" and note["kind"] != "at":
            self.shown[note["name"], note["life"], note.get("writer"), note.get("first")].add(note)

    def violations(self) -> list[str]:
        found = [
            f"{note['who']}: {note['text']}" for note in self.notes if note["what"] == "violation"
        ]
        found += [
            *self._moved(),
            *self._invented(),
            *self._lost(),
            *self._refused(),
            *self._after_drops(),
            *self._back(),
            *self._stale(),
            *self._restored(),
        ]
        return found

    def counts(self) -> Counter[str]:
        """What was noted, by kind; acknowledged ones by whether they are durable."""
        counts: Counter[str] = Counter()
        for note in self.notes:
            counts[f"{note['what']} durable" if note.get("durable") else note["what"]] += 1
        return counts

    # What a position has, and had.

    def _moved(self) -> Iterator[str]:
        """Of another life it has something else, where the reader has not yet heard that its database was dropped."""
        for note in self.notes:
            if note["what"] == "moved" and not self.past.losses:
                old, new = note["lives"]
                if old == new or not self.past.changed(note["name"], note["began"], note["noted"]):
                    yield f"{note['who']} moved: position {note['position']} has link {note['seqs'][1]} of life {new}, and had {note['seqs'][0]} of {old}"

    # What was shown and never tried.

    def _invented(self) -> Iterator[str]:
        for (name, life, *_), shown in self.shown.items():
            for look in shown.looks:
                if "bits" in look:
                    unknown = self._numbers(look) - self.tries[str(name), str(life), look["writer"]]
                    if unknown:
                        yield f"invented: {sorted(unknown)[:5]} of {look['writer']} in life {life} of {name}, for {look['who']}"
                elif (
                    look["seq"]
                    and len(
                        chain := self.chains[self._origin(str(name)), str(life)].chain(
                            look["sum"], look["seq"]
                        )
                    )
                    < look["seq"]
                ):
                    yield f"invented: link {look['seq'] - len(chain)} of life {life} of {name}, for {look['who']}"

    def _origin(self, name: str) -> str:
        """The database that a copy is of."""
        return next(
            (restored.name for restored in self.past.restored if restored.copy == name), name
        )

    def _numbers(self, look: Note) -> set[int]:
        bits = int(look["bits"], 16)
        return {look["first"] + index for index in range(bits.bit_length()) if bits >> index & 1}

    # What was acknowledged as durable, and is gone, or was not shown in time.

    def _lost(self) -> Iterator[str]:
        for note, link in self._links("acknowledged"):
            if not note["durable"] or self.past.lost(note["began"], note["noted"]):
                continue
            shown = self._shown_of(note, link)
            late, last = (
                shown.after(note["noted"] + self.bound),
                shown.looks[-1] if shown.looks else None,
            )
            final = (
                last
                if last is not None and ".final-" in last["who"] and last["began"] > note["noted"]
                else None
            )
            lacking = [
                look
                for look in (late, final)
                if look is not None and not self._has(look, note, link)
            ]
            if lacking:
                yield (
                    f"lost or stale: {self._named(note, link)}, noted at {note['noted']:.2f}, not for {lacking[-1]['who']} "
                    f"at {lacking[-1]['began']:.2f}"
                )
            elif (
                final is None
                and self._is_over(link)
                and not self.past.dropped(link["name"], note["began"])
            ):
                yield f"lost: {self._named(note, link)}, whose life is gone, and nobody dropped it"

    def _shown_of(self, note: Note, link: Note) -> Shown:
        """The looks that were at what is linked."""
        if "sum" in link:
            return self.shown[link["name"], link["life"], None, None]
        return self.shown[
            link["name"], link["life"], note["who"], note["number"] // ENTRIES * ENTRIES
        ]

    def _is_over(self, link: Note) -> bool:
        """Whether the last look at the database was at another life."""
        return self._last_life(link["name"]) not in ("", link["life"])

    @functools.cache
    def _last_life(self, name: str) -> str:
        ends = [
            (shown.looks[-1]["began"], str(life))
            for (of, life, *_), shown in self.shown.items()
            if of == name and shown.looks
        ]
        return max(ends)[1] if ends else ""

    def _has(self, look: Note, note: Note, link: Note) -> bool:
        if "sum" in link:
            return self.chains[link["name"], link["life"]].has(look, link)
        return bool(int(look["bits"], 16) >> (note["number"] - look["first"]) & 1)

    def _links(self, what: str) -> Iterator[tuple[Note, Note]]:
        for note in self.notes:
            if note["what"] == what:
                for link in note.get("links", ()):
                    yield note, link

    def _named(self, note: Note, link: Note) -> str:
        return (
            f"number {note['number']} of {note['who']} in life {link['life']} of {link['name']}"
            + (f", link {link['seq']}" if "seq" in link else "")
        )

    # What was refused for good, and is there.

    def _refused(self) -> Iterator[str]:
        """Of a transaction to two databases the last one has refused it; the first is changed back, unless that is refused too."""
        refused = {
            (note["who"], note["number"]): note["noted"] if note["what"] == "lost" else None
            for note in self.notes
            if note["what"] in ("refused", "lost")
            and not (note["what"] == "lost" and self.past.was_told_in_vain(note["noted"]))
        }
        for note, link in self._links("try"):
            if (note["who"], note["number"]) in refused and link is note["links"][-1]:
                for look in self._shown_of(note, link).looks[-1:]:
                    lost = refused[note["who"], note["number"]]
                    went = self.past.went(link["name"], note["noted"], look["began"], lost)
                    if look["kind"] == "durable" and not went and self._has(look, note, link):
                        yield f"refused, and yet there: {self._named(note, link)}"

    # What was acknowledged in a database that was dropped before.

    def _after_drops(self) -> Iterator[str]:
        for drop in self.past.drops:
            for note, link in self._links("acknowledged"):
                is_old = (
                    link["name"] == drop.name
                    and self.lives[link["name"], link["life"]] < drop.began
                )
                if drop.is_done and note["durable"] and is_old and note["began"] > drop.ended:
                    yield f"acknowledged after its database was dropped: {self._named(note, link)}, {note['began'] - drop.ended:.1f} s after"

    # Readers that went back.

    def _back(self) -> Iterator[str]:
        """Durable ones: of Python an object, of SQLite a connection, and those of its process that were opened later."""
        shown: defaultdict[tuple[object, ...], list[Note]] = defaultdict(list)
        for note in self.notes:
            if note["what"] == "look" and note["kind"] == "durable":
                of = (
                    (note["who"], note["opened"], note["writer"], note["first"])
                    if "bits" in note
                    else (note["name"],)
                )
                shown[note.get("process"), *of].append(note)
        opened: dict[tuple[str, int], float] = {}
        for looks in shown.values():
            for number, note in enumerate(looks):
                since = opened.setdefault((note["who"], note["opened"]), note["began"])
                own = next(
                    (
                        each
                        for each in reversed(looks[:number])
                        if _same(each, note) and each["noted"] < note["began"]
                    ),
                    None,
                )
                others = [
                    each
                    for each in looks[:number]
                    if not _same(each, note) and each["noted"] < since
                ]
                for before in [
                    each
                    for each in (own, max(others, key=lambda each: int(each["seq"]), default=None))
                    if each is not None
                ]:
                    if not self._follows(before, note) and not self.past.changed(
                        note["name"], before["began"], note["noted"]
                    ):
                        yield f"{note['who']} went back: {before} and then {note}"

    def _follows(self, before: Note, note: Note) -> bool:
        if "bits" in note:
            old = int(before["bits"], 16)
            is_one_life = before["life"] in ("", note["life"])
            return is_one_life and bool(
                note["end"] >= before["end"] and int(note["bits"], 16) & old == old
            )
        chains, last = self.chains[note["name"], before["life"]], before
        while last["sum"] in self._halves and last["seq"] > 1:
            earlier = chains.before[last["sum"]]["before"]
            last = {"seq": last["seq"] - 1, "sum": earlier}
        if not last["seq"] or last["sum"] in self._halves:
            return True  # not even the life was acknowledged
        return before["life"] == note["life"] and chains.has(note, last)

    @functools.cached_property
    def _halves(self) -> set[str]:
        """Links of transactions to two databases that were not acknowledged: one of them may be changed back after it was there."""
        acknowledged = {
            (note["who"], note["number"]) for note in self.notes if note["what"] == "acknowledged"
        }
        return {
            link["sum"]
            for note, link in self._links("try")
            if len(note["links"]) > 1 and (note["who"], note["number"]) not in acknowledged
        }

    # Copies of a position, which have what was acknowledged up to there.

    def _restored(self) -> Iterator[str]:
        for restored in self.past.restored:
            for (name, life, *_), shown in self.shown.items():
                if name != restored.copy or not life:
                    continue
                look = shown.looks[-1]
                chain = self.chains[restored.name, str(life)].chain(look["sum"], look["seq"])
                for note, link in self._links("acknowledged"):
                    is_of_it = (link["name"], link["life"]) == (restored.name, life) and note[
                        "noted"
                    ] < restored.began
                    if (
                        is_of_it
                        and 0 < note.get("position", 0) <= restored.at
                        and chain.get(link["seq"]) != link["sum"]
                        and not self._excused(note)
                    ):
                        yield f"not in the copy {restored.copy} of position {restored.at}: {self._named(note, link)}, position {note['position']}"

    def _excused(self, note: Note) -> bool:
        return not note["durable"] or self.past.lost(note["began"], note["noted"])

    # Readers that stay at a life that is over.

    def _stale(self) -> Iterator[str]:
        began: dict[tuple[str, str], float] = {}
        """When something was first acknowledged in each life that PostgreSQL has not lost."""
        for note, link in self._links("acknowledged"):
            if note["durable"] and not self.past.lost(note["began"], note["noted"]):
                began.setdefault((link["name"], link["life"]), note["noted"])
        for (name, life, *_), shown in self.shown.items():
            if name != self._origin(str(name)):
                continue
            first = self.lives[str(name), str(life)]
            over = [
                at
                for (of, other), at in began.items()
                if of == name and other != life and life and self.lives[of, other] > first
            ]
            late = shown.after(min(over) + self.bound) if over else None
            if late is not None:
                yield f"stale: {late['who']} ({late['kind']}) at life {life} of {name}, {late['began'] - min(over):.0f} s after the next one's first commit"
