"""One database of a page server: it begins with the oldest base above which all is kept, follows what is archived, and begins again where that
is another history than the one that it has, or blocks between the two are gone."""

from __future__ import annotations

import json
import threading
import time
from contextlib import suppress
from dataclasses import dataclass
from pathlib import Path
from typing import Any, Callable, Iterator

from pagelog.errors import PagelogError
from pagelog.keeper.run import new_run
from pagelog.pages.bell import Bell, Told
from pagelog.pages.directory import (
    Archived,
    PageServerEntry,
    leave,
    look,
    news,
    note_end,
    oldest_kept,
    whole_from,
)
from pagelog.pages.process import (
    OtherChain,
    PagesProcess,
    Serving,
    StoreFailed,
    ServedBounds,
    is_rot,
)
from pagelog.pages.stores import (
    MOST_ASIDE,
    SetAside,
    PageStore,
    beyond_bound,
    delete,
    move_aside,
    note_aside,
    reported,
    sentence,
)
from pagelog.pages.table import table_of_pages
from pagelog.referee.bases import NOTHING, Base, Bases
from pagelog.referee.referee import BrokenArchive, KeeperError, Referee, digest
from pagelog.repeating import Backoff, Repeats
from pagelog.secure import Trust

_SOON, _RARELY = 0.01, 0.25
"""Seconds between two questions for what is archived: the first after something was, and the longest."""
_AT_ONCE = 1024
"""Blocks that are taken by a keeper's word; of more PostgreSQL is asked."""
_LOOK = 1.0
"""Seconds after which it says again where it is, and hears of a newer table."""
_FLUSH = 5.0
"""Seconds after which what is in memory alone goes to the disk."""
_PRUNED = 60.0
"""Seconds after which it asks what PostgreSQL still keeps."""
_AWAY, _LONGEST_AWAY = 0.2, 5.0


class Gone(PagelogError):
    """PostgreSQL has no such database any more."""


class WentBack(PagelogError):
    """PostgreSQL has another history than the page server, or less of it."""


class Rotten(PagelogError):
    """The disk does not give back what was written, and PostgreSQL has all of it."""


@dataclass(frozen=True)
class PageServerSettings:
    """How page servers are started: their program, the folder of their stores, the host that they listen at, what this machine is called,
    and further options of the program; how they serve by TLS, if they do; and by which TLS keepers are asked, if by any.
    """

    program: Path
    folder: Path
    host: str
    machine: str
    options: tuple[str, ...] = ()
    serving: Serving | None = None
    trust: Trust | None = None

    def start(self, store: Path, identity: str) -> PagesProcess:
        """The program, with a store of the database of this identity."""
        listen, secure = f"{self.host}:0", tuple[str, ...]()
        if self.serving is not None:
            listen, secure = self.serving.listen(self.host), self.serving.options(
                self.host, identity
            )
        return PagesProcess(self.program, store, listen, *secure, *self.options)


class Follower:
    """Of one database, in a thread of its own, until it is told to end or the database is gone."""

    def __init__(
        self,
        settings: PageServerSettings,
        referee: Referee,
        name: str,
        identity: str,
        say: Callable[[str, str], None],
    ) -> None:
        self.name, self.identity = name, identity
        self._settings, self._referee = settings, referee
        self._repeats = Repeats(say)
        self._ends, self._wake = threading.Event(), threading.Event()
        self._bell = Bell(name, identity, self._wake.set, settings.trust)
        self._store: PageStore | None = None
        self._process: PagesProcess | None = None
        self._has_begun = False
        """Whether its process has followed up to what was archived. PostgreSQL may be away before."""
        self._archived: Archived | None = None
        self._table_number = self._said_table = 0
        """The number of its table, and the one that its row has."""
        self._answers = self._is_told = False
        """Whether its process answers by that table, and whether its row says that it may, by a look that is committed."""
        self._is_audited = self._is_closed = False
        """Whether all reads of the database are to be audited, as the last look has it, and whether its process answers nobody since."""
        self._looks = 0
        """How often it has said where it is."""
        self._chain: bytes | None = None
        """The digest of all that is confirmed."""
        self._was_confirmed = False
        """Whether what the store has was PostgreSQL's at some time."""
        self._rot = self._noted = ""
        """Why what its store has is to be made again, and what was found damaged last."""
        self.damages = 0
        """How often a store of it was found damaged."""
        self._known: tuple[int, bytes] | None = None
        """The position up to which PostgreSQL has confirmed last what its store has, and the digest of all up to there."""
        self._asides: list[dict[str, Any]] = []
        """Those of the database that were quarantined, as its row has them."""
        self._looked = self._flushed = self._pruned = float("-inf")
        self.address: str | None = None

    @property
    def where(self) -> ServedBounds | None:
        """Where its process is; None where that answers nobody yet."""
        process = self._process
        return process.where if process is not None and self._has_begun else None

    def end(self) -> None:
        """It ends soon."""
        self._ends.set()
        self._wake.set()

    def run(self) -> None:
        """Follows until the end."""
        waits, other, is_gone = Backoff(_AWAY, _LONGEST_AWAY), "", False
        while not self._ends.is_set():
            try:
                if other:
                    self._begin_anew(other)
                    other = ""
                    self._ends.wait(
                        waits.next()
                    )  # where PostgreSQL does not fit itself it comes again
                self._begin()
                waits.reset()
                self._follow()
            except Gone as error:
                self._say(str(error))
                self._leave()
                is_gone = True
                break
            except (WentBack, OtherChain) as error:
                other = str(error)
            except Rotten as error:
                self._make_again(str(error))
                self._ends.wait(waits.next())
            except (KeeperError, StoreFailed, OSError) as error:
                self._say(f"it waits: {error}")
                if isinstance(error, StoreFailed):
                    self._note_damage(str(error))
                self._looked = float("-inf")  # it may be another PostgreSQL that answers next
                self._ends.wait(waits.next())
        self._bell.end()
        self._stop()
        if self._store is not None and not is_gone:
            with suppress(KeeperError):
                note_end(self._referee, self._store.run)
        self._referee.close()

    def _say(self, sentence: str) -> None:
        self._repeats.say(self.name, sentence)

    # Beginning.

    def _begin(self) -> None:
        """Opens the store, or makes one. Nobody is answered before what it has is known to be of the history that PostgreSQL has."""
        if self._process is None or not self._is_alive():
            self._open()
        if self._has_begun:
            return
        self._look()
        if self._rot and self._has_all():
            raise Rotten(self._rot)
        self._fill()
        self._catch_up()
        self._see_damage()
        assert self._process is not None
        self._has_begun = True
        if not self._is_closed:
            self._say(
                f"pages at {self.address}, positions {self._process.where.oldest} to {self._process.where.confirmed}"
            )

    def _open(self) -> None:
        self._stop()
        self._has_begun = False
        found = PageStore.found(self._settings.folder, self.name, self.identity)
        self._store = found or PageStore(self.name, self.identity, new_run())
        if found is None:
            self._store.save(self._settings.folder)
        for left in self._store.left(self._settings.folder):
            self._set_aside(left, "it was cut off while it was quarantined, or its entry was lost")
        self._asides = reported(self._settings.folder, self.identity)
        self._table_number, self._chain = 0, None
        self._answers = self._is_told = False
        folder = self._store.folder(self._settings.folder)
        try:
            self._process = self._settings.start(folder, self.identity)
        except StoreFailed as error:
            raise StoreFailed(
                f"{folder} cannot be opened, and another is made once it is moved away: {error}"
            ) from error
        self.address, self._was_confirmed = self._process.address, self._process.where.confirmed > 0

    def _is_alive(self) -> bool:
        assert self._process is not None
        try:
            self._process.ask()
            return True
        except StoreFailed:
            return False

    def _fill(self) -> None:
        """Of an empty store: begins with the oldest base above which no block is gone."""
        assert self._process is not None and self._archived is not None
        if self._process.where.written or self._archived.position == 0:
            return
        log, archived = self._archived.log, self._archived.position
        bases, begins = Bases(self._referee, log), whole_from(self._referee, log, archived)
        base = bases.newest(archived if begins is None else begins)
        if base is NOTHING:
            return
        try:
            self._process.begin(base.position, base.chain, _pages_of(bases, base))
        except (
            KeeperError
        ):  # as where the base is pruned meanwhile: the next store begins with all pages of one base
            store, process, self._process = self._store, self._process, None
            process.kill()
            if store is not None:
                delete(store.folder(self._settings.folder))
            raise

    def _begin_anew(self, why: str) -> None:
        """Nobody is answered from the store any more, and it is quarantined. Another one is made, of another run, so that who was led to this
        one is denied there."""
        self._say(f"it begins again: {why}")
        process, store = self._process, self._store
        self._process = self._known = None
        if process is not None:
            process.put_away()
        if store is None:
            return
        self._leave()
        PageStore(self.name, self.identity, new_run()).save(self._settings.folder)
        self._set_aside(store, why, was_confirmed=self._was_confirmed)

    def _note_damage(self, why: str) -> None:
        """Counts it, once of a store. One that was opened is made again."""
        if is_rot(why) and why != self._noted and not self._rot:
            self._noted = why
            self.damages += 1
            self._rot = why if self._process is not None else ""

    def _see_damage(self) -> None:
        """To be called once PostgreSQL has confirmed all that the store has. What could not be read nobody was given."""
        assert self._process is not None
        damage = self._process.where.damage
        self._note_damage(damage)
        if self._rot:
            raise Rotten(self._rot)
        if damage:
            self._say(f"something could not be read: {damage}")

    def _has_all(self) -> bool:
        """Whether PostgreSQL has all that its store ever had, by the digest of the blocks behind what was confirmed last: one that is damaged may
        take no more of them."""
        assert self._archived is not None
        found, (position, chain) = self._archived, self._known or (0, b"")
        if not 0 < position <= found.position:
            return False
        for piece in self._referee.blocks(found.log, position + 1, found.position):
            chain = digest(chain, piece)
        return chain == found.chain

    def _make_again(self, why: str) -> None:
        """As a store that is lost: nobody is answered from it any more, and it goes, which is no only copy."""
        self._repeats.say_now(self.name, f"its store is damaged, and made again: {why}")
        process, store, self._process = self._process, self._store, None
        self._rot = self._noted = ""
        self._known = None
        if process is not None:
            process.kill()
        if store is not None:
            self._leave()
            PageStore(self.name, self.identity, new_run()).save(self._settings.folder)
            delete(store.folder(self._settings.folder))

    def _set_aside(self, store: PageStore, why: str, *, was_confirmed: bool = True) -> None:
        """It may be the only copy of what PostgreSQL has lost. One of which nothing was ever confirmed is no copy, and deleted."""
        folder = self._settings.folder
        path = move_aside(folder, store)
        where = self._where(path)
        if where is not None and not (was_confirmed and where.confirmed):
            return delete(path)
        made = note_aside(
            folder, store, None if where is None else (where.oldest, where.confirmed), why
        )
        self._repeats.say_now(
            self.name, f"quarantined, as PostgreSQL may have lost what it has: {self._said(made)}"
        )
        for each in beyond_bound(folder, self.identity):
            self._repeats.say_now(
                self.name,
                f"deleted, as {MOST_ASIDE} others were quarantined since: {self._said(each)}",
            )
            delete(each.path(folder))

    def _said(self, aside: SetAside) -> str:
        return sentence(self.name, self._settings.machine, aside.report(self._settings.folder))

    def _where(self, store: Path) -> ServedBounds | None:
        """What a store has that is not in use; None where it cannot be opened. It has no table: nobody is answered."""
        try:
            process = self._settings.start(store, self.identity)
        except StoreFailed:
            return None
        process.end()
        return process.where

    def _leave(self) -> None:
        """Its row goes; where PostgreSQL is away it stays, with a heartbeat that stands still."""
        if self._store is not None:
            with suppress(KeeperError):
                leave(self._referee, self._store.run)

    # Following.

    def _follow(self) -> None:
        waits = Backoff(_SOON, _RARELY)
        while not self._ends.is_set():
            assert self._process is not None and self._archived is not None
            is_news, told = False, self._bell.taken()
            if told is not None:
                is_news = not self._take(told)
            elif not self._bell.hears:
                is_news = news(self._referee, self._archived.log, self.identity) != (
                    self._process.where.confirmed,
                    self._archived.table_number if self._is_closed else self._table_number,
                )
            if is_news or time.monotonic() - self._looked >= _LOOK:
                self._look()
                self._catch_up()
                self._see_damage()
            if is_news:
                waits.reset()
            if (
                time.monotonic() - self._flushed >= _FLUSH
                and self._process.where.persisted < self._process.where.confirmed
            ):
                self._process.flush()
                self._flushed = time.monotonic()
            self._wake.wait(
                _LOOK
                if self._bell.hears and (self._is_closed or self._table_number == self._said_table)
                else waits.next()
            )
            self._wake.clear()

    def _take(self, told: Told) -> bool:
        """Takes the blocks up to what PostgreSQL has, as the keeper says whose statement it was: if they have its digest. False: PostgreSQL is
        to be asked."""
        assert self._process is not None and self._archived is not None
        where = self._process.where
        if told.position <= where.confirmed:
            return True
        if (
            self._chain is None
            or where.written != where.confirmed
            or told.position - where.written > _AT_ONCE
        ):
            return False
        blocks = self._told_blocks(self._archived.log, where.written + 1, told.position)
        if digest(self._chain, blocks) != told.chain:
            return False
        self._process.add(blocks, told.chain)
        self._chain, self._known = told.chain, (told.position, told.chain)
        return True

    def _told_blocks(self, log: int, first: int, last: int) -> list[bytes]:
        """Blocks that are archived, as a keeper says. A PostgreSQL that lacks them is an older leader, which goes on: the next host is asked
        then. Raises `BrokenArchive`."""
        try:
            return [block for piece in self._referee.blocks(log, first, last) for block in piece]
        except BrokenArchive:
            self._referee.close()
            self._referee.turn_hosts()
            raise

    def _look(self) -> None:
        """Says where it is, and hears what is archived, by a statement that writes."""
        assert self._process is not None
        self._process.ask()
        self._archived = self._enter()

    def _enter(self) -> Archived:
        assert self._process is not None and self._store is not None
        where = self._process.where
        secure = (
            None if self._process.secure is None else self._process.secure.text(self._store.run)
        )
        entry = PageServerEntry(
            self._store.run,
            self.identity,
            self._settings.machine,
            "" if self._is_closed else self._process.address,
            secure,
            where.confirmed,
            where.persisted,
            where.oldest,
            self._table_number,
            json.dumps(self._asides),
        )
        found = look(self._referee, entry, is_secure=self._settings.trust is not None)
        self._looked, self._said_table = time.monotonic(), self._table_number
        self._looks += 1
        self._is_told = not self._is_closed
        if found is None:
            self._process.close_doors()
            raise Gone(
                f"PostgreSQL has no database {self.name} of this identity any more: {self._store.folder(self._settings.folder)} stays as it is"
            )
        self._is_audited = found.is_audited
        if self._is_audited and not self._is_closed:
            self._close()
            return self._enter()  # who has asked for it waits for this row
        return found

    def _close(self) -> None:
        """Once this returns nobody is answered any more."""
        assert self._process is not None
        self._process.close_doors()
        self._is_closed, self._answers = True, False
        self._say("reads are audited: it follows, and answers nobody")

    def _may_answer(self) -> bool:
        """Asks whether it may once its row says that it does: who has all reads audited from then on sees that row, or is seen here."""
        if not self._is_told:
            self._is_closed = False
            self._enter()
        if not self._is_audited:
            self._enter()
        return not self._is_audited

    def _wants_table(self, found: Archived) -> bool:
        """Whether the newest table is to be put in force."""
        if self._answers:
            return self._table_number != found.table_number
        return self._may_answer()

    def _set_table(self, found: Archived) -> None:
        assert self._process is not None and self._store is not None
        table = self._referee.table(found.log)
        self._process.set_table(
            table_of_pages(table.text, table.secret, self.name, self._store.run)
        )
        self._table_number, self._looked = table.number, float("-inf")  # which it says at once
        if self._has_begun and not self._answers:
            self._say(f"pages at {self.address} again")
        self._answers = True

    def _catch_up(self) -> None:
        """Takes all blocks up to the archived position, which their digest confirms."""
        assert self._process is not None and self._archived is not None
        found, written = self._archived, self._process.where.written
        if written > found.position:
            raise WentBack(
                f"PostgreSQL has positions up to {found.position}, and this has blocks up to {written}"
            )
        last: list[bytes] = []
        try:
            for piece in self._referee.blocks(found.log, written + 1, found.position):
                if last:
                    self._process.add(last)
                last = piece
                if self._ends.is_set():
                    return
                if time.monotonic() - self._looked >= _LOOK:
                    self._enter()  # it is behind, and not gone
        except BrokenArchive as error:
            begins = whole_from(self._referee, found.log, found.position)
            if begins is not None and begins > self._process.where.written:
                raise WentBack(f"{error}, and all from {begins} on is there") from error
            raise
        self._process.add(last, found.chain or None)
        self._was_confirmed, self._chain = True, found.chain
        self._known = found.position, found.chain
        self._bell.lead(found.lines, found.position)
        if not self._is_audited and self._wants_table(found):
            self._set_table(found)
        if time.monotonic() - self._pruned >= _PRUNED:
            self._forget(found.log)

    def _forget(self, log: int) -> None:
        """What PostgreSQL keeps no more, nor does this."""
        assert self._process is not None
        self._pruned = time.monotonic()
        if self._process.where.oldest < (
            kept := min(oldest_kept(self._referee, log), self._process.where.confirmed)
        ):
            self._process.forget(kept)
            self._say(f"positions below {kept} are forgotten, as in PostgreSQL")

    def _stop(self) -> None:
        process, self._process = self._process, None
        if process is not None:
            process.end()


def _pages_of(bases: Bases, base: Base) -> Iterator[tuple[int, bytes]]:
    for image in bases.images(base):
        yield from image.pages()
