"""The loop of a keeper: looks, has each database decide and act, and answers the lines."""

from __future__ import annotations

import asyncio
import gc
import json
import logging
import secrets
import signal
from collections import defaultdict
from concurrent.futures import ThreadPoolExecutor
from contextlib import suppress
from dataclasses import replace
from functools import partial
from typing import TYPE_CHECKING, Any

from pagelog.errors import CredentialsError, PagelogError
from pagelog.keeper.aside import Aside
from pagelog.keeper.certificate import Shown
from pagelog.keeper.database import Database
from pagelog.keeper.doubts import Doubts
from pagelog.keeper.fast_plane import FastPlane
from pagelog.keeper.folder import KeeperFolder
from pagelog.keeper.front import end_fronts
from pagelog.keeper.front_care import FrontCare
from pagelog.keeper.haproxy import FrontError
from pagelog.keeper.lines import Key, Line, Server, of_word
from pagelog.keeper.machine import Stillness
from pagelog.keeper.notify import notify
from pagelog.keeper.orphans import OrphanFate, close_left, seen_to
from pagelog.keeper.page_servers import LivingPages
from pagelog.keeper.places import Places
from pagelog.keeper.quick import QuickReferee
from pagelog.keeper.quota import Quota
from pagelog.keeper.reported import Reported
from pagelog.keeper.run import Run, Seen, has_services, orphans_of
from pagelog.keeper.runner import RunnerError
from pagelog.keeper.served import Served, seconds
from pagelog.keeper.session import Session
from pagelog.keeper.settings import Settings
from pagelog.keeper.shared import Shared
from pagelog.keeper.turns import AllTurns
from pagelog.referee.fate import Of
from pagelog.referee.hosts import unverified
from pagelog.referee.referee import NAME, KeeperError, NameInUse, Referee, Superseded, options_of
from pagelog.referee.rows import KeeperRow, Look, NamedLife, Row, StandbyRow, Synchronous
from pagelog.referee.schema import NUMBERS
from pagelog.referee.sealed import KEYS
from pagelog.repeating import Backoff, Repeats

if TYPE_CHECKING:
    from pagelog.keeper.recorder import Trails
    from pagelog.keeper.storing import Storing

HELD_BACK = 1.0
"""Seconds for which the answer to a `where` may wait for the next generation."""
EACH_WHERE, ALL_WHERE = 4, 10_000
"""How many of these answers one connection may wait for, and how many all of them: who asks for more is answered at once."""
LOOKS = 4
"""How many looks there are in a ttl."""
_SOON = 0.05
"""Seconds between two looks while a switchover waits for its standby: they alone tell how near it is, which a fast writer undoes."""
_NEXT = 0.02
"""Seconds after a look before one that a reader of a standby asks for."""
_log = logging.getLogger("pagelog.keeper")


class Keeper:
    """A keeper. `run` is all that it does; `ended` makes it hand over what it holds, and end."""

    def __init__(self, settings: Settings) -> None:
        self.settings = settings
        self._folder = KeeperFolder(settings.program.folder, settings.name)
        self._repeats = Repeats(self._say)
        self.life = secrets.token_hex(8)
        self.databases: dict[str, Database] = {}
        """By their identities: a PostgreSQL that went back gives the number of a row again."""
        self._reported = defaultdict[str, Reported](Reported)
        """What is said of each of them."""
        self._by_name: dict[str, Database] = {}
        """Those that the last look has shown, and that were not dropped."""
        self.look = Look()
        self.lines = (
            settings.lines if settings.tls is None or settings.tls.plain else settings.tls.lines
        )
        self._session = Session(
            Referee(
                settings.url,
                settings.name,
                self.life,
                listens=True,
                requires_standby=settings.require_standby,
                keys=settings.keys,
                store=settings.store,
            ),
            settings.ttl,
        )
        self._doubting = Session(
            Referee(
                settings.url, settings.name, self.life, requires_standby=settings.require_standby
            ),
            2 * settings.ttl,
        )
        doubts = Doubts(self._doubting, partial(self._say, "the archive"))
        self._shared = Shared(
            settings,
            self.life,
            self._session,
            doubts,
            self._ways(doubts),
            self._say,
            self._changed,
            self._trails(),
        )
        self._server = Server(self)
        self._care = (
            None
            if settings.tls is None
            else FrontCare(
                settings.tls,
                self._folder.path,
                partial(self._repeats.say, "the front"),
                self._shared.spawn,
            )
        )
        self._shared.front = None if self._care is None else self._care.front
        self._places = Places(self.where)
        self._moving = Quota(EACH_WHERE, ALL_WHERE)
        """The answers to `where` that wait."""
        self._turns = AllTurns(
            ttl=settings.ttl,
            fast=lambda *what: self._shared.ways.turns_of(*what),
            is_whole=self._is_whole,
        )
        self._storing = self._new_storing()
        self._rival: NamedLife | None = None
        """Who had the name when it was asked for last."""
        self._rival_stillness, self._rival_still = Stillness(settings.ttl), 0.0
        self._is_disowned = False
        """Whether a keeper of another folder has the name."""
        self._lives: dict[str, Stillness] = {}
        self._living: set[str] = set()
        self._pages = LivingPages(settings.ttl)
        self._beats: dict[str, int] = {}
        self._rose: dict[str, float] = {}
        """When a look showed that the beat of a keeper had risen: that one was alive since, and knew this PostgreSQL."""
        self.synchronous = Synchronous()
        self._looks = 0
        """How many PostgreSQL has confirmed."""
        self._looked = 0.0
        self._next_look: asyncio.TimerHandle | None = None
        """When the last one ended, and the timer of one that comes before it is due."""
        self._said = ""
        self._stops = False
        self._may_have = False
        """Whether there are services of a previous instance, and no look has shown yet what they have."""
        self._left: list[Run] = []
        """Those whose runs nobody holds, and of which it is not known yet what is to become."""
        self._orphans: dict[str, Served] = {}
        """Those of them that go on, by the identities of their databases."""

    def _trails(self) -> Trails | None:
        if not self.settings.trail:
            return None
        from pagelog.keeper.recorder import Trails

        return Trails(self.settings.url, self.settings.trail, self.settings.ttl)

    def _new_storing(self) -> Storing | None:
        if self.settings.store is None:
            return None
        from pagelog.keeper.storing import Storing, check_libraries

        check_libraries(self.settings.store)
        return Storing(self.settings, self._repeats.say)

    def _ways(self, doubts: Doubts) -> FastPlane:
        settings = self.settings
        return FastPlane(
            lambda: QuickReferee(settings.url, settings.name, self.life),
            idle=settings.ttl,
            deadline=2 * settings.ttl,
            confirms=settings.require_standby,
            has_trails=bool(settings.trail),
            say=doubts.say,
        )

    def _say(self, name: str, sentence: str) -> None:
        _log.info("%s: %s", name, sentence)

    def _say_of_referee(self, sentence: str) -> None:
        """A line for each change, and where it changes again and again once a minute."""
        if sentence != self._said and self._repeats.try_to_say("the referee", sentence):
            self._said = sentence

    async def _say_of_encryption(self) -> None:
        if hosts := await asyncio.to_thread(unverified, options_of(self.settings.url)):
            self._say(
                "the referee",
                f"tokens and pages go to {', '.join(hosts)}, whoever that is, and may go there in the clear: "
                "the url has no sslmode=verify-full (docs/SECURITY.md)",
            )

    # Its life.

    async def run(self) -> int:
        """Keeps until it is told to end, or another has its name, or nothing can be archived any more. Returns the exit status.

        Raises `KeeperError` where another keeper has its folder.
        """
        gc.freeze()  # to look through all that is imported takes a collection 50 ms, in which nobody is answered
        loop = asyncio.get_running_loop()
        loop.set_default_executor(ThreadPoolExecutor(64))
        for number in (signal.SIGTERM, signal.SIGINT):
            loop.add_signal_handler(number, self.end)
        if not self._folder.take() and self._folder.owner != self.settings.name:
            raise KeeperError(
                f"keeper {self._folder.owner or 'another'} has the folder {self._folder.path}"
            )
        self._may_have = has_services(self._folder.path)
        self._shared.spawn(self._say_of_encryption(), "the referee")
        if self.settings.tls is None or self.settings.tls.plain:
            self.lines = await self._server.start(self.settings.lines)
        notify("READY=1")  # PostgreSQL may be away still
        self._shared.spawn(self._live(), "the watchdog")
        if self._storing is not None:
            self._shared.spawn(self._storing.run(), "the store")
        try:
            await self._begin()
            await self._look()
            print(f"listening {self.lines}", flush=True)
            while not self._is_over():
                await self._look()
                await self._session.rest(self._pause)
            await self._say_what_is_left()
            return 0
        except NameInUse as error:
            _log.error("%s", error)
            await self._end_what_holds_nothing()
            return 3
        except Superseded as error:
            _log.error("%s", error)
            self._is_disowned = await self._is_of_another_folder()
            return 3
        finally:
            await self._stop()

    async def _live(self) -> None:
        """Tells systemd that it lives, also while a statement waits for PostgreSQL: it is cut, and later each time."""
        while True:
            notify("WATCHDOG=1")
            await asyncio.sleep(self.settings.ttl / LOOKS)

    def end(self) -> None:
        """Hands over what it holds, and ends; told again, it ends at once, and leaves the services to its next instance."""
        self._stops, self._shared.ending = self._shared.ending, True
        self._say("the keeper", "asked to end at once" if self._stops else "asked to end")
        self._session.woken.set()

    async def _say_what_is_left(self) -> None:
        """The last report of a keeper that has handed over names no run that has ended."""
        if not self._stops:
            with suppress(KeeperError):
                await self._session.ask(
                    self._session.referee.look, {}, self._report()
                )  # its lines are told nobody any more

    def _is_over(self) -> bool:
        has_handed_over = not self._may_have and all(
            each.is_at_rest for each in self.databases.values()
        )
        return self._stops or (self._shared.ending and has_handed_over)

    async def _begin(self) -> None:
        """Takes its name, and ends the services of a previous instance that hold nothing. Raises `NameInUse`."""
        waits = Backoff(self.settings.ttl / LOOKS, self.settings.ttl)
        while not self._is_over():
            try:
                await self._session.ask(self._session.referee.prepare)
                if not await self._has_name():
                    await asyncio.sleep(self.settings.ttl / LOOKS)
                    continue
                if not self._folder.take():
                    await self._wait_for_folder()
                    continue
                look = await self._session.ask(self._session.referee.look)
            except (NameInUse, Superseded):
                raise
            except KeeperError as error:
                self._say_of_referee(str(error))
                await asyncio.sleep(waits.next())
                continue
            await asyncio.to_thread(self._shared.numbers.begin)
            self._folder.settle(self.life)
            await self._begin_front()
            wanted = {
                row.run
                for row in look.rows
                if row.run is not None and row.holder == self.settings.name
            }
            self._shared.asides.begin()
            self._left = await asyncio.to_thread(orphans_of, self._folder.path, wanted)
            await self._see_to_orphans(look)
            return

    async def _begin_front(self) -> None:
        """Before anything is led to: it is adopted with what it leads to. Of one that is not wanted any more nothing is left."""
        if self._care is None:
            await asyncio.to_thread(end_fronts, self._folder.path)
        else:
            await self._care.begin(self._server)

    async def _see_to_orphans(self, look: Look, *, has_name: bool = True) -> None:
        """What a previous instance has left and nobody holds is ended where it holds nothing. Else it continues as soon as its database is
        known here, or is quarantined. A keeper without its name continues nothing."""
        rest = Backoff(self.settings.ttl / LOOKS, self.settings.ttl)
        while self._left and not self._stops:
            process = self._left[-1]
            try:
                orphan = await self._session.ask(
                    seen_to, self._session.referee, look, process, self.settings.ttl, has_name
                )
            except (KeeperError, RunnerError) as error:
                self._say_of_referee(str(error))
                if not has_name:
                    return  # the next instance in this folder sees to it
                await asyncio.sleep(rest.next())
                continue
            self._left.pop()
            goes_on = (
                has_name
                and orphan.fate is OrphanFate.CONTINUE
                and orphan.database not in self._orphans
            )
            fate = orphan.fate if goes_on or orphan.fate is OrphanFate.END else OrphanFate.SET_ASIDE
            self._say(
                process.facts.name,
                f"the service of run {process.name}, which a previous instance left, is {fate.value}: {orphan.why}",
            )
            if self._shared.front is not None and fate is not OrphanFate.CONTINUE:
                await asyncio.to_thread(self._shared.front.drop, process.name)
            if fate is OrphanFate.END:
                await asyncio.to_thread(process.end)
            elif goes_on and orphan.served is not None:
                orphan.served.take_front(self._shared.front)
                await self._lead(orphan.served)
                self._orphans[orphan.database] = orphan.served
            else:
                await self._set_aside(process)

    async def _lead(self, served: Served) -> None:
        with suppress(FrontError):  # it does as soon as it can
            await asyncio.to_thread(served.lead)

    async def _set_aside(self, process: Run) -> None:
        try:
            await asyncio.to_thread(close_left, process, self.settings.ttl)
        except PagelogError as error:
            self._say(
                process.facts.name,
                f"the service that is quarantined could not be closed, so that clients may still write to it: {error}",
            )
        while True:
            try:
                await asyncio.to_thread(
                    process.set_aside, process.facts.shift, process.facts.images
                )
            except OSError as error:
                self._say(
                    process.facts.name, f"it could not be noted that it is quarantined: {error}"
                )
                await asyncio.sleep(self.settings.ttl)
            else:
                return self._shared.asides.add(process.facts)

    async def _has_name(self) -> bool:
        """Takes the name: from a previous instance of this folder at once, from another once its heartbeat has stalled for a ttl. Raises
        `NameInUse` where that moves."""
        over = self._folder.lives if self._folder.take() else ()
        self._folder.note(self.life)
        before, is_still = self._rival, self._rival_still >= self.settings.ttl
        found = self._rival = await self._session.ask(
            self._session.referee.claim, self.lines, over, before if is_still else None
        )
        if found is None:
            return True
        if before is not None and found.run == before.run and found.beat > before.beat:
            raise NameInUse(
                f"the name {self.settings.name} is in use: {found}, and its heartbeat moves: give this keeper another name"
            )
        if before is None or before.run != found.run:
            self._say(
                "the keeper",
                f"the name {self.settings.name} may be in use: {found}; its heartbeat is watched for a ttl",
            )
        self._rival_still = self._rival_stillness.see((found.run, found.beat), seconds())
        return False

    async def _end_what_holds_nothing(self) -> None:
        """Ends the services of earlier lives in this folder that hold nothing, and are no standbys: nobody else would."""
        if not self._folder.take():
            return
        try:
            look = await self._session.ask(self._session.referee.everything)
        except KeeperError as error:
            return self._say_of_referee(str(error))
        wanted = {row.run for row in look.rows if row.run is not None} | {
            standby.run for standby in look.standbys
        }
        self._left = await asyncio.to_thread(orphans_of, self._folder.path, wanted)
        await self._see_to_orphans(look, has_name=False)

    async def _is_of_another_folder(self) -> bool:
        """Whether who has the name now is in another folder. Of this folder it adopts the services."""
        try:
            found = (await self._session.ask(self._session.referee.everything)).keeper(
                self.settings.name
            )
        except KeeperError:
            return False  # the next instance in this folder ends them
        return found is not None and found.run not in (self.life, *self._folder.lives)

    async def _end_services(self) -> None:
        """Ends the services of this folder, but what may be the only copy of something is quarantined."""
        ended = set()
        for database in self.databases.values():
            if (served := database.served) is None or served.process is None:
                continue
            if database.may_be_only_copy and (process := served.take_process()) is not None:
                await asyncio.to_thread(process.set_aside, served.shift, served.images)
            else:
                ended.add(served.run)
        self._left = []
        for process in await asyncio.to_thread(orphans_of, self._folder.path, set()):
            if process.name in ended:
                await asyncio.to_thread(process.end)
                self._say(
                    process.facts.name,
                    "its service was ended: a keeper of another folder has the name",
                )
            else:
                self._left.append(process)
        await self._see_to_orphans(self.look, has_name=False)

    async def _wait_for_folder(self) -> None:
        """Waits for the end of an earlier keeper of this name. Its beat stands still meanwhile, so that others may take over."""
        self._say("the folder", "an earlier keeper of this name has it still")
        while not self._folder.take() and not self._is_over():
            await asyncio.sleep(self.settings.ttl / LOOKS / 4)

    async def _stop(self) -> None:
        await self._server.stop()
        for session in (self._session, self._doubting):
            session.referee.cut()  # no thread is left that waits for PostgreSQL
        for task in list(self._shared.tasks):
            task.cancel()
        await asyncio.gather(*self._shared.tasks, return_exceptions=True)
        for database in self.databases.values():
            if database.served is not None and database.served.process is not None:
                asyncio.get_running_loop().remove_reader(database.served.process.descriptor)
        await self._session.close()
        await self._doubting.close()
        if self._shared.trails is not None:
            self._shared.trails.close()
        await self._shared.ways.close()
        if self._is_disowned:
            await self._end_services()
        if self._care is not None:
            await self._care.stop()
        self._folder.leave()

    # Looking.

    @property
    def _pause(self) -> float:
        """Seconds until the next look, if nothing is heard before."""
        usual = self.settings.ttl / LOOKS
        return (
            min(usual, _SOON) if any(each.is_awaited for each in self.databases.values()) else usual
        )

    def _see_next_look(self) -> None:
        """The next one has come."""
        if self._next_look is not None:
            self._next_look.cancel()
        self._next_look = None

    async def _look(self) -> None:
        reached = {
            each.row.id: reached
            for each in self.databases.values()
            if each.is_known and (reached := each.follows) is not None
        }
        self._see_next_look()
        began = seconds()
        try:
            self.look = await self._session.ask(
                self._session.referee.look, reached, self._report(), self._see_front()
            )
        except Superseded:
            raise
        except KeeperError as error:
            self.synchronous = Synchronous()
            self._say_of_referee(str(error))
            await asyncio.sleep(self.settings.ttl / LOOKS / 4)
            return
        finally:
            self._looked = seconds()
        self.synchronous = self.look.synchronous
        self._looks += 1
        self._note_numbers()
        self._say_of_referee(self.synchronous.meaning)
        self._see_lives()
        self._pages.see(self.look.pages, seconds())
        for row in self.look.rows:
            if row.identity not in self.databases and not row.dropped:
                self.databases[row.identity] = Database(
                    self._shared, row, self._orphans.pop(row.identity, None)
                )
        self._by_name = {
            row.name: self.databases[row.identity] for row in self.look.rows if not row.dropped
        }
        standbys = dict[int, list[StandbyRow]]()
        for standby in self.look.standbys:
            standbys.setdefault(standby.log, []).append(standby)
        beats = {keeper.name: keeper.beat for keeper in self.look.keepers}
        heard = [
            keeper
            for keeper in self.look.keepers
            if keeper.name != self.settings.name and keeper.name in self._living
        ]
        for row in self.look.rows:
            if (database := self.databases.get(row.identity)) is None:
                continue
            of_it = standbys.get(row.id, [])
            database.see(
                row,
                beats.get(row.holder or ""),
                self._others(of_it) if of_it else (),
                is_noted=any(map(database.has_noted, of_it)),
                began=began,
                reports={one.name: one.report.get(row.name, {}) for one in heard} if heard else {},
                rose=self._rose.get(row.holder or "", float("-inf")),
            )
            self._shared.proving.see(database)
            self._places.changed(row.name)
        for identity in self.databases.keys() - {row.identity for row in self.look.rows}:
            self.databases[identity].lose()
        self._may_have = False
        self._turns.look(self._held, self._by_name)

    def _see_front(self) -> str | None:
        """Looks at the front, and returns where the lines are reached by TLS, as the column has it."""
        if self._care is None:
            return None
        self._care.look()
        return self._care.secure_lines(self.life)

    def _note_numbers(self) -> None:
        """Those of the look, for a later instance too. A look waits for no file."""
        forgotten = self._shared.numbers.see(self.look.rows)
        if forgotten or self._shared.numbers.is_changed:
            self._shared.spawn(self._raise_numbers(forgotten), "the numbers")

    async def _raise_numbers(self, forgotten: list[Row]) -> None:
        """Where PostgreSQL has forgotten numbers of generations that it gave, it is told: none is given twice."""
        for row in forgotten:
            highest, doubted = self._shared.numbers.highest(row), self._shared.numbers.doubted(row)
            self._say(
                row.name,
                f"PostgreSQL has forgotten generation {highest}, or given its number twice: the next ones get numbers above it",
            )
            with suppress(KeeperError):  # the next look shows it again
                await self._session.ask(
                    self._session.referee.raise_numbers, row.identity, highest, doubted
                )
        try:
            if self._shared.numbers.is_changed:
                await asyncio.to_thread(self._shared.numbers.save)
        except OSError as error:
            self._say("the folder", f"the numbers of generations could not be noted: {error}")

    def _see_lives(self) -> None:
        now = seconds()
        for keeper in self.look.keepers:
            seen = self._lives.setdefault(keeper.name, Stillness(self.settings.ttl)).see(
                (keeper.run, keeper.beat), now
            )
            (self._living.add if seen < self.settings.ttl else self._living.discard)(keeper.name)
            if keeper.beat > self._beats.get(keeper.name, keeper.beat):
                self._rose[keeper.name] = now
            self._beats[keeper.name] = keeper.beat

    def _others(self, standbys: list[StandbyRow]) -> tuple[StandbyRow, ...]:
        """Those of other keepers that are alive."""
        return tuple(
            standby
            for standby in standbys
            if standby.keeper != self.settings.name and standby.keeper in self._living
        )

    def _lost(self) -> list[Aside]:
        """The runs that are here and that PostgreSQL does not know, or of which it lacks something."""
        found = []
        for each in self.databases.values():
            if (
                each.back is not None
                and each.served is not None
                and each.served.process is not None
            ):
                served, process = each.served, each.served.process
                facts = replace(process.facts, shift=served.shift, images=served.images)
                seen = Seen(served.generation, max(served.reached, process.seen.archived))
                found.append(Aside(facts, seen, is_kept=False, database=each.row.identity))
        return found

    def _report(self) -> str:
        """What `list` shows of the services of this keeper, measured for it and for what is decided until the next look; and what is
        decided of them, and of what nobody has."""
        audit, limit = self.settings.program.audit, self.settings.memory
        report = dict[str, Any](self._shared.asides.report(self._lost()))
        report[NUMBERS] = {}  # as of a database: an older tool goes through them
        report[KEYS] = {"ids": self._key_ids()}
        texts = {
            each.row.name: self._reported[key].text(each, audit, limit, self._stored_to(each))
            for key, each in self.databases.items()
            if self._is_reported(each)
        }
        return f"{{{', '.join((json.dumps(report)[1:-1], *texts.values()))}}}"

    def _is_reported(self, database: Database) -> bool:
        """Whether something of it is here, or may come here."""
        row = database.row
        is_here = database.served is not None or len(database.leaving) > 0
        return not row.dropped and (is_here or row.holder in (None, self.settings.name))

    def _key_ids(self) -> list[str]:
        """Of the keys that this keeper has."""
        try:
            return self.settings.keys.ids
        except CredentialsError as error:
            self._repeats.say("the keys", str(error))
            return []

    # Answering.

    def _named(self, name: str) -> Database | None:
        return self._by_name.get(name)

    def where(self, name: str, is_secure: bool = False) -> tuple[object, ...]:
        """Where a database is, as the last look has shown it, or as it is here, for who came by TLS or without."""
        database = self._named(name)
        if database is None:
            return (
                "unknown" if self.look.keepers else "nowhere",
                name,
            )  # before its first look it knows of none
        row, served = database.row, database.served
        holder = self.look.keeper(row.holder)
        is_closed = database.holds and served is not None and not served.is_open
        address, lines = row.told(is_secure), self._lines_of(
            None if database.holds else holder, is_secure
        )
        if address is None or lines is None or is_closed or (holder is None and not database.holds):
            return ("nowhere", name)
        database.work.refresh()
        archived = served.reached if served is not None and database.holds else row.archived
        keys = of_word(Of(row.identity, row.run or ""))
        if row.ancestor is not None:
            keys += (Key(f"ancestor={row.ancestor}"),)
        if row.copied:
            keys += (Key(f"copied={row.copied}"),)
        if database.after is not None and database.after[0] == row.generation:
            keys += (Key(f"after={database.after[1]}"),)
        keys += self._pages.key(row, is_secure)
        return (
            "at",
            name,
            row.generation,
            row.run,
            address,
            archived,
            lines,
            row.images,
            row.shift,
            row.base,
            *keys,
        )

    def _lines_of(self, holder: KeeperRow | None, is_secure: bool) -> str | None:
        """Where a keeper's lines are for such a client; None is this one."""
        if holder is not None:
            return holder.told(is_secure)
        return self.lines if self._care is None or not is_secure else self._care.front.lines

    @property
    def wants_certificates(self) -> bool:
        """Whether who comes by TLS needs a certificate of the database that is asked of. Before its first look it knows nothing to tell."""
        return (
            self.settings.tls is not None
            and self.settings.tls.clients is not None
            and bool(self.look.keepers)
        )

    def identity_of(self, name: str) -> str | None:
        """That of the database of this name, as the last look has shown it."""
        database = self._named(name)
        return None if database is None else database.row.identity

    def where_next(self, line: Line, name: str, least: int) -> None:
        """Says where it is, and waits for a generation that is about to be published here."""
        database = self._named(name)
        if database is None or not database.is_moving or not self._moving.acquire(line):
            line.say(*self.where(name, line.is_secure))
        else:
            self._shared.spawn(self._say_next(database, line, least), name)

    async def _say_next(self, database: Database, line: Line, least: int) -> None:
        ends = asyncio.get_running_loop().time() + HELD_BACK
        try:
            while database.is_moving and (left := ends - asyncio.get_running_loop().time()) > 0:
                if database.row.address is not None and database.row.generation >= least:
                    break
                await database.moves.wait(left)
        finally:
            self._moving.release(line)
        line.say(*self.where(database.row.name, line.is_secure))

    def next_place(self, line: Line, name: str, least: int) -> None:
        """Answers now or later."""
        self._places.ask(line, name, least)

    def _changed(self, name: str) -> None:
        self._places.changed(name)
        self._turns.changed(name, self._held(name))

    def standby(self, name: str, is_secure: bool = False) -> tuple[object, ...]:
        """A standby of it, whichever keeper has it: the last look says how far it is, and of an own one what it has."""
        database = self._named(name)
        known = () if database is None else self.look.standbys_of(database.row.id)
        found = next(
            (
                each
                for each in known
                if each.keeper in self._living and each.told(is_secure) is not None
            ),
            None,
        )
        if database is None or found is None:
            return ("standby", name, "-", "-", "-", "-", "-")
        own, follows = database.served, database.follows
        reached = (
            follows
            if own is not None and own.run == found.run and follows is not None
            else found.reached
        )
        keeper = self.look.keeper(found.keeper)
        lines = None if keeper is None else keeper.told(is_secure)
        keys = of_word(Of(database.row.identity, found.run)) + (
            () if lines is None else (Key(f"lines={lines}"),)
        )
        return (
            "standby",
            name,
            found.told(is_secure),
            found.run,
            reached,
            found.images,
            found.shift,
            *keys,
        )

    def pages(self, name: str, of: Of | None, is_secure: bool = False) -> tuple[object, ...]:
        """Its page servers that live, if it is the database that is meant: to who came by TLS those that have it."""
        database = self._named(name)
        if database is None or (of is not None and of.database != database.row.identity):
            return ("pages", name)
        return self._pages.words(database.row, of, is_secure)

    def confirmed(self, line: Line, name: str, position: int, of: Of | None) -> None:
        """Answers now or later, if it is the database that is meant."""
        database = self._named(name)
        if database is None or of is None or of.database != database.row.identity:
            line.say("elsewhere", name, position, *of_word(of))
        else:
            database.confirmed(line, position)

    def durable(
        self, line: Line, name: str, generation: int, position: int, of: Of | None = None
    ) -> None:
        """Answers now or later. Of a database that has the name no more PostgreSQL knows what became."""
        database = self._named(name)
        if database is not None and (of is None or of.database == database.row.identity):
            held = self._held(name)
            line.may_ring = generation == held and self._may(line, database)
            if held is not None and generation < held and self._may(line, database):
                self._turns.expect(name, held)
            database.wait(line, generation, position, of)
        elif of is not None and self.look.keepers:
            self._shared.spawn(self._shared.tell_fate(line, name, generation, of), name)
        else:
            line.say("unknown", name)

    def _may(self, line: Line, database: Database) -> bool:
        """Whether it is done what costs or tells: not for who is nobody of this database."""
        return self._shared.proving.refusal(line, database) is None

    def ring(self, line: Line, name: str, generation: int, of: Of | None = None) -> None:
        """Looks for new blocks, if it is held here; of a standby here it looks at the archive, which that follows."""
        database = self._named(name)
        if database is None or not self._is_of(database, of) or not self._may(line, database):
            return
        if generation == self._held(name):
            database.work.ring()
        elif of is not None and database.follows is not None:
            self._look_soon()

    def _look_soon(self) -> None:
        """Looks before it is due, and a while after the last look at the soonest, however often it is asked."""
        if self._next_look is None:
            left = max(0.0, self._looked + _NEXT - seconds())
            self._next_look = asyncio.get_running_loop().call_later(left, self._session.woken.set)

    def _is_of(self, database: Database, of: Of | None) -> bool:
        """Whether this run of it is held here; an older client says none."""
        return of is None or (database.served is not None and of == database.of(database.served))

    def full(self, line: Line, name: str, generation: int, of: Of | None = None) -> None:
        """Begins the next generation, if it is held here, once in each."""
        database = self._named(name)
        is_meant = (
            database is not None
            and self._is_of(database, of)
            and database.holds
            and database.own.generation == generation
        )
        if (
            database is not None
            and is_meant
            and not database.own.health.is_full
            and self._may(line, database)
        ):
            database.own.lack_memory()
            database.kick()

    def block(self, line: Line, name: str, position: int, of: Of | None = None) -> None:
        """Answers from the archive, once PostgreSQL has. For what is no name it is not asked: it would end the connection."""
        if NAME.fullmatch(name) is None:
            return line.say("block", name, position, "-", *of_word(of))
        database = self._named(name)
        is_another = (
            database is not None and of is not None and of.database != database.row.identity
        )
        self._shared.spawn(
            self._shared.tell_block(line, name, position, of, None if is_another else database),
            name,
        )

    def _held(self, name: str) -> int | None:
        """The generation of it that is held here."""
        database = self._named(name)
        return (
            database.served.generation
            if database is not None and database.holds and database.served is not None
            else None
        )

    def _is_whole(self, name: str) -> bool:
        """Whether the generation that is held here began with all that was in the log of the one before."""
        database = self._named(name)
        return database is not None and database.served is not None and database.served.is_whole

    def turn(
        self, line: Line, words: list[str], of: Of | None = None, epoch: int | None = None
    ) -> None:
        """Answers now or later. Who asks of another run gets no turn here, and ends nobody's."""
        word, name = words[:2]
        database, held = self._named(name), self._held(name)
        is_of_another = database is not None and not self._is_of(database, of)
        is_free = word == "back" or held is None  # to give back costs nobody anything
        why = (
            None
            if database is None or is_of_another or is_free
            else self._shared.proving.refusal(line, database)
        )
        if not is_of_another and why is None:
            self._turns.take(line, words, held, epoch, of)
        elif word == "turn":
            line.say(
                *(("elsewhere", name) if why is None else ("denied", name, why.value)), *of_word(of)
            )

    def awaits(self, line: Line) -> bool:
        """Whether it has a turn, or anything is waited for over it."""
        shared = self._shared
        return (
            line in self._places
            or line in self._moving
            or line in shared.questions
            or line in shared.block_questions
            or line in self._turns
            or any(line in database.waits for database in self.databases.values())
        )

    def gone(self, line: Line) -> None:
        """Nobody waits over it any more."""
        self._places.gone(line)
        self._turns.gone(line)
        for database in self.databases.values():
            database.waits.gone(line)
            database.waits.confirmations.gone(line)

    def states(self) -> list[dict[str, Any]]:
        """What is known of each database, for the metrics."""
        return [
            {
                "name": each.row.name,
                "state": each.state.value,
                "generation": each.row.generation,
                "archived": each.row.archived,
                "behind": 0
                if each.served is None
                else max(0, each.served.hard - each.served.reached),
                "waits": len(each.waits),
                "unproved": self._shared.proving.unproved[each.row.name],
                "quick": int(each.work.is_quick),
                "standby": int(each.is_noted) if each.should_stand_by else None,
                **self._shares(each.served),
                **self._stored(each),
                **self._pages.states(each.row),
            }
            for each in list(self.databases.values())
            if not each.row.dropped
        ]

    def _shares(self, served: Served | None) -> dict[str, float | None]:
        """How full the list and the memory of a service are, where that is known."""
        audit, limit = self.settings.program.audit, self.settings.memory
        if served is None:
            return {"list_share": None, "memory_share": None}
        return {
            "list_share": served.entries / audit,
            "memory_share": served.health.held / limit if limit else None,
        }

    def _stored_to(self, database: Database) -> int | None:
        """Up to where it is in the store, as the mover has said; None where it is not held here, or there is none."""
        if self._storing is None or not database.holds:
            return None
        stored: int | None = self._storing.report(database.row.name).get("stored")
        return stored

    def _stored(self, database: Database) -> dict[str, float | None]:
        """Up to where it is in the store, as the mover has said, and what is wrong there; None where it is not held here. Of a mover that says
        nothing something is wrong."""
        if not database.holds:
            return dict.fromkeys(("stored", "store_behind", "store_foreign", "store_broken"))
        if self._storing is None:
            return {"stored": None, "store_behind": 0, "store_foreign": 0, "store_broken": 0}
        report = self._storing.report(database.row.name)
        return {
            "stored": report.get("stored"),
            "store_behind": report.get("behind"),
            "store_foreign": report.get("foreign"),
            "store_broken": int(not report or report["broken"] is not None),
        }

    def itself(self) -> dict[str, float]:
        """What is known of the keeper, for the metrics."""
        plain, plain_ever = self._server.plain
        pair = None if self._care is None else self._care.front.certificate.now
        return {
            "looks": self._looks,
            "synchronous_standbys": self.synchronous.count or 0,
            "set_aside": len(self._shared.asides),
            "plain_lines": plain,
            "plain_connections": plain_ever,
            **({} if pair is None else {"certificate_ends": pair.ends}),
        }

    @property
    def shown(self) -> Shown | None:
        """What servers of this process show to who reaches them from other machines; None where it has no certificate."""
        return None if self._care is None else self._care.front.shown
