"""One database of a keeper: does what is decided of it, archives it while it is held, and answers who waits."""

from __future__ import annotations

import asyncio
from contextlib import suppress
from dataclasses import dataclass, replace
from typing import Any, Mapping

from pagelog.keeper.beginning import Beginning
from pagelog.keeper.ending import Ending
from pagelog.keeper.fates import Moves
from pagelog.keeper.haproxy import FrontError
from pagelog.keeper.idleness import Idleness
from pagelog.keeper.lines import Line, of_word
from pagelog.keeper.machine import (
    Action,
    Decision,
    Facts,
    RunKind,
    Own,
    Rival,
    DatabaseState,
    Stillness,
    decide,
    is_only_copy,
    state_of,
    went_back,
)
from pagelog.keeper.run import Seen, is_there
from pagelog.keeper.runner import RunnerError
from pagelog.keeper.served import Access, Served, seconds
from pagelog.keeper.shared import LONGEST_REST, Shared
from pagelog.keeper.standing import Standing
from pagelog.keeper.succession import Succession
from pagelog.keeper.waits import Waits
from pagelog.keeper.work import Work
from pagelog.referee.fate import Of
from pagelog.referee.referee import Away, Doubt, KeeperError, Refused
from pagelog.referee.rows import Row, StandbyRow
from pagelog.repeating import Backoff

_BESIDE = 0.05
"""For at most so many seconds a service goes on beside the next one, until that has a new block: to free much memory takes a processor,
and meanwhile it would let a writer wait that asks it still."""

_MOST_ENDS = 64
"""How many runs that were ended are known."""


@dataclass(frozen=True)
class Had:
    """How far a run was archived, as its keeper knew then: what began later finds no less of it, unless PostgreSQL went back."""

    run: str | None = None
    reached: int = 0
    at: float = 0.0


class Database:
    """The facts of one database, and the work on it: one action at a time, and beside it the archiving."""

    def __init__(self, shared: Shared, row: Row, served: Served | None = None) -> None:
        self.shared = shared
        self.row = row
        self.is_known = True
        """Whether the referee has it, as far as a look has shown."""
        self.served = served
        self.doing = Action.NOTHING
        self.decision: Decision | None = None
        """The last one."""
        self.waits = Waits(row.name)
        self.beat: int | None = None
        """That of its holder."""
        self.is_noted = False
        """Whether a standby of this keeper is noted."""
        self.after: tuple[int, str] | None = None
        """A generation that has followed here directly on another, and the run of that."""
        self._ends: dict[str, int] = {}
        """The last runs that were ended here, and the positions at which: who asks while PostgreSQL is away is told so all the same."""
        self.leaving: set[str] = set()
        """Runs that hold it no more here, and whose processes have not ended yet."""
        self.before: tuple[int, str] | None = None
        """The generation, and its run, from which the one that is held here came by a succession."""
        self.let_go = -1
        """The generation that this keeper ended last."""
        self.still_for = 0.0
        """For how many seconds the row and the beat have not changed."""
        self.others: tuple[StandbyRow, ...] = ()
        """Standbys of other keepers, that live."""
        self.watched: Served | None = None
        """The service whose end is noticed, and has not come."""
        self._failed_at, self._switched_at, self._confirmed = float("-inf"), 0.0, 0
        self._had = Had()
        self._seen_back_at = float("-inf")
        """When a look showed less than one before."""
        self._reports: Mapping[str, Mapping[str, Any]] = {}
        """What the other keepers that are alive have last said of it."""
        self._rose = float("-inf")
        """When its holder's beat was last seen to rise."""
        self._noted, self._noted_at = Seen(), float("-inf")
        self._known: tuple[str, str | None, bool] | None = None
        """Whether PostgreSQL knew this run, when it named that one."""
        self._rest, self._rests = shared.settings.ttl, Backoff(
            shared.settings.ttl, max(LONGEST_REST, shared.settings.ttl)
        )
        self._still = Stillness(shared.settings.ttl)
        self._acting: asyncio.Task[None] | None = None
        self._news = False
        self.work = Work(shared, row, self.waits, self.kick)
        self.moves = Moves()
        self.succession = Succession(self)
        self.beginning, self.standing, self.ending = Beginning(self), Standing(self), Ending(self)
        self.idleness = Idleness(self)
        if served is not None:
            self.watch(served)

    # Facts.

    def see(
        self,
        row: Row,
        beat: int | None,
        others: tuple[StandbyRow, ...],
        *,
        is_noted: bool,
        began: float,
        reports: Mapping[str, Mapping[str, Any]] = {},
        rose: float = float("-inf"),
    ) -> None:
        """What a look has shown that began then. `beat` is the holder's, which was last seen to rise when it `rose`, and `is_noted` is of
        a standby of this keeper. `reports` are what the other keepers that are alive say of it."""
        if began <= self._switched_at:
            return  # over another connection a switch was committed meanwhile, which it may not have seen
        if row.generation < self.row.generation:
            self._ends.clear()  # PostgreSQL went back
        if (row.generation, row.archived) < (self.row.generation, self._confirmed):
            self._seen_back_at = seconds()
        self.has_changed(row)
        self.beat, self.others, self.is_noted, self.is_known = beat, others, is_noted, True
        self._reports, self._rose = reports, rose
        self._confirmed = row.archived
        if self.served is not None and self.served.is_noted and not is_noted:
            self.served.note_standby(False)  # PostgreSQL has lost that
        now = seconds()
        self.still_for = self._still.see(
            (row.generation, row.run, row.archived, row.wanted, beat), now
        )
        self.beginning.see(now)
        if row.run == self._had.run and row.archived < self._had.reached and began > self._had.at:
            self.work.suspect()
        served, archiver = self._seen_service(), self.work.archiver
        if self.idleness.goes_on:
            return
        self.idleness.end()
        self._had = Had() if served is None else Had(served.run, served.reached, seconds())
        self._see_whether_it_went_back()
        if (
            self.served is not None
            and 0 < self.served.generation <= row.doubted
            and self.served.is_told_by_number
        ):
            self.served.doubt_number()
            self.work.leave_fast_path()
            self.shared.say(
                row.name,
                f"number {row.doubted} of its generations was given twice: clients of version 1 get no answer about it",
            )
        is_idle = (
            self.doing is Action.NOTHING
        )  # else what is done now has the archiver, and its turn
        if (
            served is not None
            and archiver is not None
            and archiver.may_begin_again
            and self.holds
            and served.is_alive
            and is_idle
        ):
            self.work.begin(row, served)  # it was told that it is fenced, and is not
        if served is not None and self.holds and row.address is not None:
            self.succession.tend()
        if (
            served is not None
            and served.kind is RunKind.STANDBY
            and row.wanted in ("*", self.shared.settings.name)
        ):
            self.shared.ways.warm()
        self.note_seen()
        self._see_way(row)
        if (
            self.served is not None
            and self.served.table_number > row.table_number
            and self.served.identity == row.identity
        ):
            self.shared.spawn(self._put_table_back(self.served), row.name)
        self._see_what_to_do()

    def has_changed(self, row: Row) -> None:
        """It is as a look has shown it, or as a statement of this keeper has left it."""
        self.row = row

    async def _put_table_back(self, served: Served) -> None:
        """PostgreSQL went back to an older table than that of a service that is here, so that tokens would be good again which were
        changed; or the look is older than the change."""
        with suppress(KeeperError):  # the next look shows it again
            if await self.shared.ask(
                self.shared.referee.put_table_back, self.row.id, served.identity, served.table
            ):
                self.shared.say(
                    self.row.name,
                    f"PostgreSQL has forgotten table {served.table_number}: it is put back",
                )

    def note_seen(self) -> None:
        """Notes what PostgreSQL has of the run that is held here, at most once in a ttl: a later instance knows by that whether it went back."""
        served = self.served
        if served is None or served.process is None or not self.holds:
            return
        seen = Seen(served.generation, self.row.archived)
        if seen != self._noted and (
            seen.generation != self._noted.generation
            or seconds() - self._noted_at >= self.shared.settings.ttl
        ):
            self._noted, self._noted_at = seen, seconds()
            with suppress(
                OSError
            ):  # what a full disk takes away is that a later instance may not see that PostgreSQL went back
                served.process.note_seen(seen)

    def _seen_service(self) -> Served | None:
        if self.served is None or self.served.process is None:
            return None
        self.work.see(self.served)
        return self.served

    def lose(self) -> None:
        """A look has not shown it any more: PostgreSQL went back. Who waits is told to ask where it is."""
        self.is_known = False
        self._ends.clear()
        for line in self.waits.taken():
            line.say("elsewhere", self.row.name, self.row.generation, *of_word(self.waits.of))
        self._seen_service()
        self._see_whether_it_went_back()
        self.kick()

    def _see_whether_it_went_back(self) -> None:
        """Once PostgreSQL was seen to lack something of a run, that stays so until it holds the database again, or all of it is archived."""
        own, served, row, archiver = self._own(), self.served, self.row, self.work.archiver
        if own is None or served is None:
            return
        if not served.lack.is_apart and (archiver is None or not archiver.is_stuck):
            if self.is_known and (
                row.run == own.run or (row.archived, row.chain) == (served.reached, served.chain)
            ):
                served.be_lacked(False)
            elif went_back(self._known_row, own):
                served.be_lacked(True)
        own = replace(own, went_back=served.lack.went_back)
        served.be_only_copy(is_only_copy(self._known_row, own), seconds())

    def _own(self) -> Own | None:
        settings, served = self.shared.settings, self.served
        if served is None:
            return None
        share = served.share(settings.program.audit, settings.memory)
        is_known = (
            self._known[2]
            if self._known is not None and self._known[:2] == (served.run, self.row.run)
            else None
        )
        lack = served.lack
        back_for = 0.0 if lack.since is None else seconds() - lack.since
        return Own(
            run=served.run,
            kind=served.kind,
            generation=served.generation,
            reached=served.reached,
            alive=served.is_alive,
            silent=served.health.silent,
            share=share,
            went_back=lack.went_back,
            is_open=served.is_open,
            was_closed=served.access is Access.SHUT,
            is_full=served.health.is_full and self._may_be_asked_for_more,
            is_known=is_known,
            is_apart=lack.is_apart,
            back_for=back_for,
            table_number=served.table_number,
            unreached=served.unreached,
        )

    @property
    def _known_row(self) -> Row | None:
        return self.row if self.is_known else None

    @property
    def _may_be_asked_for_more(self) -> bool:
        """Whether a writer without memory may have a succession now: anybody may say that he is one."""
        return seconds() - self._switched_at >= self.shared.settings.ttl

    def facts(self) -> Facts:
        """All that is known, for a decision."""
        settings, own = self.shared.settings, self._own()
        # Also where another keeper has failed at a later one meanwhile: two that fail would go on by turns without a rest.
        front = self.shared.front
        is_unreached = (
            front is not None and not front.tls.plain and front.away > 0
        )  # what it would fill nobody could come to
        failed = self.row.generation if seconds() - self._failed_at < self._rest else -1
        return Facts(
            me=settings.name,
            ttl=settings.ttl,
            row=self._known_row,
            own=own,
            still=self.still_for,
            others=self.others,
            is_noted=self.is_noted,
            stands_by=settings.standby,
            ending=self.shared.ending,
            let_go=self.let_go,
            failed=failed,
            rest=self._rest,
            succeed_at=settings.succeed or 1.0,
            successor=self.succession.stage,
            rival=self._rival(),
            further=self._further(),
            settles=self._settles(),
            is_unreached=is_unreached,
        )

    # What others have, where PostgreSQL went back.

    def _rival(self) -> Rival:
        """What is known of the service of the run that PostgreSQL names, which is not the one that is here."""
        row, settings = self.row, self.shared.settings
        if row.run is None or self.holds:
            return Rival.NOT_KNOWN
        if row.holder == settings.name:
            return (
                Rival.LIVES if is_there(settings.program.folder, row.name, row.run) else Rival.GONE
            )
        # What a PostgreSQL that went back has of a report is of before: who lives says so again.
        if (
            self.served is None
            or self.served.lack.since is None
            or self._rose <= self.served.lack.since
        ):
            return Rival.SILENT
        return (
            Rival.LIVES
            if self._reports.get(row.holder or "", {}).get("run") == row.run
            else Rival.NOT_KNOWN
        )

    def _further(self) -> str | None:
        """A keeper that has more of what PostgreSQL has lost than this one; of two that have as much it is the one whose name is first."""
        served, name = self.served, self.shared.settings.name
        mine = (
            (self.row.archived, "") if served is None else (max(served.hard, served.reached), name)
        )
        found = [
            (int(report["back"]), keeper)
            for keeper, report in self._reports.items()
            if report.get("back") is not None
        ]
        most = min(found, key=lambda each: (-each[0], each[1]), default=None)
        return most[1] if most is not None and (-most[0], most[1]) < (-mine[0], mine[1]) else None

    def _settles(self) -> bool:
        """Whether PostgreSQL went back just now, so that another keeper that is alive may have more than this one, and say so."""
        since = max(
            self._seen_back_at,
            (self.served.lack.since if self.served is not None else None) or float("-inf"),
        )
        return bool(self._reports) and seconds() - since < self.shared.settings.ttl

    @property
    def back(self) -> int | None:
        """The end of the log of a run that went back with nothing: of a service that is here and may be the only copy of something."""
        return (
            self.served.hard
            if self.served is not None and self.served.lack.since is not None
            else None
        )

    @property
    def may_be_only_copy(self) -> bool:
        """Whether its service may have what PostgreSQL has lost."""
        own = self._own()
        return own is not None and own.alive and (own.went_back or went_back(self._known_row, own))

    @property
    def state(self) -> DatabaseState:
        """What the database is to this keeper."""
        served = self.served
        has_all = self.holds and self.is_known and served is not None
        if served is None or not has_all or served.lack.went_back:
            return state_of(self._known_row, self._own(), self.doing)
        return state_of(self.row, Own(served.run, served.kind), self.doing)

    @property
    def holds(self) -> bool:
        """Whether this keeper is the holder, as far as it knows."""
        return self.served is not None and self.served.run == self.row.run

    @property
    def follows(self) -> int | None:
        """How far a standby of this keeper is, of what a statement that wrote has shown to be archived; None where it has none."""
        return (
            None if self.served is None or self.holds else min(self.served.reached, self._confirmed)
        )

    def has_noted(self, standby: StandbyRow) -> bool:
        """Whether this standby is noted of this keeper, and is the one that is here, if there is one: PostgreSQL may have gone back to
        another."""
        is_other = (
            self.served is not None
            and self.served.kind is RunKind.STANDBY
            and self.served.run != standby.run
        )
        is_elsewhere = (
            self.served is not None
            and self.served.process is not None
            and self.served.where.secure != standby.secure
        )
        return standby.keeper == self.shared.settings.name and not is_other and not is_elsewhere

    @property
    def should_stand_by(self) -> bool:
        """Whether this keeper is to have a standby of it: another one has it, and serves."""
        settings, row = self.shared.settings, self.row
        return (
            settings.standby
            and self.is_known
            and row.address is not None
            and row.holder != settings.name
            and not self.shared.ending
        )

    @property
    def is_moving(self) -> bool:
        """Whether this keeper is about to publish a generation of it."""
        served = self.served
        is_dead = served is not None and served.kind is RunKind.HOLDER and not served.is_alive
        return is_dead or self.doing in (Action.TAKE, Action.FILL, Action.RELEASE, Action.SUCCEED)

    @property
    def is_awaited(self) -> bool:
        """Whether a switchover may wait for a standby to be near: for this keeper's, or as this keeper holds it for another's."""
        row = self.row
        if self.served is None or row.wanted is None or row.paused:
            return False
        if self.holds:
            return any(row.wanted in (standby.keeper, "*") for standby in self.others)
        return self.served.kind is RunKind.STANDBY and row.wanted in (
            self.shared.settings.name,
            "*",
        )

    @property
    def is_at_rest(self) -> bool:
        """Whether this keeper has no service of it, none of a previous instance either, and does nothing about it."""
        is_mine = (
            self.is_known
            and self.row.run is not None
            and self.row.holder == self.shared.settings.name
        )
        return self.served is None and not is_mine and not self.is_at_it

    # Acting.

    def kick(self) -> None:
        """Decides, and does what is decided, unless it is at it already."""
        self._news = True
        self.idleness.end()
        if not self.is_at_it:
            self._acting = self.shared.spawn(self._act(), self.row.name)

    def _see_what_to_do(self) -> None:
        """As `kick`. No task is begun where nothing is to be done about what this keeper holds, as at most looks."""
        is_quiet = self.holds and self.own.kind is RunKind.HOLDER and not self.row.paused
        if is_quiet and not self.is_at_it:
            decision = decide(self.facts())
            if decision.action is Action.NOTHING:
                self._say(decision)
                self.moves.tell()
                if self._is_settled(self.own, self.row):
                    self.idleness.begin()
                return
        self.kick()

    def _is_settled(self, served: Served, row: Row) -> bool:
        """Whether a look has nothing to do about what it holds but to decide: it is noted and published as it is, and has its base."""
        is_published = served.secure == row.secure and served.table_number <= row.table_number
        is_noted = self._noted == Seen(served.generation, row.archived)
        return is_published and is_noted and self.succession.is_tended

    @property
    def is_at_it(self) -> bool:
        """Whether it decides and acts."""
        return self._acting is not None and not self._acting.done()

    async def _act(self) -> None:
        goes_on = False
        while goes_on or self._news:
            self._news = False
            decision = decide(self.facts())
            self._say(decision)
            self.doing = decision.action
            try:
                goes_on = await self._do(decision.action)
            except (Away, Doubt, Refused, RunnerError) as error:
                self.shared.repeats.say(self.row.name, f"{decision.action.value}: {error}")
                goes_on = False  # the next look shows what became of it
            finally:
                self.doing = Action.NOTHING
                self.moves.tell()

    def _say(self, decision: Decision) -> None:
        """Where action or reason is another: else what changes, as a position, is said once a minute."""
        before, self.decision = self.decision, decision
        if not decision.is_as(before):
            self.shared.repeats.say_now(self.row.name, str(decision))
        elif decision != before:
            self.shared.repeats.say(self.row.name, str(decision))

    @property
    def why(self) -> str:
        """The reason of the last decision."""
        return "" if self.decision is None else self.decision.sentence

    async def _do(self, action: Action) -> bool:
        """Does it. Returns whether there are new facts to decide from."""
        match action:
            case Action.TAKE:
                return await self.beginning.take()
            case Action.FILL:
                return await self.beginning.fill()
            case Action.ADOPT:
                return await self.beginning.adopt()
            case Action.CLOSE:
                return await self.ending.close()
            case Action.RELEASE:
                return await self.ending.release()
            case Action.END | Action.SET_ASIDE:
                if self.served is not None:
                    self.served.be_lacked(action is Action.SET_ASIDE)
                return await self.ending.end()
            case Action.STAND_BY:
                return await self.standing.stand_by()
            case Action.STAND_DOWN:
                return await self.standing.stand_down()
            case Action.PREPARE:
                self.succession.prepare()
                return False
            case Action.SUCCEED:
                return self.work.archiver is not None and await self.succession.switch(
                    self.work.archiver
                )
            case Action.LOOK_UP:
                return await self._look_up()
            case Action.CONTINUE:
                return await self.beginning.continue_run()
            case Action.CANCEL:
                me = self.shared.settings.name
                await self.shared.ask(
                    lambda: self.shared.referee.wish(self.row.name, None, instead_of=me)
                )
                return False
            case _:
                return await self.standing.follow()

    async def _look_up(self) -> bool:
        """Asks PostgreSQL whether it knows the run that is here, by a statement that writes."""
        run, named = self.own.run, self.row.run
        known = await self.shared.ask(self.shared.referee.knows, self.row.id, run)
        if known is not None and self.served is not None and self.served.run == run:
            self._known = run, named, bool(known)
            self._see_whether_it_went_back()
        return known is not None

    async def new_served(self, run: str) -> Served:
        """What is to be the service of this run."""
        text, secret, number, _ = await self.shared.ask(self.shared.referee.table, self.row.id)
        return Served(
            self.row.name,
            run,
            text,
            secret,
            timeout=self.shared.settings.ttl,
            is_read_only=self.row.read_only,
            table_number=number,
            identity=self.row.identity,
            ancestor=self.row.ancestor,
            front=self.shared.front,
        )

    async def lead(self, served: Served) -> None:
        """Has the front lead to a service that was adopted. Where it cannot, it does as soon as it can, and a look publishes it then."""
        try:
            await asyncio.to_thread(served.lead)
        except FrontError as error:
            self.shared.repeats.say(self.row.name, f"nobody reaches the service: {error}")

    def _see_way(self, row: Row) -> None:
        """Publishes another way to its service, as of a front that had to take another port."""
        served = self.served
        if (
            served is None
            or served.process is None
            or not self.holds
            or row.address is None
            or self.doing is not Action.NOTHING
        ):
            return
        if served.secure != row.secure and served.is_open:
            self.shared.spawn(self._publish_way(served), row.name)

    async def _publish_way(self, served: Served) -> None:
        with suppress(KeeperError):  # the next look shows it again
            if self.holds and self.served is served and served.process is not None:
                await self.shared.ask(
                    self.shared.referee.publish, self.row.id, served.run, served.where
                )

    async def filled(self, served: Served, archived: int, chain: bytes) -> None:
        """Fills it with what it lacks of the archive, up to this position."""
        await self.shared.fill(served, self.row.id, archived, chain)

    def has_failed(self) -> None:
        """No fresh service of it can be filled here for now."""
        self._failed_at, self._rest = seconds(), self._rests.next()

    def has_filled(self) -> None:
        """One could be."""
        self._rests.reset()

    # What goes on.

    async def goes_on(self, successor: Served, row: Row) -> None:
        """The next generation has begun: what is asked of the one before is over, and its service is ended."""
        before, name, generation, recorder = (
            self.own,
            row.name,
            row.generation,
            self.work.recorder,
        )
        self._switched_at = seconds()
        self.leaving.add(before.run)
        self.work.stop()
        successor.hold(generation)
        self.served = successor
        self.has_changed(row)
        self.after, self.before = (generation, before.run), (before.generation, before.run)
        self.has_ended(before.run, row.base)
        self.shared.numbers.note(
            self.row.identity, generation
        )  # before a look shows it: a server that fails over may forget it
        self.watch(successor)
        successor.note_place()
        self.note_seen()
        self.work.begin(row, successor, records=False)
        self.moves.tell()
        self.shared.changed(name)
        for line in self.waits.taken():
            line.say("over", name, before.generation, row.base, *of_word(self.of(before)))
        try:
            await self.work.recorded(recorder)
            await self.work.catch_up(row.base + 1, _BESIDE)
            await self.ending.end_process(before)
            if recorder is not None:
                await recorder.end(f"generation {generation} has begun: {self.why}")
        finally:
            self.work.record(successor)  # not before: it would end the list that is open

    @property
    def own(self) -> Served:
        """The service that this keeper has."""
        assert self.served is not None
        return self.served

    def watch(self, served: Served) -> None:
        """Its end is noticed at once."""
        assert served.process is not None
        self.watched = served
        asyncio.get_running_loop().add_reader(served.process.descriptor, self._has_died, served)

    def _has_died(self, served: Served) -> None:
        assert served.process is not None
        asyncio.get_running_loop().remove_reader(served.process.descriptor)
        if self.watched is served:
            self.watched = None
        self.work.stir()
        self.kick()

    # Who waits.

    def has_ended(self, run: str, end: int) -> None:
        """A statement that has returned has ended this run at this position."""
        self._ends[run] = end
        while len(self._ends) > _MOST_ENDS:
            del self._ends[next(iter(self._ends))]

    def of(self, served: Served) -> Of:
        """The word of this run."""
        return Of(self.row.identity, served.run)

    def confirmed(self, line: Line, position: int) -> None:
        """Answers `confirmed`, at once or later."""
        served = self.served
        if served is None or not self.holds:
            return line.say("elsewhere", self.row.name, position, *of_word(Of(self.row.identity)))
        self.work.refresh()
        self.waits.confirmations.ask(line, position, self.of(served), served.reached, served.chain)

    def wait(self, line: Line, generation: int, position: int, of: Of | None = None) -> None:
        """Answers `durable`, at once or later. An older client names no run: a number that two may have had tells it nothing."""
        served = self.served
        is_of_another = of is not None and served is not None and of != self.of(served)
        if (
            served is None
            or not self.holds
            or generation != served.generation
            or is_of_another
            or (of is None and not served.is_told_by_number)
        ):
            if of is not None and of.run in self._ends:
                line.say("over", self.row.name, generation, self._ends[of.run], *of_word(of))
            else:
                self.shared.spawn(
                    self.shared.tell_fate(line, self.row.name, generation, of, self), self.row.name
                )
            return
        self.waits.of = self.of(served)
        if position <= served.reached:
            line.say("durable", self.row.name, generation, served.reached, *of_word(of))
        elif self.waits.add(line, position):
            self.work.ring()
        else:
            line.say("elsewhere", self.row.name, generation, *of_word(of))
