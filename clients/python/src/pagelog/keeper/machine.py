"""What a keeper decides of one database: from facts to one action and its reason, a sentence. There is no IO here.

Facts decide when to try; whether it succeeds is the referee's condition. No clock of another machine is compared: who wants
to take over has to see the holder's beat stand still for a ttl of its own clock, in an unbroken series of looks.
"""

from __future__ import annotations

from dataclasses import dataclass
from enum import Enum

from pagelog.referee.rows import Row, StandbyRow

SUCCEED_AT = 0.5
"""The share of the audit list, or of the memory, at which a holder makes its next generation beside the present one."""
ROLL_AT = 0.8
"""The share at which it closes the present one without waiting for the next: its service may be full soon."""
ANEW_AT = 0.5
"""The share of the audit list at which a standby is made again: what it fills while it follows is missing after a take-over."""
NEAR = 1024
"""How many blocks a standby may lack when a switchover closes the table."""
PATIENCE = 1.5
"""For how many ttl a run of which PostgreSQL went back waits to see whether the run that PostgreSQL names is alive, whose keeper is."""
_SILENT = 4
"""So many times as long where that keeper is not heard: it is known to stand still after a ttl of looks that are never late."""
_FULL = "its audit list or its memory is {} full"
_CHANGED = "the table was changed"


class RunKind(Enum):
    """What a run of this keeper is for."""

    HOLDER = "holder"
    STANDBY = "standby"


class Action(Enum):
    """What is to be done next. Each ends in new facts."""

    NOTHING = "nothing"
    TAKE = "take"
    FILL = "fill"
    ADOPT = "adopt"
    CLOSE = "close"
    RELEASE = "release"
    END = "end"
    SET_ASIDE = "quarantine"
    STAND_BY = "stand by"
    STAND_DOWN = "stand down"
    CANCEL = "cancel"
    PREPARE = "prepare"
    SUCCEED = "succeed"
    LOOK_UP = "look up"
    CONTINUE = "continue"


class DatabaseState(Enum):
    """What a database is to this keeper, for who looks at it."""

    AWAY = "away"
    STANDBY = "standby"
    TAKING = "taking"
    SERVING = "serving"
    CLOSING = "closing"
    SUCCEEDING = "succeeding"
    WENT_BACK = "went back"


class Stage(Enum):
    """How far the service is that a holder makes for its next generation. It was given up just now where it `FAILED`."""

    NONE = "none"
    MAKING = "making"
    READY = "ready"
    FAILED = "failed"


@dataclass(frozen=True)
class Own:
    """The run that this keeper has of the database. `silent` is for how many seconds its service has not answered, and `went_back`
    is whether PostgreSQL was seen to lack what it once had of this run. It `is_open` once clients were let in,
    `was_closed` where nobody may write any more, and `is_full` where it had no memory for a writer.
    """

    run: str
    kind: RunKind
    generation: int = 0
    reached: int = 0
    alive: bool = True
    silent: float = 0.0
    share: float = 0.0
    went_back: bool = False
    is_open: bool = True
    was_closed: bool = False
    is_full: bool = False
    is_known: bool | None = None
    """Whether PostgreSQL knows this run as a generation of the database; None where it was not asked yet."""
    is_apart: bool = False
    """Whether the archive is known to have something else than its log."""
    back_for: float = 0.0
    """For how many seconds it has been known that PostgreSQL went back."""
    table_number: int = 1
    """That of the table that it was started with."""
    unreached: float = 0.0
    """For how many seconds no client has reached it, whose only way is a front that is not there."""

    def has_old_table(self, row: Row) -> bool:
        """Whether a newer one was set."""
        return self.table_number < row.table_number


class Rival(Enum):
    """What is known of the service of the run that PostgreSQL names."""

    LIVES = "lives"
    GONE = "gone"
    NOT_KNOWN = "not known"
    SILENT = "silent"
    """Its keeper has not been heard since PostgreSQL went back."""


@dataclass(frozen=True)
class Facts:
    """All that a decision rests on. `row` is None where the referee has no such database.

    `still` is for how many seconds the row and the holder's beat have not changed, in an unbroken series of looks.
    `others` are standbys of keepers that live, and `is_noted` is whether one of this keeper is noted. `let_go` is the generation
    that this keeper ended last, and `failed` one for which it could fill no fresh service: it rests for `rest` seconds then, which
    are more where that goes on. At the share `succeed_at` the next generation is made beside the present one.
    """

    me: str
    ttl: float
    row: Row | None
    own: Own | None = None
    still: float = 0.0
    others: tuple[StandbyRow, ...] = ()
    is_noted: bool = False
    stands_by: bool = False
    ending: bool = False
    let_go: int = -1
    failed: int = -1
    rest: float = 0.0
    succeed_at: float = 1.0
    successor: Stage = Stage.NONE
    rival: Rival = Rival.NOT_KNOWN
    further: str | None = None
    """A keeper that is alive, and has a run with more of what PostgreSQL has lost than this one."""
    settles: bool = False
    """Whether PostgreSQL was seen to go back less than a ttl ago, so that others may still say what they have."""
    is_unreached: bool = False
    """Whether no client would reach a service here, whose only way is a front that is not there."""


@dataclass(frozen=True)
class Decision:
    """An action, and why. A `detail`, which stands where `why` has braces, is what changes without a change of the reason."""

    action: Action
    why: str
    detail: str = ""

    @property
    def sentence(self) -> str:
        """The reason, and its detail."""
        return self.why.replace("{}", self.detail)

    def __str__(self) -> str:
        """As it is logged and shown."""
        return (
            self.sentence
            if self.action is Action.NOTHING
            else f"{self.action.value}: {self.sentence}"
        )

    def is_as(self, other: Decision | None) -> bool:
        """Whether action and reason are the same."""
        return other is not None and (self.action, self.why) == (other.action, other.why)


def went_back(row: Row | None, own: Own) -> bool:
    """Whether the referee lacks what it once had of this run, so that its service may be the only copy. Of the run that holds the
    database, the archiver finds that out."""
    if row is None:
        return True
    if own.run == row.run:
        return False
    return row.archived < own.reached or (own.kind is RunKind.HOLDER and own.is_known is False)


def decide(facts: Facts) -> Decision:
    """What to do now. A service that may be the only copy of something is not ended, unless the database was dropped."""
    decision = _decide(facts)
    if decision.action is Action.TAKE and facts.is_unreached:
        return Decision(Action.NOTHING, "no client would reach its service here: the front is away")
    if decision.action in (Action.END, Action.TAKE) and is_only_copy(facts.row, facts.own):
        return Decision(
            Action.SET_ASIDE,
            f"{decision.why}; PostgreSQL went back, and the service is kept",
            decision.detail,
        )
    return decision


def is_only_copy(row: Row | None, own: Own | None) -> bool:
    """Whether the service that is here may be the only copy of what PostgreSQL has lost."""
    if own is None or not own.alive or (row is not None and row.dropped):
        return False
    return own.went_back or went_back(row, own)


def _decide(facts: Facts) -> Decision:
    row, own = facts.row, facts.own
    if row is None:
        if own is None:
            return Decision(Action.NOTHING, "the referee has no such database")
        if facts.ending or not own.alive:
            return Decision(
                Action.END,
                "the keeper ends"
                if facts.ending
                else "the service ended, of which the referee knows no database",
            )
        return Decision(
            Action.NOTHING,
            "the referee knows nothing of the database: PostgreSQL went back, and the service is kept",
        )
    if own is None and facts.is_noted:
        return Decision(Action.STAND_DOWN, "a standby is noted that is not there any more")
    if row.dropped:
        return Decision(Action.END if own else Action.NOTHING, "the database was dropped")
    if own is not None and own.run == row.run:
        decision = _of_the_holder(facts, row, own)
        goes_on = own.was_closed and decision.action is Action.NOTHING
        return (
            Decision(Action.FILL, f"{decision.why}: opened again", decision.detail)
            if goes_on
            else decision
        )
    if own is not None and own.kind is RunKind.HOLDER:
        return _of_a_run_that_is_over(facts, row, own)
    if own is not None and (not own.alive or own.silent >= facts.ttl):
        return Decision(Action.END, "the standby's service ended or hangs")
    if own is not None and own.share < ANEW_AT and is_only_copy(row, own):
        return _of_what_went_back(facts, row, own)
    if (
        row.run is not None and row.holder == facts.me
    ):  # also where the keeper ends: what it has is to be archived
        why = f"generation {row.generation} is of a previous instance of this keeper"
        return Decision(
            Action.END if own else Action.ADOPT, why
        )  # a standby from before PostgreSQL went back is in its way
    if facts.ending:
        return Decision(Action.END if own else Action.NOTHING, "the keeper ends")
    return _of_a_released(facts, row) if row.run is None else _of_another_holder(facts, row)


def _of_the_holder(facts: Facts, row: Row, own: Own) -> Decision:
    if not own.alive:
        return Decision(Action.RELEASE, "the service ended")
    if own.is_apart:
        why = f"PostgreSQL went back, and has other blocks by now: `pagelogctl rescue {row.name}` shows and saves what is here"
        return Decision(Action.RELEASE, why)
    if row.address is None or not own.is_open:
        return Decision(Action.FILL, f"generation {row.generation} begins at position {row.base}")
    if own.silent >= facts.ttl:
        return Decision(
            Action.RELEASE, "the service has not answered for {} s", f"{own.silent:.1f}"
        )
    if facts.ending:
        return Decision(Action.CLOSE, "the keeper ends")
    if own.unreached >= facts.ttl and not row.paused:
        return Decision(
            Action.CLOSE,
            "no client reaches the service: its front has been away for {} s",
            f"{own.unreached:.1f}",
        )
    has_old_table = own.has_old_table(row)
    if row.paused and not has_old_table:
        return Decision(Action.NOTHING, "serves; paused")
    if row.wanted == facts.me and not row.paused:
        return Decision(Action.CANCEL, "it is here already")
    if facts.successor is Stage.READY:
        return Decision(Action.SUCCEED, "the service of the next generation is ready")
    if own.share >= ROLL_AT and not row.paused:  # a wish may wait for ever
        return Decision(Action.CLOSE, _FULL, f"{own.share:.0%}")
    if row.wanted is not None and not has_old_table:
        return _of_a_wish(facts, row)
    return _of_a_succession(facts, row, own)


def _of_a_succession(facts: Facts, row: Row, own: Own) -> Decision:
    if facts.successor is not Stage.NONE:
        return Decision(
            Action.NOTHING, f"serves; the service of the next generation: {facts.successor.value}"
        )
    if own.has_old_table(row):
        return Decision(Action.PREPARE, _CHANGED)
    if row.succeed:
        return Decision(Action.PREPARE, "a succession was asked for")
    if own.share >= facts.succeed_at:
        return Decision(Action.PREPARE, _FULL, f"{own.share:.0%}")
    if own.is_full and facts.succeed_at < 1:
        return Decision(Action.PREPARE, "its service had no memory for a writer")
    return Decision(Action.NOTHING, "serves")


def _of_a_wish(facts: Facts, row: Row) -> Decision:
    wanted = [standby for standby in facts.others if row.wanted in (standby.keeper, "*")]
    reached = max((standby.reached for standby in wanted), default=-1)
    if reached < 0:
        return Decision(
            Action.NOTHING, f"serves; a switchover to {row.wanted} waits for its standby"
        )
    if row.archived - reached > NEAR:
        return Decision(
            Action.NOTHING,
            "serves; the standby that is wanted lacks {} blocks",
            str(row.archived - reached),
        )
    return Decision(Action.CLOSE, f"a switchover to {row.wanted} was asked for")


def _of_a_run_that_is_over(facts: Facts, row: Row, own: Own) -> Decision:
    if not own.alive:
        return Decision(Action.END, f"the service of generation {own.generation} ended")
    if facts.ending and own.is_known is None:
        return Decision(
            Action.SET_ASIDE, "the keeper ends, and does not know whether PostgreSQL has this run"
        )
    if own.is_known is None:
        return Decision(
            Action.LOOK_UP, f"PostgreSQL has another run than that of generation {own.generation}"
        )
    if is_only_copy(row, own):
        return _of_what_went_back(facts, row, own)
    if row.run is None and row.generation == own.generation:
        return Decision(Action.END, f"generation {row.generation} was released")
    return Decision(
        Action.END, f"generation {row.generation} of {row.holder or 'nobody'} has begun"
    )


def _of_what_went_back(facts: Facts, row: Row, own: Own) -> Decision:
    """PostgreSQL does not know this run, or lacks what it once had of it. Where no other run of the database is alive it continues, in a
    new generation, and is archived again; else it is quarantined. So nothing is ended, and nothing stands still.
    """
    back = "PostgreSQL went back"
    if facts.ending:
        return Decision(Action.SET_ASIDE, f"the keeper ends; {back}, and the service is kept")
    if own.is_apart:
        return Decision(
            Action.SET_ASIDE,
            f"{back}, and has other blocks by now: `pagelogctl rescue {row.name}` shows and saves what is here",
        )
    if (
        own.kind is RunKind.HOLDER and row.generation >= own.generation
    ):  # its clients may have been told that it is over
        why = f"{back}, and another generation has begun since: `pagelogctl rescue {row.name}` shows and saves what is here"
        return Decision(Action.SET_ASIDE, why)
    if own.silent >= facts.ttl:
        return Decision(Action.NOTHING, f"{back}; the service does not answer, and is kept")
    if row.paused:
        return Decision(Action.NOTHING, f"{back}; paused")
    if row.run is not None and facts.rival is not Rival.GONE and facts.still < facts.ttl:
        return _of_a_rival(facts, row, own, back)
    if facts.further is not None and facts.still < facts.ttl:
        return Decision(Action.NOTHING, f"{back}; keeper {facts.further} has more of it")
    if facts.settles:
        return Decision(Action.NOTHING, f"{back} just now: who has more of it may say so")
    return Decision(Action.CONTINUE, f"{back}: what it lacks of this run is archived again")


def _of_a_rival(facts: Facts, row: Row, own: Own, back: str) -> Decision:
    if own.kind is RunKind.STANDBY and row.holder != facts.me:
        return Decision(
            Action.NOTHING, f"{back}; {row.holder} has it, and may archive again what is missing"
        )
    patience = PATIENCE * facts.ttl * (_SILENT if facts.rival is Rival.SILENT else 1)
    if facts.rival is Rival.LIVES or own.back_for >= patience:
        why = f"{back}, and {row.holder} has another run: `pagelogctl rescue {row.name}` shows and saves what is here"
        return Decision(Action.SET_ASIDE, why)
    return Decision(
        Action.NOTHING, f"{back}, to a run of {row.holder}: whether that is alive is not known yet"
    )


def _of_a_released(facts: Facts, row: Row) -> Decision:
    if facts.own is not None and facts.own.has_old_table(row):
        return Decision(Action.END, f"{_CHANGED}: the standby is made again")
    if row.paused:
        return Decision(Action.NOTHING, "nobody has it; paused")
    if facts.further is not None and facts.still < facts.ttl:
        return Decision(
            Action.NOTHING,
            f"nobody has it; PostgreSQL went back, and keeper {facts.further} has more of it",
        )
    if facts.settles:
        return Decision(
            Action.NOTHING,
            "nobody has it; PostgreSQL went back just now: who has more of it may say so",
        )
    if row.wanted not in (None, "*", facts.me) and facts.still < facts.ttl:
        return Decision(Action.NOTHING, f"nobody has it; {row.wanted} is wanted")
    if row.wanted == "*" and facts.let_go == row.generation and facts.still < facts.ttl:
        return Decision(Action.NOTHING, "nobody has it; any other keeper is wanted")
    if facts.failed == row.generation and facts.still < max(facts.ttl, facts.rest):
        return Decision(Action.NOTHING, "nobody has it; it could not be filled here just now")
    if (
        facts.own is None
        and facts.others
        and row.wanted != facts.me
        and facts.still < facts.ttl / 2
    ):
        return Decision(Action.NOTHING, f"nobody has it; {facts.others[0].keeper} has a standby")
    return Decision(Action.TAKE, "nobody has it")


def _of_another_holder(facts: Facts, row: Row) -> Decision:
    wait = facts.ttl * (1.5 if facts.own is None and facts.others else 1)
    # One after the other: until the holder has the newest table, a standby of before is as good as that.
    if (
        facts.own is not None
        and facts.own.has_old_table(row)
        and (row.run_table >= row.table_number or facts.still >= wait)
    ):
        return Decision(Action.END, f"{_CHANGED}: the standby is made again")
    if facts.still >= wait and not row.paused:
        return Decision(
            Action.TAKE,
            f"the heartbeat of {row.holder} has stalled for {{}} s",
            f"{facts.still:.1f}",
        )
    if facts.own is not None:
        if facts.own.share >= ANEW_AT:
            return Decision(
                Action.END,
                "the standby's audit list or memory is {} full: it is made again",
                f"{facts.own.share:.0%}",
            )
        return Decision(
            Action.NOTHING, f"follows {row.holder} at position {{}}", str(facts.own.reached)
        )
    if row.address is not None and (facts.stands_by or row.wanted in (facts.me, "*")):
        return Decision(Action.STAND_BY, f"{row.holder} has it")
    return Decision(Action.NOTHING, f"{row.holder} has it")


def state_of(row: Row | None, own: Own | None, doing: Action = Action.NOTHING) -> DatabaseState:
    """What the database is to this keeper, while it does this."""
    if own is None:
        return DatabaseState.TAKING if doing in (Action.TAKE, Action.ADOPT) else DatabaseState.AWAY
    if doing is Action.CLOSE:
        return DatabaseState.CLOSING
    if doing is Action.SUCCEED:
        return DatabaseState.SUCCEEDING
    if is_only_copy(row, own):
        return DatabaseState.WENT_BACK
    if own.kind is RunKind.STANDBY:
        return DatabaseState.TAKING if doing is Action.TAKE else DatabaseState.STANDBY
    return (
        DatabaseState.TAKING
        if doing is Action.FILL or row is None or row.address is None
        else DatabaseState.SERVING
    )


class Stillness:
    """For how long something has not changed, by one's own clock, in looks that are never more than half a ttl apart."""

    def __init__(self, ttl: float) -> None:
        self.ttl = ttl
        self._what: object = None
        self._since = self._last = float("-inf")

    def see(self, what: object, now: float) -> float:
        """Seconds since it was first seen as it is now. A series that was broken, as by a stop of this process, begins again."""
        if what != self._what or now - self._last > self.ttl / 2:
            self._what, self._since = what, now
        self._last = now
        return now - self._since
