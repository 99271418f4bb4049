"""The end of a generation: statements that archive its rest, and begin the next one or release the database."""

from __future__ import annotations

from dataclasses import dataclass, field

from pagelog.referee import statements
from pagelog.referee.batches import values_of_blocks, values_of_lines, values_of_one
from pagelog.referee.referee import Referee
from pagelog.referee.rows import Batch, Lines, Row, row_of
from pagelog.referee.schema import CHANNEL, FORMAT


@dataclass(frozen=True)
class Switch:
    """From a run to the next one, of generation `next`, whose service has all up to the end of the old one: `old` is archived, the
    `blocks` are not yet."""

    log: int
    run: str
    generation: int
    old: int
    blocks: tuple[bytes, ...] = field(repr=False)
    chain: bytes = field(repr=False)
    next: int
    next_run: str
    address: str
    shift: int
    images: int
    lines: Lines | None = None
    """Of the old one's audit list, which speak of the blocks."""
    table_number: int = 1
    """Of the table that the next run was started with."""
    secure: str | None = None
    """The way to the next run by TLS, as the column has it."""

    @property
    def end(self) -> int:
        """The archived position with it: all that the old generation will ever have."""
        return self.old + len(self.blocks)


def number(referee: Referee, log: int, run: str, generation: int, least: int = 0) -> int | None:
    """A number for the generation after this one, which no other gets: of one that never begins it is a gap.

    None where the run holds the database no more.
    """
    found = referee._ask(
        statements.NUMBER, {"id": log, "run": run, "generation": generation, "least": least}
    )
    return int(found[0][0]) if found else None


def succeed(referee: Referee, switch: Switch) -> Row | None:
    """Makes the next run the one that serves, if the old one still holds the database and nothing more is archived of it.

    Returns the row with it. None also where PostgreSQL has gone back, and has not given the number of its generation.
    """
    statement = statements.SUCCEED if switch.lines is None else statements.SUCCEED_WITH_LINES
    return row_of(
        referee._ask(
            statement,
            {
                "id": switch.log,
                "run": switch.run,
                "generation": switch.generation,
                "me": referee.me,
                "next": switch.next,
                "next_run": switch.next_run,
                "address": switch.address,
                "secure": switch.secure,
                "shift": switch.shift,
                "images": switch.images,
                "old": switch.old,
                "new": switch.end,
                "chain": switch.chain,
                "table_number": switch.table_number,
                **values_of_blocks(switch.blocks),
                **values_of_lines([(switch.log, switch.lines)]),
            },
        )
    )


def release(referee: Referee, last: Batch) -> Row | None:
    """Archives the last blocks of a run and ends its generation, if it still holds the database and nothing more is archived of it.

    Returns the row then; None where nothing was done.
    """
    statement = statements.RELEASE if last.lines is None else statements.RELEASE_WITH_LINES
    return row_of(referee._ask(statement, values_of_one(last)))


def begun(referee: Referee, switch: Switch) -> Row | None:
    """The row where a switch in doubt was carried out, by statements that write. The first of them waits for the switch itself, if that
    still runs; the other one would not see it."""
    if referee.kept(switch.log, switch.next_run) is None:
        return None
    return referee.held(switch.log, switch.next_run)


def may_begin(referee: Referee, switch: Switch) -> bool:
    """Whether one that was not carried out may be asked again; else it never will be."""
    kept = referee.kept(switch.log, switch.run)
    return kept is not None and kept.archived == switch.old and has_newest_table(referee, switch)


def has_newest_table(referee: Referee, switch: Switch) -> bool:
    """Whether no newer table was set than that of the next run: such a run never begins."""
    newest = referee.newest_table(switch.log)
    return newest is not None and newest[0] <= switch.table_number


def rehearse(referee: Referee) -> None:
    """Asks for a switch from no run, which changes nothing: the connection has in its caches then what the statement needs."""
    succeed(
        referee,
        Switch(
            log=0,
            run="",
            generation=0,
            old=0,
            blocks=(),
            chain=b"",
            next=0,
            next_run="",
            address="",
            shift=0,
            images=0,
        ),
    )


def rehearse_release(referee: Referee) -> None:
    """The same of a release."""
    release(referee, Batch(0, "", 0, 0, b"", ()))


def wish_for(referee: Referee, name: str) -> bool:
    """Asks the holder for a succession. False without a database of that name."""
    return bool(
        referee._ask(
            "WITH told AS (UPDATE pagelog_log SET succeed = true WHERE name = %s AND format = %s AND NOT dropped RETURNING id) "
            f"SELECT id, pg_notify('{CHANNEL}', '') FROM told",
            (name, FORMAT),
        )
    )
