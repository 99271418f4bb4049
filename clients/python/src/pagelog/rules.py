"""The written order: the rules by which the service denies, a class of exceptions for each."""

from __future__ import annotations

from enum import IntEnum
from typing import ClassVar

from pagelog.errors import Refusal


class Section(IntEnum):
    """The three sections of the written order; the number is that of the wire."""

    A = 1
    B = 2
    C = 3


class TableFault(IntEnum):
    """What is wrong with the text of a table: the value of a denial C7."""

    NO_DOCUMENT = 1
    UNKNOWN_KEY = 2
    COUNT_OF_PRINCIPALS = 3
    COUNT_OF_ROWS = 4
    KEYS_OF_A_PRINCIPAL = 5
    ID = 6
    TOKEN = 7
    EQUAL_IDS = 8
    KEYS_OF_A_ROW = 9
    WORD = 10
    RANGE = 11
    NOBODY_MAY_SET_THE_TABLE = 12
    COPIES_AND_QUORUM = 13


class Denial(Refusal):
    """A row of the written order forbids the request. Nothing was changed but the audit list.

    `section`, `row` and `value` are those of the reply; `rule` is the rule's name and `sentence` says when it stands.
    """

    rule: ClassVar[str] = "Denial"
    sentence: ClassVar[str] = "the service denies it"

    def __init_subclass__(cls) -> None:
        cls.rule = cls.__name__

    def __init__(self, section: Section, row: int, value: int) -> None:
        self.section = Section(section)
        self.row = row
        self.value = value
        super().__init__(
            f"denied {self.section.name}{row} {self.rule}: {self.sentence} (value {value})"
        )


class UnknownPrincipal(Denial):
    """A1. The table does not list this principal with this token."""

    sentence = "the table does not list this principal with this token"


class OlderEpoch(Denial):
    """A2. The request's epoch is over; `value` is the current one."""

    sentence = "the epoch of the request is over"

    @property
    def epoch(self) -> int:
        """The current epoch."""
        return self.value


class NewerEpoch(Denial):
    """A3. The request's epoch is still to come; `value` is the current one."""

    sentence = "the epoch of the request is still to come"

    @property
    def epoch(self) -> int:
        """The current epoch."""
        return self.value


class OtherPrimary(Denial):
    """A4. Another principal is the primary of this epoch."""

    sentence = "another principal is the primary of this epoch"


class RoleLacksOperation(Denial):
    """A5. The role does not have the operation."""

    sentence = "the role does not have the operation"


class TableRow(Denial):
    """B, row k from 1. Row k of the table is the first that matches, and it denies."""

    sentence = "this row of the table is the first that matches, and it denies"


class NoRowMatches(Denial):
    """B0. No row of the table matches."""

    sentence = "no row of the table matches"


class AboveTheEnd(Denial):
    """C1. A pull from, or a get at, an LSN above the hardened end; `value` is that end."""

    sentence = "the LSN is above the hardened end"


class HardenedAlready(Denial):
    """C2. A write or an offer of an LSN at or below the hardened end; `value` is that end."""

    sentence = "the LSN is hardened already"


class AboveTheWindow(Denial):
    """C3. A write or an offer of an LSN more than 64 above the hardened end; `value` is that end."""

    sentence = "the LSN is above the window of 64"


class OtherContent(Denial):
    """C4. Another block was written or offered at this LSN in this epoch."""

    sentence = "another block stands at this LSN in this epoch"


class NoSuchCopy(Denial):
    """C5. There are the copies 0 to 2, or to 5 where the table of the epoch's beginning says six."""

    sentence = "there is no copy of this number"


class BelowQuorum(Denial):
    """C6. Some LSN of the report is in fewer copies than the quorum, 2 or 4; `value` is the hardened end."""

    sentence = "some block up to this LSN is in fewer copies than the quorum"


class NoTable(Denial):
    """C7. The text is not a table; `value` and `fault` say what is wrong with it."""

    sentence = "the text is not a table"

    @property
    def fault(self) -> TableFault | None:
        """What is wrong with the text; None where the value is that of no fault, and so not from the service."""
        return TableFault(self.value) if self.value in set(TableFault) else None


class UnlistedPrimary(Denial):
    """C8. The table does not list the principal that the failover names."""

    sentence = "the table does not list the new primary"


class LastEpoch(Denial):
    """C9. The epoch is 2^32 - 1, after which there is none."""

    sentence = "there is no epoch after the last one"


RULES: dict[tuple[Section, int], type[Denial]] = {
    (Section.A, 1): UnknownPrincipal,
    (Section.A, 2): OlderEpoch,
    (Section.A, 3): NewerEpoch,
    (Section.A, 4): OtherPrimary,
    (Section.A, 5): RoleLacksOperation,
    (Section.B, 0): NoRowMatches,
    (Section.C, 1): AboveTheEnd,
    (Section.C, 2): HardenedAlready,
    (Section.C, 3): AboveTheWindow,
    (Section.C, 4): OtherContent,
    (Section.C, 5): NoSuchCopy,
    (Section.C, 6): BelowQuorum,
    (Section.C, 7): NoTable,
    (Section.C, 8): UnlistedPrimary,
    (Section.C, 9): LastEpoch,
}


def rule_of(section: Section, row: int) -> type[Denial]:
    """The class of the rule at this place of the written order; `Denial` itself where no rule has it."""
    if section is Section.B and row > 0:
        return TableRow
    return RULES.get((section, row), Denial)
