"""Restoring: a fresh database is filled from an archive."""

from __future__ import annotations

from pagelog.archive import Archive, ArchiveError
from pagelog.comparing import OtherLog, Progress, Verified, all_blocks, compare, no_progress, verify
from pagelog.block import HIGHEST_LSN
from pagelog.errors import InDoubt
from pagelog.operator import Operator
from pagelog.primary import Primary
from pagelog.reader import Reader
from pagelog.reply import Blocks, Denied, expect
from pagelog.request import Pull
from pagelog.rules import HardenedAlready, OlderEpoch, Section, UnknownPrincipal


class OtherService(ArchiveError):
    """Two clients that have to ask one service ask two. Nothing was written."""


EPOCHS_ABOVE = 16
"""How far above the highest archived epoch the epoch of a restored service is: as many may have begun since an archiver looked."""


def raise_epoch(operator: Operator, to: int, least: int) -> int:
    """Begins epochs until the current one is at least this one, with principal `to` as its primary. Returns it.

    Each is an entry of the audit list. Writers of the epochs before are denied `OlderEpoch`.
    """
    while True:
        state = operator.status()
        if state.epoch >= least and state.primary == to:
            return state.epoch
        epoch = state.epoch
        try:
            while epoch < least or epoch == state.epoch:
                epoch = operator.failover(to, epoch=epoch)
        except (InDoubt, OlderEpoch):
            continue  # one epoch more than meant does no harm


def restore(
    archive: Archive,
    primary: Primary,
    reader: Reader,
    *,
    operator: Operator | None = None,
    last: int = HIGHEST_LSN,
    told: Progress = no_progress,
) -> Verified:
    """Fills a fresh service from an archive up to LSN `last`, LSN for LSN, and compares both in the end.

    With an operator the service's epoch is raised above all that were archived first, so that writers of the time before
    are denied `OlderEpoch`. Without one, a writer whose epoch has the number of the new service's goes on beside the new one.
    A service that has the beginning of the archived log is filled from there on, so that a restore that was broken off
    may be called again. Raises `OtherLog` where the service has anything else: nothing is overwritten, and `OtherService`
    where the reader does not find the epoch and the end that the primary finds. What is archived meanwhile is left out.
    """
    archive.check(last, told=told)
    if operator is not None and archive.epoch:
        raise_epoch(operator, primary.credentials.id, archive.epoch + EPOCHS_ABOVE)
    return verify(
        archive, reader, last=fill(archive, primary, reader, last=last, told=told), told=told
    )


def set_real_table(operator: Operator, text: str) -> None:
    """Puts the table in force. Where the reply is lost, and this operator is not known to the service any more, it was."""
    try:
        operator.set_table(text)
    except InDoubt:
        try:
            operator.set_table(text)
        except UnknownPrincipal:
            return


def fill(
    archive: Archive,
    primary: Primary,
    reader: Reader,
    *,
    last: int = HIGHEST_LSN,
    told: Progress = no_progress,
) -> int:
    """Writes what the service has not from the archive, up to LSN `last`, and returns the hardened end.

    Where requests of a restore that was killed are still on their way, the service has more meanwhile: it goes on there.
    """
    archived, alike = min(last, archive.archived), 0
    _try_to_pull(reader, archived)
    refusal: HardenedAlready | InDoubt | None = None
    while True:
        hard = _common_end(primary, reader)
        if hard > archived:
            raise OtherLog(
                archived + 1,
                f"the service is not fresh: it has {hard} blocks, {archived} are archived, and there is one",
            )
        if refusal is not None and hard <= alike:
            raise refusal
        compare(all_blocks(reader, alike + 1, hard), archive.blocks(alike + 1, hard))
        alike = hard
        primary.overwrite_sqlite = (
            True  # what it goes on with is the archive's log, as far as that is there
        )
        try:
            for lsn in primary.harden(archive.blocks(hard + 1, archived)):
                told(lsn, archived)
            return archived
        except (HardenedAlready, InDoubt) as error:
            refusal = error


def _try_to_pull(reader: Reader, lsn: int) -> None:
    """Raises where the table does not let the reader pull at this LSN, whether there is a block or not."""
    for reply in reader.answers([Pull(lsn)] if lsn else ()):
        if isinstance(reply, Denied) and reply.section is Section.B:
            expect(Blocks, reply)


def _common_end(primary: Primary, reader: Reader) -> int:
    """The end of the log that both see, and at which the primary goes on. Raises `OtherService`."""
    before, seen, state = primary.drop(), reader.status(), primary.drop()
    if not (before.hard <= seen.hard <= state.hard and before.epoch <= seen.epoch <= state.epoch):
        raise OtherService(
            f"the primary's service has {state.hard} blocks in epoch {state.epoch}, and the reader's {seen.hard} in "
            f"epoch {seen.epoch}"
        )
    return state.hard
