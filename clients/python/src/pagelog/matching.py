"""Whether a reply answers its request. One that does not comes from something else than the service."""

from __future__ import annotations

from pagelog.reply import Blocks, Entries, Page, Reply, State
from pagelog.request import Act, Audit, Get, Pull, Status


def mismatch(act: Act, epoch: int, reply: Reply) -> str | None:
    """What is wrong with a reply to this act in this epoch; None where it may be an answer."""
    if isinstance(act, Status) and isinstance(reply, State):
        return (
            None
            if reply.epoch == epoch
            else f"a status of epoch {reply.epoch} to a request in epoch {epoch}"
        )
    if isinstance(act, Get) and isinstance(reply, Page):
        return _of_page(act, reply)
    if isinstance(act, Pull) and isinstance(reply, Blocks):
        return _of_blocks(act, reply)
    if isinstance(act, Audit) and isinstance(reply, Entries):
        return _of_entries(act, reply)
    return None


def _of_page(act: Get, page: Page) -> str | None:
    is_good = page.at == act.lsn if act.exact else page.at >= act.lsn
    return (
        None
        if is_good
        else f"a page at LSN {page.at} to a get at {'' if act.exact else 'or above '}LSN {act.lsn}"
    )


def _of_blocks(act: Pull, pulled: Blocks) -> str | None:
    if pulled.next <= act.lsn:
        return f"a pull from LSN {act.lsn} continues at LSN {pulled.next}"
    if len(pulled.blocks) > act.max:
        return f"{len(pulled.blocks)} blocks to a pull of at most {act.max}"
    least = act.lsn
    for block in pulled.blocks:
        if not least <= block.lsn < pulled.next:
            return f"a block of LSN {block.lsn} where {least} to {pulled.next - 1} were pulled"
        least = block.lsn + 1
    return None


def _of_entries(act: Audit, found: Entries) -> str | None:
    if len(found.entries) > act.max:
        return f"{len(found.entries)} entries to an audit of at most {act.max}"
    for number, entry in enumerate(found.entries, act.first):
        if entry.number != number:
            return f"entry {entry.number} of the audit list where {number} was asked for"
    return None
