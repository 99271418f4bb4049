"""Python's clients of the torture of administration: each writer has entries of its own on pages of its own, twice."""

from __future__ import annotations

import os
import threading
import time
import uuid
from typing import Callable

from by_tls import trust
from pagelog import (
    AboveTheEnd,
    BelowBase,
    Group,
    Lost,
    NamedPrimary,
    PagelogError,
    Primary,
    Put,
    Reader,
    Unwritten,
)
from service import token
from torture_notes import ENTRIES, SIZE, Job, Notes, entry, now

LIFE, HELLO, PAGES, MIRROR = 0, 1, 1000, 65536
"""The page that names the life; one that is only written to find out whether one may write; how many pages a writer has; where those
come once more."""
PATIENCE, TIMEOUT = 8.0, 2.0
PAGE_SERVERS = "PAGELOG_TORTURE_PAGE_SERVERS"
"""In the environment where Python's databases have page servers."""


def page_of(who: str, number: int) -> int:
    """Writers are known by the number behind their name."""
    return (10 + int(who.rpartition("-")[2])) * PAGES + number // ENTRIES


def puts(life: str, who: str, number: int) -> list[Put]:
    page, data = page_of(who, number), entry(life, who, number)
    return [Put(at, number % ENTRIES * SIZE, data) for at in (page, page + MIRROR)]


def life_at(job: Job) -> str:
    """The life of the database that is there now; an empty text where it has none yet."""
    with Reader.named(
        job.name,
        keepers=job.addresses,
        principal=3,
        token=token(3),
        patience=PATIENCE,
        timeout=TIMEOUT,
        trust=trust(),
    ) as reader:
        if not reader.end():
            return ""
        return reader.page(LIFE).data[:12].strip(b"\0").decode()


class Session:
    """A writer that has begun, and knows to which life it writes: none began while it found out."""

    def __init__(self, job: Job, who: str, notes: Notes) -> None:
        self.job, self.who, self.notes = job, who, notes
        self.primary: NamedPrimary | None = None
        self.life = ""

    def begin(self) -> bool:
        """Returns whether it is one. Raises `PagelogError`."""
        before = life_at(self.job)
        if not before and not self.who.endswith("-0"):
            return False  # the first writer of a database begins its life
        self.primary = Primary.named(
            self.job.name,
            keepers=self.job.addresses,
            principal=2,
            token=token(2),
            operator=(1, token(1)),
            patience=PATIENCE,
            timeout=TIMEOUT,
            trust=trust(),
        )
        self.life = before or uuid.uuid4().hex[:12]
        self.primary.append(Put(HELLO, 0, b"hello") if before else Put(LIFE, 0, self.life.encode()))
        self.primary.commit()
        return life_at(self.job) == self.life

    def close(self) -> None:
        if self.primary is not None:
            self.primary.close()


def _sessions(job: Job, notes: Notes, use: Callable[[Session], None]) -> None:
    """One session after the other, until it is over."""
    for chance in job.until_over(0.1):
        session, began = Session(job, job.who, notes), now()
        try:
            if session.begin():
                use(session)
        except PagelogError as error:
            notes(
                "failed",
                stage="session",
                error=type(error).__name__,
                why=str(error)[:100],
                took=round(now() - began, 2),
            )
            time.sleep(chance.uniform(0, 1))
        finally:
            session.close()


class Numbers:
    """Each number once, for the threads of a process."""

    def __init__(self, last: int) -> None:
        self._guard, self._last = threading.Lock(), last

    def next(self) -> int:
        with self._guard:
            self._last += 1
            return self._last


def writes(job: Job) -> None:
    """Commits, some of them durable at once, some later."""
    notes = Notes(job.folder, job.who)
    numbers = Numbers(notes.last)

    def use(session: Session) -> None:
        assert session.primary is not None
        due: dict[int, tuple[int, float]] = {}
        for chance in job.until_over(0.05):
            if due and chance.random() < 0.3:
                _settle(session, due)
                continue
            number, began = numbers.next(), now()
            session.notes("try", number=number, links=[{"name": job.name, "life": session.life}])
            session.primary.append(*puts(session.life, job.who, number))
            due[session.primary.commit()] = number, began
        if due:
            _settle(session, due)

    _sessions(job, notes, use)


def _settle(session: Session, due: dict[int, tuple[int, float]]) -> None:
    """Waits until all are durable, and notes so. Those that are lost are noted as such, and end the session as any error."""
    assert session.primary is not None
    if not due:
        return
    link = {"name": session.job.name, "life": session.life}
    try:
        session.primary.durable(max(due))
        lost = None
    except Lost as error:
        assert error.position <= max(due), error
        lost = error
    for position in [each for each in sorted(due) if lost is None or each >= lost.position]:
        number, began = due.pop(position)
        why = {} if lost is None else {"why": f"{position}: {lost}"}
        session.notes(
            "acknowledged" if lost is None else "lost",
            number=number,
            links=[link],
            began=began,
            durable=True,
            **why,
        )
    if lost is not None:
        _settle(session, due)  # what was before is not lost
        raise lost


def groups(job: Job) -> None:
    """Threads share a writer."""
    notes = Notes(job.folder, job.who)
    numbers = Numbers(notes.last)

    def use(session: Session) -> None:
        assert session.primary is not None
        group = Group(session.primary)
        threads = [
            threading.Thread(target=_share, args=(session, group, numbers)) for _ in range(4)
        ]
        for thread in threads:
            thread.start()
        for thread in threads:
            thread.join()

    _sessions(job, notes, use)


def _share(session: Session, group: Group, numbers: Numbers) -> None:
    """Until the group has ended."""
    for _ in session.job.until_over(0.1):
        number, began = numbers.next(), now()
        link = {"name": session.job.name, "life": session.life}
        session.notes("try", number=number, links=[link])
        try:
            group.commit(*puts(session.life, session.who, number))
            session.notes("acknowledged", number=number, links=[link], began=began, durable=True)
        except (Lost, Unwritten):
            return session.notes("lost", number=number, links=[link], began=began)
        except PagelogError as error:
            return session.notes(
                "failed",
                number=number,
                stage="commit",
                error=type(error).__name__,
                why=str(error)[:100],
            )


# Readers.


class Looker:
    """A reader of one kind: what it was shown once has to be shown again."""

    def __init__(self, job: Job, *, durable: bool, pages: str = "prefer") -> None:
        self.job, self.durable, self.pages = job, durable, pages
        self.kind = "durable" if durable else "plain"
        self.notes = Notes(job.folder, f"{job.who}-{'copies' if pages == 'only' else self.kind}")
        self.opened = 0
        self.open()

    def open(self) -> None:
        self.opened += 1
        self.reader = Reader.named(
            self.job.name,
            keepers=self.job.addresses,
            principal=3,
            token=token(3),
            durable_only=self.durable,
            pages=self.pages,
            patience=PATIENCE,
            timeout=TIMEOUT,
            trust=trust(),
        )

    def look(self, who: str) -> bool:
        """At all pages of a writer. Returns whether it was shown any."""
        began, found, page = now(), False, page_of(who, 0)
        try:
            while self._look_at(who, page, began):
                found, page = True, page + 1
        except (AboveTheEnd, BelowBase):
            pass  # a run was lost, or an old one is read
        except PagelogError as error:
            self.notes(
                "failed",
                stage="look",
                error=type(error).__name__,
                why=str(error)[:100],
                took=round(now() - began, 2),
            )
            self.reader.close()
            self.open()
        return found

    def _look_at(self, who: str, page: int, began: float) -> bool:
        """Returns whether there is anything on it."""
        end = self.reader.end()
        if not end:
            return False
        top, one, other = (
            each.data for each in self.reader.pages((LIFE, page, page + MIRROR), end)
        )
        life = top[:12].strip(b"\0").decode()
        if one != other:
            self.notes(
                "violation",
                text=f"torn for a {self.kind} reader of {self.job.name}: page {page} at {end}",
            )
        first = (page - page_of(who, 0)) * ENTRIES
        bits = self._bits(one, life, who, first, end)
        self.notes(
            "look",
            kind=self.kind,
            name=self.job.name,
            opened=self.opened,
            life=life,
            end=end,
            writer=who,
            first=first,
            bits=hex(bits),
            began=began,
        )
        return bits != 0

    def _bits(self, data: bytes, life: str, who: str, first: int, end: int) -> int:
        """Which numbers are on a page, as bits."""
        bits = 0
        for index in range(ENTRIES):
            slot = data[index * SIZE : (index + 1) * SIZE]
            if slot == bytes(SIZE):
                continue
            if slot != entry(life, who, first + index):
                self.notes(
                    "violation",
                    text=f"invented for a {self.kind} reader of {self.job.name}: number {first + index} of {who} at {end}, "
                    f"life {life}: {slot.hex()}",
                )
            bits |= 1 << index
        return bits


def page_readers(job: Job) -> None:
    """A plain one, a durable one, and where there are page servers one that asks nobody else. `other` of the job names the writers."""

    def work(durable: bool, pages: str = "prefer") -> Callable[[], None]:
        def on() -> None:
            looker = Looker(job, durable=durable, pages=pages)
            for chance in job.until_over(0.25):
                if not looker.look(chance.choice(job.other.split())):
                    time.sleep(0.2)

        return on

    threads = [threading.Thread(target=work(durable)) for durable in (True, False)]
    if PAGE_SERVERS in os.environ:
        threads.append(threading.Thread(target=work(True, "only")))
    for thread in threads:
        thread.start()
    for thread in threads:
        thread.join()


def page_final(job: Job) -> None:
    """One durable look at all."""
    looker = Looker(job, durable=True)
    for who in job.other.split():
        if not looker.look(who):
            looker.look(who)


KINDS: dict[str, Callable[[Job], None]] = {
    "writes": writes,
    "groups": groups,
    "page_readers": page_readers,
    "page_final": page_final,
}
