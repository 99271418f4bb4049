"""Where a named database is, and how far it is durable: a client of the keepers' lines."""

from __future__ import annotations

import os
import re
import select
import socket
import time
from dataclasses import dataclass
from typing import Callable, Mapping, Sequence

from pagelog.connection import Address
from pagelog.dialing import dial
from pagelog.errors import PagelogError, TimedOut
from pagelog.repeating import Backoff
from pagelog.secure import SecurityError, Trust

QUICKEST, SLOWEST = 0.005, 0.2
"""Seconds between two rounds of questions, the first and the longest."""
_ANSWER, _SLOWEST_ANSWER = 1.0, 4.0
"""Seconds for which an answer is waited for. Who needs a place waits for twice as long each time that nobody answers, up to the second."""
_HELD = 0.25
"""Seconds for which an answer that keepers hold back is waited for; then it is tried again where the database was."""
_SILENCE = 3.0
_LONGEST = 1024
_NO_ANSWER = (["what", "ring"], ["what", "full"])
"""What a keeper answers to a `ring` or a `full` that knows none; one that does answers nothing."""
VERSION = 2
"""Of the lines. The keepers of version 1 name no database, and no run in what they say is durable."""
_GONE = 0.5
"""Seconds for which all keepers refuse connections before who opens a database is told so."""
_LEFT_OUT = 10.0
"""Seconds for which a keeper that does not answer, or its machine, is not asked, as long as there is another."""
_AT_ONCE = ("where", "standby")
"""What a keeper that lives answers at once; the rest may wait for PostgreSQL."""


_NONCE = re.compile("[0-9a-f]{32}")
Prover = Callable[[str, str], Sequence[object]]
"""Makes the words that prove whose token a client has, of a keeper's nonce and of DATABASE/RUN."""


class UnknownName(PagelogError):
    """The keepers know of no database of this name."""


class NoKeeper(PagelogError):
    """No keeper answers: all connections are refused, or are not with whom they should be. Who has found the database before waits for them."""


class WrongToken(PagelogError):
    """The table of the database does not list the principal with this token."""


class OlderKeepers(PagelogError):
    """The keepers are of an older version: they cannot say which database of a name they have. They are upgraded before their clients."""


class Lost(PagelogError):
    """What was committed at `position`, and after it, is not in the database and never will be: another went on there.

    It is final. Positions from there on are used again.
    """

    def __init__(self, position: int, why: str = "") -> None:
        self.position, self.why = position, why
        super().__init__(f"position {position} is lost{': ' if why else ''}{why}")

    def again(self) -> Lost:
        """Another one, for another thread."""
        return Lost(self.position, self.why)


class Dropped(Lost):
    """The database that was opened is no more: it was dropped, or the keepers have another of its name. All of it is lost to this
    client, which reads and writes nothing any more. One that is opened again finds what has the name now.
    """

    def __init__(self, name: str, why: str) -> None:
        self.name = name
        super().__init__(1, f"{name}: {why}")

    def again(self) -> Lost:
        return Dropped(self.name, self.why.removeprefix(f"{self.name}: "))


class BelowBase(PagelogError):
    """The service began with images of the pages at position `base`: nothing below it can be read there any more."""

    def __init__(self, position: int, base: int) -> None:
        self.position, self.base = position, base
        super().__init__(f"position {position} is below {base}, with which the service began")


@dataclass(frozen=True)
class Place:
    """Where a generation is served; a standby has none, 0. A position is an LSN of its service plus `shift`; the service began with
    the images of the pages at position `base`, or where that is 0 with the first block. The generation directly before this one
    ended at position `kept`. `database` is what no other one ever has, also one of the same name; an older keeper says none.
    """

    generation: int
    run: str
    address: str
    archived: int
    lines: str
    base: int
    shift: int
    kept: int = 0
    database: str = ""
    after: str = ""
    """The run of the generation directly before, where who tells the place knows it."""
    pages: int = 0
    """How many page servers the database has."""

    @property
    def of(self) -> str:
        """The word of the database and the run, as `at` has told it."""
        return f"{self.database}/{self.run}"


@dataclass(frozen=True)
class PageServerPlace:
    """A page server: it has pages from position `oldest` to `position`, or a later one by now."""

    address: str
    run: str
    position: int
    oldest: int


@dataclass(frozen=True)
class GenerationFate:
    """How far a generation is durable. If it `is_over`, nothing above `end` will ever be. If it `is_lost` PostgreSQL has lost its run, and
    went on without it: what it had above its durable blocks is nowhere, and of those nothing is known; `why` says so. If the run `continues`
    under a later number, as PostgreSQL went back, the generation is over, and what its log has above `end` is archived again.
    """

    end: int
    is_over: bool
    is_lost: bool = False
    why: str = ""
    continues: Place | None = None


class _Line:
    """A connection to a keeper, one question at a time."""

    def __init__(self, address: str, trust: Trust | None) -> None:
        place = Address.parse(address)
        self._socket = dial(place.host, place.port, _ANSWER, trust)
        self._socket.setsockopt(socket.IPPROTO_TCP, socket.TCP_NODELAY, 1)
        self._socket.setblocking(False)
        self._poll = select.poll()
        self._left = b""
        self.version = 0
        """The keeper's, once it has answered the greeting."""
        self._greeting = f"hello {VERSION}\n".encode()
        """What goes before the next question."""
        self._nonce = self._proved = ""
        """What the keeper has said to prove something with, and the database for which that was done."""

    def close(self) -> None:
        self._socket.close()

    def answer(self, timeout: float) -> list[str]:
        """The words of the answer, however slowly they come. What has come once the time is over is taken too: this process may have stood
        still meanwhile. Raises `OSError`."""
        deadline, is_over = time.monotonic() + timeout, False
        while not is_over:
            is_over = time.monotonic() >= deadline
            self._wait(select.POLLIN, deadline)
            if (answer := self.take()) is not None:
                return answer
        raise TimeoutError("no whole answer came")

    def send(self, words: Sequence[object], timeout: float) -> None:
        """Sends a question. Raises `OSError`."""
        self._say(" ".join(map(str, words)).encode() + b"\n", timeout)

    def prove(self, of: str, prover: Prover, timeout: float) -> None:
        """Proves, with the next question, whose token this client has: once for each database, as soon as the keeper has said its nonce.
        An older keeper says none. Raises `OSError`."""
        database = of.partition("/")[0]
        if self._proved == database:
            return
        deadline = time.monotonic() + timeout
        self._say(b"", timeout)
        while self.version == 0:
            self._wait(select.POLLIN, deadline)
            self.take()
        self._proved = database
        if self._nonce:
            self._greeting = " ".join(map(str, prover(self._nonce, of))).encode() + b"\n"

    def _say(self, question: bytes, timeout: float) -> None:
        question, self._greeting = self._greeting + question, b""
        deadline = time.monotonic() + timeout
        while question:
            try:
                question = question[self._socket.send(question) :]
            except BlockingIOError:
                self._wait(select.POLLOUT, deadline)

    def _wait(self, event: int, deadline: float) -> None:
        self._poll.register(self._socket, event)
        if not self._poll.poll(1000 * max(0.0, deadline - time.monotonic())):
            raise TimeoutError("the keeper does not answer")

    def take(self) -> list[str] | None:
        """Takes what comes next. Returns the words of the answer, or None where it is not whole yet. Raises `OSError`."""
        if b"\n" not in self._left:
            try:
                data = self._socket.recv(_LONGEST)
            except BlockingIOError:
                return None
            if not data or len(self._left) > _LONGEST:
                raise ConnectionError("the keeper ended the connection")
            self._left += data
        while True:
            line, end, rest = self._left.partition(b"\n")
            if not end:
                return None
            self._left, words = rest, line.decode(errors="replace").split()
            if self.version == 0:
                self.version = (
                    int(words[1])
                    if words[:1] == ["hello"] and words[1:2] and words[1].isdecimal()
                    else 1
                )
                nonce = parted(words)[1].get("nonce", "")
                self._nonce = nonce if _NONCE.fullmatch(nonce) else ""
            elif words not in _NO_ANSWER:
                return words

    def fileno(self) -> int:
        """Its socket."""
        return self._socket.fileno()


class Keepers:
    """The keepers of a named database. Any of them answers; those that do not are left out, as long as one does."""

    def __init__(
        self,
        name: str,
        addresses: Sequence[str],
        patience: float = 60.0,
        trust: Trust | None = None,
        prover: Prover | None = None,
    ) -> None:
        """`patience` is in seconds, for a place or an answer. With `trust` all lines are by TLS. Without a `prover` keepers may refuse what
        costs them something."""
        if not addresses or isinstance(addresses, str):
            raise ValueError("keepers are a list of HOST:PORT")
        for address in addresses:
            Address.parse(address)
        self.name = name
        self.patience = patience
        self._prover = prover
        self._trust = trust
        self._addresses = list(dict.fromkeys(addresses))
        self._lines: dict[str, _Line] = {}
        self._left_out: dict[str, float] = {}
        """Until when each is."""
        self.opens = False
        """Whether who asks opens the database: then keepers that refuse connections are not waited for, as the addresses may be wrong."""
        self._refused: set[str] = set()
        """Those that have refused a connection since the last question for the place began."""
        self._is_heard = False
        """Whether any has answered that."""
        self._insecure = ""
        """What was wrong with TLS of the last one that had any, since then."""
        self._own: Place | None = None
        """The last place of the database that was opened: of another one nothing is taken."""
        self._process = os.getpid()

    def close(self) -> None:
        """Closes all connections. A later question opens them again."""
        for line in self._lines.values():
            line.close()
        self._lines.clear()

    def is_of(self, place: Place) -> None:
        """Whoever uses these is a client of the database of this place from now on, in its run."""
        self._own = place

    def _ask(
        self, address: str, words: Sequence[object], timeout: float = _ANSWER, of: str = ""
    ) -> list[str]:
        """The answer of one keeper; of no words where it does not answer. Its connection is made again then.

        `of` says which database and run is meant. An older keeper is asked without, once that is known.
        """
        self._forget_parent()
        line = self._asked(address, words, timeout, of)
        if line is None:
            return []
        try:
            answer = line.answer(timeout)
            self._lines[address] = line
            if of and line.version == 1 and answer == ["what", words[0]]:
                return self._ask(address, words, timeout)
            return answer
        except OSError as error:
            self._note_refusal(address, error)
            if isinstance(error, TimeoutError) and words[0] in _AT_ONCE:
                self._leave_out(address)
            return []
        finally:
            if address not in self._lines:
                line.close()

    def where(self, seconds: float = _ANSWER) -> Place | None:
        """The place of the highest generation that a keeper knows of, as who knows most of its archive says; None where nobody serves
        it now. One that has not looked for a while knows less of both.

        Raises `UnknownName` where all that answer say so.
        """
        self._refused.clear()
        self._insecure = ""
        answers = [self._ask(address, ("where", self.name), seconds) for address in self._asks()]
        self._is_heard = any(answers)
        told = [place for place in map(_place, answers) if place is not None]
        if own := [place for place in told if place.database and self._is_own(place)]:
            return max(own, key=lambda place: (place.generation, place.archived))
        is_unknown = any(answers) and all(words[:1] == ["unknown"] for words in answers if words)
        is_told = (is_unknown or any(place.database for place in told)) and self._check_own()
        if is_unknown and (self._own is None or is_told):
            raise UnknownName(f"the keepers know of no database {self.name}")
        if len(told) == len(self._addresses) and not any(place.database for place in told):
            raise OlderKeepers(
                f"all keepers of {self.name} are of version 1: they are upgraded before their clients"
            )
        return None

    def _is_own(self, place: Place) -> bool:
        """Whether it is of the database that was opened."""
        return self._own is None or place.database == self._own.database

    def _check_own(self) -> bool:
        """Some keepers have another database of the name, or none. Raises `Dropped` where one says that this is so for good: a keeper that
        is cut off may only know less. Returns whether one has answered, which has to ask PostgreSQL before.
        """
        own, has_answered = self._own, False
        for address in self._asks() if own is not None else []:
            assert own is not None
            words = self._ask(address, ("durable", self.name, own.generation, 0), _SILENCE, own.of)
            self._fate(words, own, 0)
            has_answered |= bool(words)
        return has_answered

    def place(self, least: int = 0) -> Place:
        """The place, of generation `least` or a later one, once there is one. Raises `TimedOut`, and `NoKeeper` for who opens the database."""
        deadline, waits, gone = (
            time.monotonic() + self.patience,
            Backoff(QUICKEST, SLOWEST),
            float("inf"),
        )
        seconds = _ANSWER
        while True:
            found = self.where(seconds)
            seconds = _ANSWER if self._is_heard else min(2 * seconds, _SLOWEST_ANSWER)
            if found is not None and found.generation >= least:
                return found
            gone = (
                min(gone, time.monotonic())
                if self._refused.issuperset(self._addresses)
                else float("inf")
            )
            if self.opens and self._own is None and time.monotonic() - gone >= _GONE:
                raise NoKeeper(
                    f"no keeper answers: {self._insecure or 'all connections are refused'}"
                )
            if time.monotonic() > deadline:
                why = f": {self._insecure}" if self._insecure else ""
                raise TimedOut(f"no keeper has said in {self.patience} s where {self.name} is{why}")
            self.wait_for(least, waits.next())

    def wait_for(self, least: int, seconds: float, unopened: Place | None = None) -> None:
        """Returns once a keeper says that generation `least` or a later one has a place, and after a while in any case. A place that is
        `unopened` was told before its own keeper has let anybody in: once that one tells it, too.

        All are asked, and hold their answers back until then. Where none does it waits for so many seconds.
        """
        self._forget_parent()
        wanted = dict.fromkeys(self._asks(), least)
        if unopened is not None:
            wanted[unopened.lines] = unopened.generation
        waiting: dict[int, tuple[str, _Line]] = {}
        poll = select.poll()
        try:
            for address in wanted:
                if (
                    line := self._asked(address, ("next", self.name, wanted[address]), _ANSWER)
                ) is not None:
                    waiting[line.fileno()] = address, line
                    poll.register(line, select.POLLIN)
            deadline = time.monotonic() + _HELD
            while waiting and (left := deadline - time.monotonic()) > 0:
                for descriptor, _ in poll.poll(1000 * left):
                    address, line = waiting[descriptor]
                    words = _taken(line)
                    if words is None:
                        continue
                    poll.unregister(descriptor)
                    del waiting[descriptor]  # first: what is interrupted while it waits is closed
                    if words:
                        self._lines[address] = line
                    place = _place(words)
                    if (
                        place is not None
                        and place.generation >= wanted[address]
                        and self._is_own(place)
                    ):
                        return
        finally:
            for _, line in waiting.values():
                line.close()
        if not waiting:
            time.sleep(seconds)

    def _asked(
        self, address: str, words: Sequence[object], timeout: float, of: str = ""
    ) -> _Line | None:
        """The line of a keeper, over which this was asked; None where it does not listen. It is put back with its answer: where that is
        interrupted, it would be taken for the answer to the next question."""
        line = self._lines.pop(address, None)
        try:
            line = line or self._line(address)
            if of and self._prover is not None:
                line.prove(of, self._prover, timeout)
            line.send((*words, f"of={of}") if of and line.version != 1 else words, timeout)
            return line
        except (OSError, ValueError) as error:
            self._note_refusal(address, error)
            if line is not None:
                line.close()
            return None

    def _note_refusal(self, address: str, error: Exception) -> None:
        """Who refuses a connection, or is not whom TLS wants."""
        if isinstance(error, (ConnectionRefusedError, SecurityError)):
            self._refused.add(address)
        if isinstance(error, SecurityError):
            self._insecure = f"{address}: {error}"

    def _line(self, address: str) -> _Line:
        try:
            return _Line(address, self._trust)
        except TimeoutError:
            self._leave_out(address)
            raise

    def _leave_out(self, address: str) -> None:
        self._left_out[address] = time.monotonic() + _LEFT_OUT

    def _asks(self) -> list[str]:
        """Those to ask: of a machine that is gone each question would take a second."""
        now = time.monotonic()
        return [
            address for address in self._addresses if self._left_out.get(address, 0.0) <= now
        ] or self._addresses

    def _forget_parent(self) -> None:
        """A child that a fork made would read answers to its parent."""
        if self._process != os.getpid():
            self.close()
            self._process = os.getpid()

    def ring(self, place: Place) -> None:
        """Tells the holder, if there is a connection to it, that new blocks of this generation are on their way."""
        line = self._lines.get(place.lines)
        if line is None or self._process != os.getpid():
            return
        try:
            if line.version > 1 and self._prover is not None:
                line.prove(place.of, self._prover, _ANSWER)
            line.send(
                (
                    "ring",
                    self.name,
                    place.generation,
                    *([f"of={place.of}"] if line.version > 1 else []),
                ),
                _ANSWER,
            )
        except OSError:
            del self._lines[place.lines]
            line.close()

    def full(self, place: Place) -> None:
        """Tells the holder that its service has no memory for a writer: it begins the next generation, if it may."""
        self._ask(place.lines, ("where", self.name))  # so that its version is known
        if (
            line := self._asked(
                place.lines, ("full", self.name, place.generation), _ANSWER, place.of
            )
        ) is not None:
            self._lines[place.lines] = line

    def after(self, place: Place) -> Place:
        """The place of a later generation, if its keeper is about to publish one; else as `place`."""
        found = _place(self._ask(place.lines, ("where", self.name, place.generation + 1), _SILENCE))
        is_next = (
            found is not None
            and found.generation > place.generation
            and found.database == place.database
        )
        return found if found is not None and is_next else self.place(place.generation)

    def has_left(self, place: Place) -> bool:
        """Whether its own keeper says that nobody serves it: it has released it, and is ending the service, or has not let clients in."""
        return self._ask(place.lines, ("where", self.name))[:1] == ["nowhere"]

    def standby(self) -> Place | None:
        """A standby of it, which has durable blocks alone; None where no keeper knows of one."""
        for address in self._asks():
            words = self._ask(address, ("standby", self.name))
            found = _standby(words, address)
            if found is not None and found.database and self._is_own(found):
                return found
        return None

    def page_servers(self) -> list[PageServerPlace] | None:
        """The page servers of the database that was opened, as the first keeper says that knows of any; None where no keeper answers."""
        of, is_heard = "" if self._own is None else self._own.database, False
        for address in self._asks():
            fixed, keys = parted(self._ask(address, ("pages", self.name), of=of))
            is_heard |= fixed[:1] == ["pages"]
            if (
                fixed[:1] == ["pages"]
                and keys.get("of", of) == of
                and (found := _page_servers(fixed[2:]))
            ):
                return found
        return [] if is_heard else None

    def block(self, position: int) -> str | None:
        """The SHA-256 of the block that the archive has at a position, of the keeper that answers first; None where it has none."""
        deadline, waits = time.monotonic() + self.patience, Backoff(QUICKEST, SLOWEST)
        of = "" if self._own is None else self._own.database
        while True:
            for address in self._asks():
                match parted(self._ask(address, ("block", self.name, position), _SILENCE, of))[0]:
                    case ["block", _, _, digest]:
                        return None if digest == "-" else digest
            if time.monotonic() > deadline:
                raise TimedOut(
                    f"no keeper has said in {self.patience} s which block of {self.name} is at position {position}"
                )
            time.sleep(waits.next())

    def fate(self, place: Place, position: int, lines: str | None = None) -> GenerationFate:
        """How far this generation is durable, once it is so up to the position, or is over. Raises `TimedOut`, and `Dropped`.

        `lines` are those of who is asked first, by default of its holder. The answer is the same from every keeper.
        """
        deadline, waits = time.monotonic() + self.patience, Backoff(QUICKEST, SLOWEST)
        asked = [lines or place.lines]
        while True:
            for address in (*asked, *(address for address in self._asks() if address not in asked)):
                left = min(_SILENCE, max(0.1, deadline - time.monotonic()))
                answer = self._ask(
                    address, ("durable", self.name, place.generation, position), left, place.of
                )
                found = self._fate(answer, place, position) or self._fate_of_older(
                    address, answer, place, position
                )
                if found is not None:
                    return found
            if time.monotonic() > deadline:
                raise TimedOut(
                    f"no keeper has said in {self.patience} s what became of position {position} of {self.name}"
                )
            now = self.where()
            if now is not None and now.of == place.of and now.generation > place.generation:
                return GenerationFate(now.archived, True, continues=now)
            asked = [now.lines] if now is not None else []
            time.sleep(waits.next())

    def fate_at_once(self, place: Place, position: int, seconds: float) -> GenerationFate | None:
        """As `fate`, of its holder alone; None where that does not answer within so many seconds. Raises `Dropped`."""
        answer = self._ask(
            place.lines, ("durable", self.name, place.generation, position), seconds, place.of
        )
        return self._fate(answer, place, position)

    def archived_at_once(self, place: Place, known: int, seconds: float) -> int | None:
        """How far its holder has archived all that is in its log when this is asked: `known` or further; None where that does not answer
        within so many seconds. Raises `Dropped`."""
        answer = self._ask(
            place.lines, ("durable", self.name, place.generation, known + 1), seconds, place.of
        )
        fixed, keys = parted(answer)
        match fixed:
            case ["above", _, generation, end] if generation == str(place.generation) and keys.get(
                "of"
            ) == place.of and end.isdecimal():
                return max(known, int(end))
        fate = self._fate(answer, place, known + 1)
        return None if fate is None or fate.is_lost else fate.end

    def follow(self, standby: Place) -> None:
        """Tells the keeper of a standby that more is archived than that has."""
        if (
            line := self._asked(standby.lines, ("ring", self.name, 0), _ANSWER, standby.of)
        ) is not None:
            self._lines[standby.lines] = line

    def _fate(self, words: list[str], place: Place, position: int) -> GenerationFate | None:
        """What an answer says of this very run. Raises `Dropped`."""
        fixed, keys = parted(words)
        if keys.get("of") != place.of:
            return None
        match fixed:
            case ["lost", _, _, "dropped"]:
                raise Dropped(self.name, "the database was dropped")
            case ["lost", _, _, "another"]:
                raise Dropped(self.name, "the keepers have another database of this name")
            case ["lost", _, _, *_]:
                by = f"PostgreSQL went back, and has gone on with generation {keys.get('by', '?')} without this run"
                return GenerationFate(0, True, is_lost=True, why=by)
        return _fate(fixed, place.generation, position)

    def _fate_of_older(
        self, address: str, words: list[str], place: Place, position: int
    ) -> GenerationFate | None:
        """What a keeper of version 1 says of the number of a generation: it is of this run if that keeper has this run now. Of one that is
        over it may be of another run, or another database."""
        line = self._lines.get(address)
        found = (
            _fate(words, place.generation, position)
            if line is not None and line.version == 1
            else None
        )
        if found is None or found.is_over:
            return None
        now = _place(self._ask(address, ("where", self.name)))
        return (
            found
            if now is not None and (now.generation, now.run) == (place.generation, place.run)
            else None
        )


def _taken(line: _Line) -> list[str] | None:
    """The words that have come from it; none where its line has ended."""
    try:
        return line.take()
    except OSError:
        line.close()
        return []


def parted(words: list[str]) -> tuple[list[str], dict[str, str]]:
    """The words that have their place, and the keys behind them, of which one that is not known is passed over."""
    keys = dict(word.split("=", 1) for word in words if "=" in word)
    return [word for word in words if "=" not in word], keys


def _place(words: list[str]) -> Place | None:
    fixed, keys = parted(words)
    match fixed:
        case ["at", _, generation, run, address, archived, lines, base, shift, kept, *_]:
            return _read(generation, run, address, archived, lines, base, shift, kept, keys)
        case _:
            return None


def _standby(words: list[str], lines: str) -> Place | None:
    """As told over these lines: an older keeper does not name those of the standby's."""
    fixed, keys = parted(words)
    match fixed:
        case ["standby", _, address, run, reached, base, shift, *_]:
            return _read(
                "0", run, address, reached, keys.get("lines", lines), base, shift, "0", keys
            )
        case _:
            return None


def _page_servers(words: list[str]) -> list[PageServerPlace]:
    """Four words each; none where one is none of its kind."""
    try:
        found = [
            PageServerPlace(address, run, int(position), int(oldest))
            for address, run, position, oldest in zip(*[iter(words)] * 4)
        ]
        for each in found:
            Address.parse(each.address)
        return found
    except ValueError:
        return []


def _read(
    generation: str,
    run: str,
    address: str,
    archived: str,
    lines: str,
    base: str,
    shift: str,
    kept: str,
    keys: Mapping[str, str],
) -> Place | None:
    """The place of these words; None where one of them is none of its kind."""
    try:
        Address.parse(address)
        database = keys.get("of", "").partition("/")[0]
        return Place(
            generation=int(generation),
            run=run,
            address=address,
            archived=int(archived),
            lines=lines,
            base=int(base),
            shift=int(shift),
            kept=int(kept),
            database=database,
            after=keys.get("after", ""),
            pages=int(keys.get("pages", "0")),
        )
    except ValueError:
        return None


def _fate(words: list[str], generation: int, position: int) -> GenerationFate | None:
    if len(words) != 4 or words[2] != str(generation) or not words[3].isdecimal():
        return None
    end = int(words[3])
    if words[0] == "over":
        return GenerationFate(end, True)
    return GenerationFate(end, False) if words[0] == "durable" and end >= position else None
