"""A named writer in many orders of deaths, successions, lost replies and other writers, all in memory: what it was told holds in the end.

The world has of a service and its keepers what docs/ promise of them, in a few lines; a seed draws what happens at each question.
"""

from __future__ import annotations

import hashlib
import random
import unittest
from contextlib import ExitStack, contextmanager
from types import SimpleNamespace
from typing import Any, Iterator, Sequence
from unittest.mock import patch

from pagelog import ConnectionLost, InDoubt, Lost, NamedPrimary, OlderEpoch, Section
from pagelog.block import Block
from pagelog.run_tokens import KEEPER
from pagelog.place import GenerationFate, Place
from pagelog.reader import Span
from pagelog.reply import State
from pagelog.rules import Denial, TableRow
from service import IS_LONG, put, token

DATABASE = "11111111-2222-4333-8444-555555555555"
SEEDS = 200_000 if IS_LONG else 6_000
WRITER, EVENTS = 2, 14
IMAGES = put(9, b"images")


class Service:
    """A generation: its log, what was written and is not hardened, and whether that is in a quorum of copies."""

    def __init__(self, run: str, log: Sequence[Block], images: int) -> None:
        self.run, self.log, self.images = run, list(log), images
        self.epoch, self.primary, self.is_dead, self.is_closed = 1, KEEPER, False, False
        self.written: list[tuple[Block, bool]] = []

    def fail_over(self, to: int) -> None:
        """It hardens what is in a quorum of copies, and nothing behind the first that is not."""
        for block, is_in_quorum in self.written:
            if not is_in_quorum:
                break
            self.log.append(block)
        self.written = []
        self.epoch, self.primary = self.epoch + 1, to

    def harden(self) -> None:
        self.log += [block for block, _ in self.written]
        self.written = []


class World:
    """Generations of one database, what is archived of them, and what happens."""

    def __init__(self, seed: int) -> None:
        self.chance = random.Random(seed)
        self.left, self.others, self.often = EVENTS, 0, self.chance.choice([0.03, 0.12, 0.4])
        self.archived: list[Block] = []
        self.had = 0
        """How much was archived before PostgreSQL went back: nothing dies until that is archived again."""
        self.services: list[Service] = []
        self.ends: dict[str, int] = {}
        self.begin()

    @property
    def now(self) -> Service:
        return self.services[-1]

    def begin(self) -> None:
        images = len(self.archived) if self.chance.random() < 0.6 else 0
        self.services.append(Service(f"run{len(self.services) + 1}", self.archived, images))

    def place(self) -> Place:
        generation, service = len(self.services), self.now
        before = self.services[-2].run if generation > 1 else ""
        kept = self.ends.get(before, 0)
        return Place(
            generation,
            service.run,
            service.run,
            len(self.archived),
            "",
            service.images,
            0,
            kept,
            DATABASE,
            before if self.chance.random() < 0.5 else "",
        )

    def at(self, place: Place) -> Service:
        return self.services[place.generation - 1]

    def below(self, writer: NamedPrimary, position: int) -> list[bytes]:
        """What the log of its generation has before a position."""
        assert writer.place is not None
        return [block.data for block in self.at(writer.place).log[: position - 1]]

    def happen(self, service: Service) -> None:
        """Perhaps something. Raises `ConnectionLost` where the service has died."""
        if self.left and self.chance.random() < self.often:
            self.left -= 1
            self.chance.choice(
                [
                    self.die,
                    self.succeed,
                    self.close,
                    self.come,
                    self.come,
                    self.archive,
                    self.go_back,
                ]
            )()
        if service.is_dead:
            raise ConnectionLost

    def over(self) -> None:
        self.now.is_dead = True
        self.ends[self.now.run] = len(self.archived)
        self.begin()

    def die(self) -> None:
        if len(self.archived) >= self.had:
            self.over()

    def close(self) -> None:
        """Its keeper: until it opens it again, or makes the next generation, nobody else begins an epoch."""
        self.now.fail_over(KEEPER)
        self.now.is_closed = True

    def succeed(self) -> None:
        """Its keeper closes it, and archives the rest."""
        self.close()
        self.archive(all=True)
        self.over()

    def open(self) -> None:
        self.now.is_closed = False

    def wait(self, *_: object) -> None:
        """Somebody does, for the next place."""
        if self.now.is_closed:
            self.chance.choice([self.open, self.succeed])()

    def go_back(self) -> None:
        """PostgreSQL, to before this generation: its run continues under a later number, and is archived again."""
        self.had = max(self.had, len(self.archived))
        self.archived = self.archived[: self.chance.randint(0, len(self.archived))]
        self.services.append(self.now)

    def come(self) -> None:
        """Another writer, where its keeper lets anybody in."""
        if self.now.is_closed:
            return
        self.now.fail_over(WRITER)
        self.others += 1
        self.now.log.append(
            Block.of(len(self.now.log) + 1, [put(5, f"other {self.others}".encode())])
        )

    def archive(self, *, all: bool = False) -> None:
        log = self.now.log
        self.archived = log[
            : len(log) if all else self.chance.randint(len(self.archived), len(log))
        ]

    # The keepers' lines.

    def fate(self, place: Place, position: int, *_: object) -> GenerationFate:
        try:
            self.happen(self.at(place))
        except ConnectionLost:
            pass
        if place.run == self.now.run and place.generation < len(self.services):
            return GenerationFate(len(self.archived), True, continues=self.place())
        if place.run == self.now.run:
            self.archive(all=True)
            if len(self.archived) >= position:
                return GenerationFate(len(self.archived), False)
            self.over()  # nobody will write it here
        return GenerationFate(self.ends[place.run], True)

    def block(self, position: int) -> str | None:
        if self.chance.random() < 0.03 or position > len(self.archived):
            return None  # it was pruned
        return hashlib.sha256(self.archived[position - 1].data).hexdigest()

    def keepers(self) -> Any:
        place = lambda *_: self.place()  # noqa: E731
        nothing = lambda *_: None  # noqa: E731
        return SimpleNamespace(
            name="shop",
            patience=60.0,
            place=place,
            after=place,
            fate=self.fate,
            block=self.block,
            wait_for=self.wait,
            ring=nothing,
            full=nothing,
            is_of=nothing,
            close=nothing,
            has_left=lambda place: self.at(place).is_dead,
        )


class Client:
    """Of a service, over a connection."""

    def __init__(self, connection: Any, *_: object, **options: Any) -> None:
        self.world, self.service = connection.world, connection.service
        self.connection, self.options = connection, options

    def __enter__(self) -> Any:
        return self

    def __exit__(self, *_: object) -> None:
        pass

    def close(self) -> None:
        pass

    def see_table(self) -> None:
        """A writer, or an operator."""
        if self.service.is_closed:
            raise TableRow(Section.B, 4, 0)

    def status(self) -> State:
        self.world.happen(self.service)
        return State(self.service.epoch, self.service.primary, len(self.service.log), 0, 0)


class Reader(Client):
    def span(self, lsn: int, *, pulls: int) -> Span:
        self.world.happen(self.service)
        last = min(len(self.service.log), lsn + 16 * pulls - 1)
        blocks = [
            Block.of(at, [IMAGES]) if at <= self.service.images else self.service.log[at - 1]
            for at in range(lsn, last + 1)
        ]
        return Span(lsn, last, tuple(blocks))


class Operator(Client):
    def status(self) -> State:
        state = super().status()
        self.see_table()
        return state

    def failover(self, to: int, *, epoch: int | None = None) -> int:
        self.world.happen(self.service)
        if epoch is not None and epoch != self.service.epoch:
            raise OlderEpoch(Section.A, 2, self.service.epoch)
        self.see_table()
        self.service.fail_over(to)
        if self.world.chance.random() < 0.05:
            raise InDoubt("the reply was lost")
        return int(self.service.epoch)


class Primary(Client):
    @property
    def witness(self) -> Any:
        return self.options["witness"]

    def begin(self) -> State:
        state = self.status()
        self._see_epoch()
        self.durable = state.hard
        return state

    def _see_epoch(self) -> None:
        if self.service.epoch != self.options["epoch"]:
            raise OlderEpoch(Section.A, 2, self.service.epoch)

    def commit(self) -> int:
        return self.durable

    def harden(self, blocks: Sequence[Block]) -> Iterator[int]:
        blocks = list(blocks)
        try:
            for block in blocks:
                self.world.happen(self.service)
                self._see_epoch()
                self.service.written.append((block, self.world.chance.random() < 0.7))
            self.world.happen(self.service)
            self._see_epoch()
        except OlderEpoch:
            while (
                blocks[self.durable + 1 - blocks[0].lsn :]
                and blocks[self.durable + 1 - blocks[0].lsn] in self.service.log
            ):
                self.durable += 1
            if self.durable < blocks[-1].lsn:
                raise
        else:
            self.service.harden()
            self.world.happen(self.service)
            if self.world.chance.random() < 0.1:
                raise ConnectionLost  # before the reply
        self.durable = max(self.durable, blocks[-1].lsn)
        yield blocks[-1].lsn


class Told:
    """What the writer was told of its commits, by their texts: each has a text of its own."""

    def __init__(self) -> None:
        self.positions: dict[int, bytes] = {}
        """Of commits that have returned, and are neither known to be durable nor lost."""
        self.durable: dict[int, bytes] = {}
        self.never: set[bytes] = set()
        self.upon: dict[bytes, list[bytes]] = {}
        """By its text, the blocks upon which a commit was made."""

    def lost(self, position: int) -> None:
        for each in [each for each in self.positions if each >= position]:
            self.never.add(self.positions.pop(each))

    def settled(self) -> None:
        self.durable.update(self.positions)
        self.positions.clear()


@contextmanager
def writer_of(world: World) -> Iterator[NamedPrimary]:
    """A writer of this world."""
    with ExitStack() as stack:
        for kind in (Reader, Operator, Primary):
            stack.enter_context(patch(f"pagelog.named.{kind.__name__}", kind))
        writer = NamedPrimary("shop", ["127.0.0.1:1"], WRITER, token(2), (1, token(1)))
        writer.keepers = world.keepers()
        stack.enter_context(
            patch.object(
                writer,
                "_connection",
                lambda place, *_: SimpleNamespace(
                    world=world, service=world.at(place), when_sent=None
                ),
            )
        )
        yield writer


class Orders(unittest.TestCase):
    def play(self, seed: int) -> tuple[World, Told]:
        world, told = World(seed), Told()
        with writer_of(world) as writer:
            self.write(world, writer, told)
        world.archive(all=True)
        return world, told

    def test_no_commit_is_begun_in_a_generation_that_is_known_to_be_over(self) -> None:
        world = World(0)
        world.left = 0  # nothing else happens
        with writer_of(world) as writer:

            def over(place: Place, position: int, *_: object) -> GenerationFate:
                """Meanwhile its keeper hands over, and another writer goes on in the next generation."""
                writer.keepers.fate = world.fate  # type: ignore[method-assign]
                world.succeed()
                world.come()
                return world.fate(place, position)

            writer.append(put(0, b"first"))
            self.assertEqual(writer.commit(), 1)
            world.come()  # behind it
            writer._leave()
            writer.keepers.fate = over  # type: ignore[method-assign]
            writer.append(put(0, b"second"))
            self.assertEqual(writer.commit(), 4)

    def write(self, world: World, writer: NamedPrimary, told: Told) -> None:
        for number in range(world.chance.randint(2, 8)):
            text = f"mine {number}".encode()
            try:
                writer.append(put(0, text))
                position = writer.commit()
                told.positions[position] = text
                told.upon[text] = world.below(writer, position)
            except Lost as lost:
                told.never.add(text)
                told.lost(lost.position)
            except InDoubt:
                break
            except Denial as denial:
                self.assertIsInstance(denial, OlderEpoch)
                self.assertGreater(world.others, 0, "only another writer ends one")
                told.never.add(text)
                break
            if world.chance.random() < 0.4:
                self.settle(writer, told)
        self.settle(writer, told)

    def settle(self, writer: NamedPrimary, told: Told) -> None:
        while told.positions:
            try:
                writer.durable(max(told.positions))
                told.settled()
            except Lost as lost:
                self.assertLessEqual(lost.position, max(told.positions))
                told.lost(lost.position)
            except InDoubt:
                told.positions.clear()

    def test_what_it_was_told_holds(self) -> None:
        counts = [0, 0]
        for seed in range(SEEDS):
            world, told = self.play(seed)
            texts = {block.lsn: b"".join(record.data for record in block.records) for block in world.archived}  # type: ignore[union-attr]
            mine = [text for text in texts.values() if text.startswith(b"mine")]
            self.assertEqual(len(mine), len(set(mine)), f"seed {seed}: a commit is there twice")
            self.assertEqual(
                {position: texts.get(position) for position in told.durable},
                told.durable,
                f"seed {seed}: not durable",
            )
            for position, text in told.durable.items():
                below = [block.data for block in world.archived[: position - 1]]
                self.assertEqual(below, told.upon[text], f"seed {seed}: upon other blocks")
            self.assertEqual(
                told.never.intersection(mine),
                set(),
                f"seed {seed}: called lost or denied, and there",
            )
            counts[0] += len(told.durable)
            counts[1] += len(told.never)
        self.assertGreater(min(counts), SEEDS / 10)
