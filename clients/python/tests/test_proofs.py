"""Lines are bound to a principal: who has proved none gets nothing that costs or tells, and who has proved one gets so much."""

from __future__ import annotations

import asyncio
import os
import re
import socket
import unittest
from unittest.mock import Mock, patch

from keepers import Kept, eventually
from pagelog.following import NamedAccount
from pagelog.keeper.fates import Questions, tell_block, tell_fate
from pagelog.keeper.lines import Line
from pagelog.referee.referee import Referee
from pagelog.keeper.session import Session
from pagelog.run_tokens import proof_of
from pagelog.keeper.turns import Turns
from pagelog.place import Keepers
from service import PATIENCE, WIDE_TABLE, token


class Asker:
    """A connection to the lines of a keeper, which says whatever it likes."""

    def __init__(self, port: int) -> None:
        self.socket = socket.create_connection(("127.0.0.1", port), PATIENCE)
        self.file = self.socket.makefile("rw")
        self.nonce = self.ask("hello 2").split("nonce=")[1]

    def say(self, text: str) -> None:
        print(text, file=self.file, flush=True)

    def ask(self, text: str) -> str:
        self.say(text)
        return self.file.readline().strip()

    def prove(self, of: str, id: int = 2, by: str = "", name: str = "shop", nonce: str = "") -> str:
        code = proof_of(bytes.fromhex(by or token(id)), nonce or self.nonce, name, id, of)
        self.say(f"prove {name} {id} {code} of={of}")
        return code

    def close(self) -> None:
        self.file.close()
        self.socket.close()


class Proofs(Kept):
    options = {"more": 'unproved = false\nmetrics = "127.0.0.1:0"\n', "standby": False}
    """So that keeper b has neither the service nor its table."""

    def setUp(self) -> None:
        super().setUp()
        with self.keeping.primary() as primary:
            self.commit(primary, "1", durable=True)
        self.place = self.keeping.place()
        [self.holder] = [
            name
            for name, port in self.keeping.ports.items()
            if self.place.lines == f"127.0.0.1:{port}"
        ]
        [self.other] = set("ab") - {self.holder}

    def asker(self, name: str) -> Asker:
        made = Asker(self.keeping.ports[name])
        self.addCleanup(made.close)
        return made

    def refused(self, asker: Asker, why: str) -> None:
        """What costs or tells is refused; `where`, and `durable` of what is held, are not."""
        of, database = f"of={self.place.of}", f"of={self.place.database}"
        for ask in (
            f"turn shop {of}",
            f"block shop 1 {database}",
            f"durable shop 7 0 {database}/another",
        ):
            self.assertEqual(asker.ask(ask), f"denied shop {why} {ask.split()[-1]}", ask)
        for tell in (
            f"full shop {self.place.generation} {of}",
            f"ring shop {self.place.generation} {of}",
            f"hold shop {of}",
        ):
            asker.say(tell)
        self.assertTrue(asker.ask("where shop").startswith("at shop "))
        self.assertEqual(
            asker.ask(f"durable shop {self.place.generation} 1 {of}"),
            f"durable shop {self.place.generation} 1 {of}",
        )

    def test_who_proves_no_principal_gets_nothing_that_costs_or_tells(self) -> None:
        self.assertTrue(
            self.keeping.referee.create("ship", WIDE_TABLE.replace(token(2), "ab" * 16), b"s" * 16)
        )
        self.keeping.ring()
        eventually(lambda: self.keeping.row("ship").address is not None, "the other database")
        ship, of = self.keeping.place("ship"), self.place.of
        self.refused(self.asker(self.holder), "unproved")
        right = self.asker(self.holder)
        overheard = right.prove(of)
        for what, prove in {
            "a proof that was overheard": lambda asker: asker.say(
                f"prove shop 2 {overheard} of={of}"
            ),
            "another's token": lambda asker: asker.prove(of, by=token(3)),
            "a principal that the table has not": lambda asker: asker.prove(of, 77, by=token(2)),
            "no digits": lambda asker: asker.say(f"prove shop 2 ٣é of={of}"),
        }.items():
            with self.subTest(what):
                wrong = self.asker(self.holder)
                self.assertNotEqual(wrong.nonce, right.nonce)
                prove(wrong)
                self.refused(wrong, "principal")
        for what, prove in {
            "a principal of another database": lambda asker: asker.prove(
                ship.of, by="ab" * 16, name="ship"
            ),
            "an identity of another database": lambda asker: asker.prove(ship.of),
        }.items():
            with self.subTest(what):
                wrong = self.asker(self.holder)
                prove(wrong)
                self.refused(wrong, "unproved")
        self.assertNotIn("had no memory for a writer", self.keeping.said())
        self.assertEqual(right.ask(f"turn shop now of={of}"), "turn shop other")
        self.assertRegex(
            right.ask(f"block shop 1 of={self.place.database}"), "block shop 1 [0-9a-f]{64} "
        )
        right.say(f"full shop {self.place.generation} of={of}")
        self.assertEqual(
            self.keeping.place(least=self.place.generation + 1).generation,
            self.place.generation + 1,
        )

    def test_a_token_that_is_no_more_proves_nothing_and_two_beside_each_other_do(self) -> None:
        askers = [self.asker(name) for name in (self.holder, self.other)]
        for asker in askers:
            asker.prove(self.place.of)
            self.assertTrue(
                asker.ask("block shop 1").startswith("block")
            )  # the other keeper reads the table
        wrong = self.asker(self.other)
        wrong.prove(self.place.of, by=token(3))
        self.assertEqual(
            wrong.ask(f"block shop 1 of={self.place.database}"),
            f"denied shop principal of={self.place.database}",
        )
        out = self.keeping.folder / "new.toml"
        self.keeping.word("token", "shop", 2, "--new", "--beside", "--out", out)
        [id], [new] = re.findall(r"id = (\d+)", out.read_text()), re.findall(
            r'token = "(\w+)"', out.read_text()
        )
        second = [self.asker(name) for name in (self.holder, self.other)]
        for asker in second:
            asker.prove(self.place.of, int(id), by=new)
        self.assertTrue(
            second[0].ask("block shop 1").startswith("block")
        )  # its run has that table, whatever its looks have shown
        eventually(
            lambda: all(
                asker.ask("block shop 1").startswith("block") for asker in (*askers, *second)
            ),
            "the looks of both",
        )
        self.keeping.word("token", "shop", 2, "--revoke")
        self.assertEqual(askers[0].ask("block shop 1"), "denied shop principal")
        eventually(
            lambda: askers[1].ask("block shop 1") == "denied shop principal",
            "the looks of the other",
        )
        self.assertTrue(all(asker.ask("block shop 1").startswith("block") for asker in second))

    def test_clients_prove_and_are_never_counted(self) -> None:
        with self.keeping.primary() as primary, self.keeping.reader() as reader:
            self.commit(primary, "2", durable=True)
            self.keeping.word("rollover", "shop")
            self.keeping.place(least=self.place.generation + 1)
            self.commit(primary, "3", durable=True)
            reader.page(0)
            now, asks = self.keeping.place(), Keepers(
                "shop",
                self.keeping.addresses,
                PATIENCE,
                prover=NamedAccount("shop", 2, token(2)).prove,
            )
            self.addCleanup(asks.close)
            asks.is_of(now)
            self.assertRegex(str(asks.block(1)), "[0-9a-f]{64}")
            self.assertTrue(asks.fate(self.place, 1).is_over)
            asks.full(now)
            self.keeping.place(least=self.place.generation + 2)
        for name in (self.holder, self.other):
            self.assertEqual(self.keeping.metrics(name)["pagelog_keeper_unproved_total", "shop"], 0)
        self.asker(self.holder).ask("turn shop")
        self.assertEqual(
            self.keeping.metrics(self.holder)["pagelog_keeper_unproved_total", "shop"], 1
        )


class Unproved(Kept):
    keepers = "a"
    options = {"more": 'metrics = "127.0.0.1:0"\n'}

    def test_clients_of_before_are_answered_and_counted(self) -> None:
        with self.keeping.primary() as primary:
            self.commit(primary, "1", durable=True)
        with self.keeping.line() as line:
            for ask, told in (
                ("turn shop", "turn"),
                ("block shop 1", "block"),
                (f"durable shop {self.keeping.place().generation} 1", "durable"),
            ):
                print(ask, file=line, flush=True)
                self.assertEqual(line.readline().split()[0], told)
        self.assertEqual(self.keeping.metrics()["pagelog_keeper_unproved_total", "shop"], 3)


class Lent(unittest.TestCase):
    def test_the_line_of_who_may_not_ring_is_read_by_its_keeper_alone(self) -> None:
        one, other = socket.socketpair()
        self.enterContext(one), self.enterContext(other)
        line = Line(Mock(), Mock())
        line.connection_made(
            Mock(
                asyncio.Transport,
                is_closing=lambda: False,
                get_write_buffer_size=lambda: 0,
                get_extra_info=lambda _: one,
            )
        )
        self.assertIsNone(line.lend())
        line.may_ring = True
        descriptor = line.lend()
        assert descriptor is not None
        os.close(descriptor)


class Bounds(unittest.IsolatedAsyncioTestCase):
    async def test_one_principal_has_so_many_questions_under_way_over_all_its_connections(
        self,
    ) -> None:
        session = Session(Mock(Referee, notified=False, me="a"), PATIENCE)
        session.referee.fate.side_effect = lambda *_: 5  # type: ignore[attr-defined]
        session.referee._ask.side_effect = lambda *_: []  # type: ignore[attr-defined]
        for tell in (tell_block, tell_fate):
            with patch("pagelog.keeper.fates.EACH_ASKER", 6):
                questions = Questions(session)
            lines = [Mock() for _ in range(20)]
            tasks = [
                asyncio.create_task(
                    tell(questions, line, "shop", 1, None, None if of_stranger else ("d", 2))
                )
                for of_stranger in (True, False)
                for line in lines[of_stranger * 10 :][:10]
            ]
            await asyncio.gather(*tasks)
            told = [line.say.call_args.args[0] for line in lines]
            self.assertEqual([told[:10].count("elsewhere"), told[10:].count("elsewhere")], [4, 4])
            other = Mock()
            await tell(questions, other, "shop", 1, None, ("d", 3))
            self.assertNotEqual(other.say.call_args.args[0], "elsewhere")

    async def test_one_principal_has_so_many_waits_for_a_turn(self) -> None:
        turns = Turns("shop", 1)
        lines = [Mock(Line, asker=("d", id)) for id in (2, 2, 2, 2, 3)]
        with patch("pagelog.keeper.turns.MOST_WAITING", 2):
            for line in (*lines, lines[1]):
                turns.ask(line, now=False)
        self.assertEqual(
            [[call.args[0] for call in line.say.mock_calls] for line in lines],
            [["turn"], [], [], ["elsewhere"], []],
        )
        self.assertEqual([line in turns for line in lines], [True, True, True, False, True])


if __name__ == "__main__":
    unittest.main()
