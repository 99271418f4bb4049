"""A connection of a client that comes through the front of its keeper."""

from __future__ import annotations

from pagelog.keeper.lines import Answers, Line, OpenLines
from pagelog.keeper.proxied import taken
from pagelog.place import parted
from pagelog.referee.fate import Of

_BY_RUN = ("durable", "block")
"""What is asked of a database by its identity, also where another has its name by now."""


class FrontedLine(Line):
    """The front says first who the client is. Where clients need certificates, each is answered of the database of its own alone."""

    is_secure = True

    def __init__(self, answers: Answers, open: OpenLines) -> None:
        super().__init__(answers, open)
        self._has_head = False

    def data_received(self, data: bytes) -> None:
        if self._has_head:
            return super().data_received(data)
        self._left += data
        try:
            head = taken(self._left)
        except ValueError:
            return self.close()  # whoever it is, it is not the front
        if head is not None:
            self._has_head, self.client, self._left = True, head[0].client, b""
            super().data_received(head[1])

    def eof_received(self) -> None:
        """A line without its end may be one that was cut."""

    def _answer(self, line: bytes) -> None:
        try:
            asked, keys = parted(line.decode().split())
            of = Of.read(keys["of"]) if "of" in keys else None
        except ValueError:
            return self.close()
        if (
            len(asked) > 1
            and asked[0] != "hello"
            and not may_ask(self._answers, self.client, asked, of)
        ):
            return self.say("denied", asked[1])
        super()._answer(line)


def may_ask(answers: Answers, client: str | None, asked: list[str], of: Of | None) -> bool:
    """Whether who has a certificate of this name may ask so. The name is the identity of a database: a name of one comes again."""
    if not answers.wants_certificates:
        return True
    if client is None or (of is not None and of.database != client):
        return False
    return answers.identity_of(asked[1]) == client or (of is not None and asked[0] in _BY_RUN)
