"""Who waits for a position of a database to be durable."""

from __future__ import annotations

from pagelog.keeper.confirmations import Confirmations
from pagelog.keeper.lines import Line, of_word
from pagelog.referee.fate import Of


_MOST = 4096
"""For how many positions of a database a connection may wait: each batch looks through all of them."""


class Waits:
    """The waits for the generation that this keeper has, by the connection that they came over."""

    def __init__(self, name: str) -> None:
        self._name = name
        self._waits: dict[Line, list[int]] = {}
        self.confirmations = Confirmations(name)
        self.of: Of | None = None
        """Of which database and run they all are."""

    def __len__(self) -> int:
        return len(self._waits)

    def __contains__(self, line: Line) -> bool:
        return line in self._waits or line in self.confirmations

    def add(self, line: Line, position: int) -> bool:
        """Somebody waits. False where it waits for very many already."""
        waits = self._waits.setdefault(line, [])
        if len(waits) >= _MOST:
            return False
        waits.append(position)
        return True

    def gone(self, line: Line) -> None:
        """Nobody waits over this connection any more."""
        self._waits.pop(line, None)

    def now(self) -> dict[Line, list[int]]:
        """Those who wait now."""
        return {line: list(positions) for line, positions in self._waits.items()}

    def taken(self) -> dict[Line, list[int]]:
        """Those who waited until now. Who waits for more is told that it comes from elsewhere."""
        self.confirmations.end()
        taken, self._waits = self._waits, {}
        return taken

    def tell(self, generation: int, reached: int) -> None:
        """All up to `reached` is durable: one line over each connection that has waited for any of it."""
        for line, positions in self.now().items():
            left = [position for position in positions if position > reached]
            if len(left) < len(positions):
                line.say("durable", self._name, generation, reached, *of_word(self.of))
            self._leave(line, left)

    def tell_above(self, waited: dict[Line, list[int]], generation: int, reached: int) -> None:
        """Those who waited before a pull began, which found nothing above `reached`, wait for what is not there."""
        for line, positions in waited.items():
            left = self._waits.get(line, [])
            for position in positions:
                if position in left:
                    left.remove(position)
                    line.say("above", self._name, generation, reached, *of_word(self.of))
            self._leave(line, left)

    def _leave(self, line: Line, left: list[int]) -> None:
        if left:
            self._waits[line] = left
        else:
            self._waits.pop(line, None)
