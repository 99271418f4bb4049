"""An edit that takes out a precaution, and what has to see it."""

from __future__ import annotations

from pathlib import Path
from typing import NamedTuple

PYTHON = Path(__file__).resolve().parent.parent


class Plant(NamedTuple):
    """An edit of a module of the keepers, and the part and the test that have to see it; or of a source of clients/c, as `c/X.c`, with a
    part of its tests, as `c/turns`."""

    module: str
    old: str
    new: str
    part: str
    test: str

    @property
    def file(self) -> Path:
        """From the folder of the package."""
        if self.module.startswith("c/"):
            return Path("..", self.module)
        return Path(
            "src",
            "pagelog",
            "keeper",
            self.module if self.module.endswith((".c", ".h")) else f"{self.module}.py",
        )

    @property
    def is_of_pages(self) -> bool:
        """Whether it is an edit of clients/pages."""
        return "/pages/" in self.module and self.module.endswith((".c", ".h"))

    def misfit(self, folder: Path = PYTHON) -> str | None:
        """Why it is none; None where its text is there once, and its part has a test of its name."""
        found = (folder / self.file).read_text().count(self.old)
        if found != 1:
            return f"its text is in {self.file} {found} times: {self.old!r}"
        is_c = self.part.startswith("c/")
        tests = (
            folder.parent / "c" / "tests" / f"{self.part[2:]}.py"
            if is_c
            else folder / "tests" / f"test_{self.part}.py"
        )
        if not tests.exists() or not any(
            self.test in line for line in tests.read_text().splitlines() if "def test_" in line
        ):
            return f"there is no test {self.test} in {self.part}"
        return None
