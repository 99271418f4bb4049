"""What others may send: each target of clients/c/fuzz is built, and finds nothing in its seeds."""

from __future__ import annotations

import subprocess
import unittest

from service import PATIENCE, TOP, plain_environment

C, PYTHON = TOP / "clients" / "c", TOP / "clients" / "python"
BUILT = PYTHON / "out" / "seeds_"
"""How files that are built begin: not in clients/c, which a plant has from elsewhere."""


class Seeds(unittest.TestCase):
    def look(self, target: str, seeds: str | None = None) -> None:
        BUILT.parent.mkdir(exist_ok=True)
        built = subprocess.run(
            [
                "make",
                "-s",
                "seeds",
                f"TARGETS={target}",
                f"SEEDS={BUILT}",
                f"KEEPER={PYTHON}/src/pagelog/keeper",
                f"PAGES={TOP}/clients/pages",
            ],
            cwd=C,
            stdout=subprocess.PIPE,
            stderr=subprocess.STDOUT,
        )
        self.assertEqual(built.returncode, 0, built.stdout.decode())
        files = sorted((C / "tests" / "seeds" / (seeds or target)).iterdir())
        done = subprocess.run(
            [f"{BUILT}{target}", *files],
            env=plain_environment(ASAN_OPTIONS="detect_leaks=1"),
            stdout=subprocess.PIPE,
            stderr=subprocess.STDOUT,
            timeout=PATIENCE,
        )
        said = done.stdout.decode(errors="replace")
        self.assertEqual(done.returncode, 0, said)
        self.assertEqual(said.count("tests/seeds/"), len(files))

    def test_a_connection_by_tls(self) -> None:
        self.look("secure")
        self.look("records", "secure")

    def test_what_a_keeper_says(self) -> None:
        self.look("lines")

    def test_what_a_page_server_answers(self) -> None:
        self.look("copies")

    def test_settings(self) -> None:
        self.look("settings")

    def test_what_a_client_asks_of_the_fast_path(self) -> None:
        self.look("asked")

    def test_what_writers_say(self) -> None:
        self.look("turns")

    def test_what_a_service_replies_to_it(self) -> None:
        self.look("pulled")

    def test_what_a_client_asks_of_a_page_server(self) -> None:
        self.look("frames")


if __name__ == "__main__":
    unittest.main()
