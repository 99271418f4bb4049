"""`top` of named databases: what it shows of real keepers, alone and beside a standalone service."""

from __future__ import annotations

import json
import re
import signal
import subprocess
from typing import Any, Callable

from click.testing import CliRunner

from keepers import Gate, Kept, eventually
from pagelog.cli.keeper_words import facts_of
from pagelog.cli.top_named import SILENT, NamedWatch
from pagelog.cli.words import pagelogctl
from service import PATIENCE, Service
from test_archive import words


LIMIT = 8_000_000_000


class NamedTop(Kept):
    options = {"ttl": 5.0, "more": f"memory = {LIMIT}\n"}

    def setUp(self) -> None:
        super().setUp()
        self.primary = self.enterContext(self.keeping.primary())
        for number in range(1, 4):
            self.commit(self.primary, str(number), durable=True)
        self.holder = str(self.keeping.row().holder)
        self.other = "b" if self.holder == "a" else "a"

    def told(self) -> tuple[object, object, bool]:
        """What the holder tells, and whether it has looked at the audit list."""
        look = self.keeping.referee.everything()
        facts = facts_of(look, self.keeping.row())
        return facts["state"], facts["standbys"], facts["entries_left"] not in (None, 1_000_000)

    def page(
        self, *options: object, file: object = None, columns: int = 150, status: int = 0
    ) -> str:
        """What `top` prints of one look, or of as many as the options say."""
        known = [
            "--interval",
            0.1,
            "--count",
            1,
            "--credentials",
            file or self.keeping.file,
            *options,
        ]
        done = CliRunner().invoke(
            pagelogctl, ["top", *map(str, known)], env={"COLUMNS": str(columns)}
        )
        self.assertEqual(done.exit_code, status, done.output)
        return str(done.output)

    def test_json_of_each_look(self) -> None:
        process = words(
            "top", "--named", "--json", "--interval", "0.1", "--credentials", self.keeping.file
        )
        first = first_that(process, lambda _: True)
        self.assertEqual(
            (first["name"], first["archived"], first["commits_a_second"]), ("shop", 3, None)
        )
        gate = Gate(self.keeping.url, "NEW.archived > OLD.archived")
        self.commit(self.primary, "4")
        lags = first_that(process, lambda fields: fields["lag"] == 1)
        self.assertEqual((lags["archived"], lags["commits_a_second"]), (3, 0))
        gate.open()
        self.assertGreater(
            first_that(process, lambda fields: fields["archived"] == 4)["commits_a_second"], 0
        )
        whole = first_that(
            process, lambda fields: fields["lag"] == 0 and fields["standbys"] == {self.other: 4}
        )
        process.send_signal(signal.SIGTERM)
        process.communicate(timeout=PATIENCE)
        self.assertEqual(process.returncode, 0)
        place = self.keeping.place()
        self.assertEqual(
            (whole["holder"], whole["generation"], whole["place"]),
            (self.holder, place.generation, place.address),
        )
        self.assertTrue(900_000 < whole["entries_left"] < 1_000_000)
        self.assertIn(whole["memory"] + whole["memory_left"], (LIMIT >> 20, (LIMIT >> 20) - 1))

    def test_pages(self) -> None:
        eventually(
            lambda: self.told() == ("serving", {self.other: 3}, True),
            "a holder that tells of its service, and a standby",
        )
        alone = self.page("--named", "--count", 2)
        row = rf"shop +{self.keeping.place().generation} +{self.holder} +3 +0/s +0 +{self.other} -0 +999,\d+ +\d+ MiB +7,\d+ MiB +serving"
        self.assertEqual(len(re.findall(row, alone)), 1, alone)  # the first look knows no rate
        self.assertIn("durable means one disk", alone)
        self.assertNotIn("denied", alone)
        narrow = self.page("--named", columns=79)
        self.assertRegex(narrow, r"name +generation +holder +archived +commits +lag  ")
        self.assertNotIn("…", narrow)
        with Service() as service:
            file = service.credentials_file(url=self.keeping.url)
            self.assertRegex(
                self.page("--named", file=file),
                rf"(?s)\b0 +1 +2 +0 .*denied.*shop +{self.keeping.place().generation} +{self.holder} +3 ",
            )
            self.assertNotIn("shop", self.page(file=file))
            both = [
                json.loads(line) for line in self.page("--named", "--json", file=file).splitlines()
            ]
            self.assertEqual([fields.get("db", fields.get("name")) for fields in both], [0, "shop"])
        self.assertIn("operator", self.page(status=1))
        away = self.keeping.folder / "away.toml"
        away.touch(mode=0o600)
        away.write_text('[archive]\nurl = "postgresql://nobody@/none?host=/nowhere"\n')
        self.assertIn("named databases: Away: PostgreSQL", self.page("--named", file=away))
        self.assertIn("Away", json.loads(self.page("--named", "--json", file=away))["error"])


def first_that(
    process: subprocess.Popen[str], is_so: Callable[[dict[str, Any]], bool]
) -> dict[str, Any]:
    """The first look, of a `top --json`, of which this is so."""
    assert process.stdout is not None
    while not is_so(fields := json.loads(process.stdout.readline())):
        pass
    return dict(fields)


class Warnings(Kept):
    """With a clock of the test's own."""

    keepers = "a"

    def test_what_an_operator_has_to_look_at(self) -> None:
        now = [0.0]
        watch = NamedWatch(self.keeping.referee, lambda: now[0])
        self.keeping.place()
        self.assertEqual(self.warning(watch), "shop: it has no standby")
        self.keeping.kill("a")
        self.warning(watch)  # its last beat is seen now
        now[0] = SILENT
        self.assertEqual(
            self.warning(watch), f"shop: nothing was heard of its holder a for {SILENT:.0f} s"
        )
        self.assertTrue(
            self.keeping.referee.release(self.keeping.row().id, str(self.keeping.row().run))
            is not None
        )
        self.assertEqual(self.warning(watch), "shop: nobody has it")
        self.keeping.referee.pause("shop", True)
        self.assertEqual(self.warning(watch), "")

    def warning(self, watch: NamedWatch) -> str:
        [line] = watch.look().lines
        return line.warning
