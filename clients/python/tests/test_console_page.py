"""The console's page in a browser, Debian's chromium: what a person sees and reaches, on a desk and on a phone."""

from __future__ import annotations

import os
import shutil
import signal
import unittest
from typing import Any

from consoles import HOSTILE, Console, Page, Rows, page_of
from keepers import Kept, eventually
from postgres import postgres

try:
    from selenium import webdriver
    from selenium.webdriver.chrome.service import Service as Driver
    from selenium.webdriver.common.by import By
    from selenium.webdriver.common.keys import Keys
except ModuleNotFoundError:
    webdriver = None  # type: ignore[assignment]

DRIVER = shutil.which("chromedriver")
LACKING = "no browser here: apt-get install --no-install-recommends chromium chromium-driver python3-selenium"
CONTRAST = """
const channel = (value) => (value <= 0.04045 ? value / 12.92 : ((value + 0.055) / 1.055) ** 2.4);
const light = (text) => {
  const [r, g, b] = text.match(/[\\d.]+/g).map((value) => channel(value / 255));
  return 0.2126 * r + 0.7152 * g + 0.0722 * b;
};
const ground = (node) => {
  for (; node; node = node.parentElement) {
    const found = getComputedStyle(node).backgroundColor;
    if (!/, 0\\)|transparent/.test(found)) return found;
  }
  return getComputedStyle(document.documentElement).backgroundColor;
};
const contrast = (node) => {
  const both = [light(getComputedStyle(node).color), light(ground(node))];
  return (Math.max(...both) + 0.05) / (Math.min(...both) + 0.05);
};
const words = "h1, h2, h3, p, button, dt, dd, a, .quiet, time, td, th";
const nodes = [...document.querySelectorAll(words)].filter((each) => !each.closest("#rows tr:nth-child(n + 9)"));
return nodes.filter((each) => each.textContent.trim() && each.offsetParent && contrast(each) < 4.5)
  .map((each) => `${contrast(each).toFixed(2)} ${each.outerHTML.slice(0, 90)}`);
"""
"""What is read with too little contrast: all words, and of the table the first rows."""
NAMELESS = """
return [...document.querySelectorAll("button, a, input, [role=img], th")].filter((each) => each.checkVisibility?.() !== false)
  .filter((each) => !(each.textContent.trim() || each.getAttribute("aria-label") || each.labels?.length)).map((each) => each.outerHTML);
"""


@unittest.skipIf(webdriver is None or DRIVER is None, LACKING)
class Browsed(unittest.TestCase):
    """A browser for all tests of a class. The log of each test has to be empty."""

    browser: Any

    @classmethod
    def setUpClass(cls) -> None:
        options = webdriver.ChromeOptions()
        for word in (
            "--headless=new",
            "--no-sandbox",
            "--disable-dev-shm-usage",
            "--disable-gpu",
            "--window-size=1440,900",
        ):
            options.add_argument(word)
        options.set_capability("goog:loggingPrefs", {"browser": "ALL"})
        cls.browser = webdriver.Chrome(service=Driver(DRIVER), options=options)
        cls.addClassCleanup(cls.browser.quit)
        cls.browser.set_script_timeout(60)

    def setUp(self) -> None:
        super().setUp()
        self.resize(1440, 900)

    def console(self, url: str, **options: Any) -> Console:
        """A console, until the end of the test. The browser's log is looked at before that."""
        made = self.enterContext(Console(url, **options))
        self.addCleanup(self.check_log)
        return made

    def check_log(self) -> None:
        """Nothing is wrong by the browser: no error, no warning, nothing that the policy forbids."""
        found = self.browser.get_log("browser")
        self.browser.get("about:blank")
        self.assertEqual(found, [])

    def resize(self, width: int, height: int, scheme: str = "light") -> None:
        self.browser.execute_cdp_cmd(
            "Emulation.setDeviceMetricsOverride",
            {"width": width, "height": height, "deviceScaleFactor": 1, "mobile": width < 600},
        )
        self.browser.execute_cdp_cmd(
            "Emulation.setEmulatedMedia",
            {
                "features": [
                    {"name": "prefers-color-scheme", "value": scheme},
                    {"name": "prefers-reduced-motion", "value": "reduce"},
                ]
            },
        )

    def js(self, script: str, *arguments: object) -> Any:
        return self.browser.execute_script(script, *arguments)

    def open(self, console: Page, hash: str = "") -> None:
        self.browser.get(console.url + hash)
        eventually(lambda: "live" in self.text("#live"), "a look")

    def text(self, selector: str) -> str:
        return str(
            self.js("return document.querySelector(arguments[0])?.innerText ?? ''", selector)
        )

    def texts(self, selector: str) -> list[str]:
        return list(
            self.js(
                "return [...document.querySelectorAll(arguments[0])].map((each) => each.textContent.trim())",
                selector,
            )
        )

    def rows(self) -> list[list[str]]:
        """The texts of the visible cells of the visible rows."""
        return list(
            self.js(
                "return [...document.querySelectorAll('#rows tr')].filter((row) => row.offsetParent)"
                ".map((row) => [...row.children].filter((cell) => cell.offsetParent).map((cell) => cell.innerText.trim()))"
            )
        )

    def names(self) -> list[str]:
        return list(
            self.js(
                "return [...document.querySelectorAll('#rows tr')].filter((row) => row.offsetParent)"
                ".map((row) => row.querySelector('.c-name').textContent)"
            )
        )

    def press(self, *keys: str) -> None:
        self.browser.switch_to.active_element.send_keys(*keys)

    def tab(self) -> str:
        """Where the next Tab leads to."""
        self.press(Keys.TAB)
        return str(
            self.js("return document.activeElement.textContent.trim() || document.activeElement.id")
        )

    def check_page(self) -> None:
        """What holds of each page: no scrolling sideways, and nothing that has no name or cannot be read for want of contrast."""
        self.assertLessEqual(self.js("return document.documentElement.scrollWidth - innerWidth"), 0)
        self.assertEqual(self.js(CONTRAST), [])
        self.assertEqual(self.js(NAMELESS), [])


class OnePage(Browsed):
    def test_no_database_yet(self) -> None:
        self.open(self.console(postgres().url("none_of_pages")))
        self.assertEqual(
            (self.text("#none"), self.names()),
            ("There is no named database yet: pagelogctl create makes one.", []),
        )
        self.check_page()

    def test_three_hundred_are_filtered_sorted_and_read_on_a_phone(self) -> None:
        with Rows(300) as rows:
            console = self.console(rows.url)
            rows.session.execute(
                "UPDATE pagelog_log SET run = NULL, holder = NULL, address = NULL WHERE name IN ('db150', 'db151')"
            )
            rows.session.execute(
                "UPDATE pagelog_log SET paused = true WHERE name IN ('db151', 'db299')"
            )
            self.open(console)
            names = self.names()
            self.assertEqual(
                (len(names), names[:3]), (300, ["db150", "db151", "db299"])
            )  # the most urgent first
            self.assertEqual(
                self.texts("#states button"),
                [
                    "all 300",
                    "nobody has it 2",
                    "no heartbeat 0",
                    "taking 0",
                    "closing 0",
                    "serving 298",
                    "paused 2",
                ],
            )
            self.browser.find_element(By.CSS_SELECTOR, "#states button:nth-of-type(2)").click()
            self.assertEqual(
                [row[:2] for row in self.rows()],
                [["nobody has it", "db150"], ["nobody has it paused", "db151"]],
            )
            self.browser.find_element(By.CSS_SELECTOR, "#states button:first-of-type").click()
            self.browser.find_element(By.CSS_SELECTOR, ".c-name button").click()
            self.browser.find_element(By.CSS_SELECTOR, ".c-name button").click()
            self.assertEqual(
                (self.names()[0], self.js("return document.querySelector('th.c-name').ariaSort")),
                ("db300", "descending"),
            )
            self.check_page()
            for width, scheme in ((360, "light"), (360, "dark"), (768, "dark"), (1440, "dark")):
                self.resize(width, 740, scheme)
                self.check_page()
            self.resize(360, 740)
            self.assertEqual(self.rows()[-1][:3], ["serving", "db001", "a"])
            self.browser.find_element(By.ID, "words").send_keys("DB04")
            self.assertEqual(self.names(), [f"db{number:03}" for number in range(49, 39, -1)])
            self.browser.find_element(By.LINK_TEXT, "db042").click()
            eventually(
                lambda: self.text("#detail-title") == "db042"
                and "Positions" in self.text("#detail"),
                "its page",
            )
            self.check_page()

    def test_it_is_dark_where_that_is_wanted(self) -> None:
        with Rows(1) as rows:
            console = self.console(rows.url)
            self.open(console)
            grounds = []
            for scheme in ("light", "dark"):
                self.resize(1440, 900, scheme)
                grounds.append(
                    self.js("return getComputedStyle(document.documentElement).backgroundColor")
                )
            self.assertEqual(grounds, ["rgb(246, 247, 248)", "rgb(18, 22, 26)"])

    def test_the_keyboard_alone(self) -> None:
        with Rows(30) as rows:
            console = self.console(rows.url)
            self.open(console)
            self.press("/")
            self.assertEqual(self.js("return document.activeElement.id"), "words")
            self.press("db01", Keys.ENTER)  # Enter goes to the first of them
            self.assertEqual(self.js("return document.activeElement.textContent"), "db010")
            self.press(Keys.ARROW_DOWN, Keys.NULL)
            self.press(Keys.ARROW_DOWN, Keys.NULL)
            self.assertEqual(self.js("return document.activeElement.textContent"), "db012")
            self.press(Keys.END)
            self.assertEqual(self.js("return document.activeElement.textContent"), "db019")
            self.press(Keys.HOME)
            self.press(Keys.ENTER)
            self.assertEqual(
                (self.js("return location.hash"), self.text("#detail-title")), ("#/db010", "db010")
            )
            self.assertEqual(self.js("return document.activeElement.id"), "detail-title")
            self.press(Keys.ESCAPE)
            eventually(
                lambda: self.js("return document.activeElement.textContent") == "db010",
                "the row that was left",
            )
            self.assertFalse(self.browser.find_element(By.ID, "detail").is_displayed())
            self.press("/")
            self.press(Keys.ESCAPE)
            self.assertEqual(len(self.names()), 30)
            reached = [self.tab() for _ in range(18)]
            self.assertEqual(
                reached[:8],
                [
                    "all 30",
                    "nobody has it 0",
                    "no heartbeat 0",
                    "taking 0",
                    "closing 0",
                    "serving 30",
                    "paused 0",
                    "State",
                ],
            )
            self.assertEqual(reached[-1], "db010")  # one stop for all rows
            self.assertFalse([each for each in reached[:-1] if each.startswith("db")])

    def test_a_hostile_name_is_text(self) -> None:
        with Rows(1, HOSTILE) as rows:
            rows.session.execute("UPDATE pagelog_keeper SET name = %s", (HOSTILE,))
            for table in ("log", "generation"):
                rows.session.execute(f"UPDATE pagelog_{table} SET holder = %s", (HOSTILE,))
            console = self.console(rows.url)  # not before: it asks once how a generation began
            self.open(console)
            self.assertEqual(self.names(), [HOSTILE, "db001"])
            self.js("document.querySelector('#rows a').click()")
            eventually(
                lambda: self.text("#detail-title") == HOSTILE
                and HOSTILE in self.text(".part-generations"),
                "its page",
            )
            self.assertIn(HOSTILE, self.text("#facts"))
            self.assertEqual(self.js("return document.querySelectorAll('img').length"), 1)
            self.check_page()
            self.js("location.hash = '#/%E0%A4%A'")  # a link that was cut
            eventually(
                lambda: not self.browser.find_element(By.ID, "detail").is_displayed(),
                "the table alone",
            )

    def test_a_login(self) -> None:
        with Rows(1) as rows:
            console = self.console(rows.url, token="a-token-of-sixteen-letters")
            self.browser.get(console.url)
            self.check_page()
            self.browser.find_element(By.ID, "token").send_keys(
                "a-token-of-sixteen-letters", Keys.ENTER
            )
            eventually(lambda: self.names() == ["db001"], "the page behind the login")
            self.assertEqual(self.js("return document.cookie"), "")  # no script has it

    def test_postgresql_is_away_and_the_page_goes_on(self) -> None:
        with Rows(2) as rows:
            console = self.console(rows.url)
            self.open(console)
            postgres().crash()
            try:
                eventually(
                    lambda: self.text("#trouble").startswith(
                        "PostgreSQL is away. What is shown is of"
                    ),
                    "what is wrong",
                )
                self.assertEqual(len(self.names()), 2)
                self.check_page()
            finally:
                postgres().start()
            eventually(
                lambda: self.text("#trouble") == ""
                and "PostgreSQL is back" in self.text("#events"),
                "its end",
            )


class Takeover(Browsed, Kept):
    keepers = "ab"

    def test_a_takeover_is_seen_live(self) -> None:
        console = self.console(self.keeping.url, ttl=self.keeping.ttl, more="audit = 1000000\n")
        with self.keeping.primary() as primary:
            self.open(console, "#/shop")
            self.commit(primary, "1", durable=True)
            eventually(
                lambda: self.text(".part-marks") == "serving"
                and "blocks behind" in self.text(".part-facts"),
                "that it serves",
            )
            row = self.keeping.row()
            os.kill(self.keeping.pid(), signal.SIGKILL)
            eventually(
                lambda: self.keeping.row().generation > row.generation
                and self.keeping.row().address is not None,
                "a takeover",
            )
            holder = self.keeping.row().holder
            eventually(
                lambda: f"{holder} took it" in self.text(".part-events")
                and self.text(".part-marks") == "serving",
                "the takeover",
            )
            eventually(
                lambda: int(self.js("return document.querySelectorAll('.strip rect').length")) >= 2,
                "the strip",
            )
            self.assertIn(
                f"shop: {holder}", self.js("return document.getElementById('said').textContent")
            )
            self.check_page()


class OfAKeeper(Browsed, Kept):
    keepers = "a"
    options = {"more": 'console = "127.0.0.1:0"\n'}

    def test_a_succession_at_the_port_of_a_keeper(self) -> None:
        self.addCleanup(self.check_log)
        with self.keeping.primary() as primary:
            self.open(page_of(self.keeping), "#/shop")
            self.commit(primary, "1", durable=True)
            self.keeping.word("rollover", "shop")
            eventually(
                lambda: "a continues with generation" in self.text(".part-events"), "the succession"
            )
            eventually(
                lambda: int(self.js("return document.querySelectorAll('.strip rect').length")) >= 2,
                "the strip",
            )
            self.assertEqual(self.commit(primary, "2", durable=True), 2)
            self.check_page()


if __name__ == "__main__":
    unittest.main()
