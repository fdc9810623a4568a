"""The page of a period: a tab for each day type with its vehicles, and the fleet above them."""
from __future__ import annotations

import json
import re
import unittest
import urllib.request
from pathlib import Path

from desk.period import TownPeriod
from desk.open import sessions_of
from tests.browser import Browser, needs_browser
from tests.feeds import TOKEN, FolderTest, needs_program, write_feed
from tests.made_periods import with_dates_alone

TABS = "return [...document.querySelectorAll('#days button')].map((one) => [one.textContent, one.getAttribute('aria-current')]);"
SEEN = "return [document.getElementById('fleet').textContent, document.getElementById('number-vehicles').textContent, document.title];"


@needs_program
class PeriodPageTest(FolderTest):
    """A page that stands alone, and the days of `desk open`."""

    def setUp(self) -> None:
        super().setUp()
        self.town = self.room / "town"
        self.make_period(self.town, with_dates_alone())
        self.page = self.room / "page.html"

    def test_the_days_in_the_page(self) -> None:
        """All are in it, the busiest first, each with its vehicles as the program says them."""
        status, _, errors = self.desk("page", self.town, "-o", self.page)
        self.assertEqual((status, errors), (0, ""))
        told = json.loads(re.search('<script type="application/json" id="day">(.*?)</script>', self.page.read_text(), re.DOTALL)[1])
        self.assertEqual([view["tab"] for view in told["views"]], [0, 1, 2, 3, 4])
        self.assertEqual([day["folder"] for day in told["views"][4]["days"]], ["fri", "mon-thu", "sat", "24-dec", "sun"])
        vehicles = [view["numbers"]["vehicles"] for view in told["views"]]
        self.assertEqual([day["vehicles"] for day in told["views"][0]["days"]], vehicles)
        self.assertEqual(told["views"][0]["title"], "town, fri")
        write_feed(self.town / "days" / "sun", {"edits.csv": "cancel,nothing\n"})
        status, _, errors = self.desk("page", self.town, "-o", self.page, "--replace")
        self.assertEqual(status, 1)
        self.assertIn("days/sun: edits.csv: record 1: refused, nothing: unknown trip\n", errors)

    def test_the_days_that_are_served(self) -> None:
        """Each stands under its number. The vehicles of a day that was not shown are those of `plan`, and unknown without it."""
        self.desk("plan", self.town)
        (self.town / "days" / "sun" / "plan.json").unlink()
        server = self.serve_page(sessions_of(self.town, None))
        self.assertTrue(server.address.endswith(f"/{TOKEN}/0/"))

        def ask(name: str) -> dict[str, object]:
            with urllib.request.urlopen(server.address.removesuffix("0/") + name) as answer:
                return json.loads(answer.read())

        view = ask("2/day")["day"]
        self.assertEqual((view["title"], view["tab"]), ("town, sat", 2))
        self.assertEqual([day["vehicles"] for day in view["days"]], [3, 3, 3, 2, None])
        self.assertIn("state", ask("4/state"))
        for name in ("", "day", "5/day", "0/0/day"):
            with self.subTest(name), self.assertRaises(urllib.error.HTTPError) as refused:
                ask(name)
            self.assertEqual(refused.exception.code, 404)
            refused.exception.close()

    def test_an_edit_of_a_day_is_that_days_alone(self) -> None:
        sessions = sessions_of(self.town, None)
        names = [day.name for day in TownPeriod(self.town).days]
        sun = sessions[names.index("sun")]
        state = sun.day()["day"]["state"]
        answer = sun.edit({"edit": "cancel", "trip": "sun_1_0_540", "state": state})
        self.assertTrue(answer["done"], answer)
        self.assertEqual([path.parent.name for path in Path(self.town).glob("days/*/edits.csv") if path.read_bytes()], ["sun"])

    @needs_browser
    def test_the_tabs_in_a_browser(self) -> None:
        """A tab brings its day to the front, in the page that stands alone and in that of the server."""
        self.desk("plan", self.town)
        self.desk("page", self.town, "-o", self.page)
        server = self.serve_page(sessions_of(self.town, None))
        browser = Browser()
        self.addCleanup(browser.close)
        for address in (self.page.as_uri(), server.address):
            with self.subTest(address):
                browser.open(address)
                self.assertEqual(browser.run(TABS)[0], ["Friday 3", "page"])
                self.assertEqual(browser.run(SEEN)[:2], ["Fleet: 3 vehicles, on Friday", "3"])
                browser.run("document.querySelectorAll('#days button')[4].click();")
                browser.wait(lambda: browser.run("return document.title.startsWith('town, sun') && document.body.classList.contains('ready')"))
                self.assertEqual(browser.run(SEEN)[1], "1")
                self.assertEqual(browser.run(TABS)[4], ["Sunday 1", "page"])
                self.assertEqual(browser.run("return document.querySelectorAll('.sheet .trip').length"), 9)


if __name__ == "__main__":
    unittest.main()
