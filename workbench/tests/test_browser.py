"""The page in a browser: what is seen, what is reached by keys, what is printed, and what edits do."""
from __future__ import annotations

import random
import re
import shutil
from itertools import pairwise
from pathlib import Path

from desk.open.session import Session
from desk.page import static_page
from desk.page.view import as_text, as_view
from desk.plans import read_blocks
from desk.program import ROOT, run
from desk.open import handed_over
from tests.browser import Browser, needs_browser
from tests.feeds import FolderTest, needs_program, table, write_feed
from tests.made_days import made_day, many_ties

LEAST_CONTRAST = 4.5

CONTRASTS = """
const parts = (text) => text.match(/[\\d.]+/g).map(Number);
const linear = (part) => (part <= 0.03928 ? part / 12.92 : ((part + 0.055) / 1.055) ** 2.4);
const light = (text) => {
  const [red, green, blue] = parts(text).map((part) => linear(part / 255));
  return 0.2126 * red + 0.7152 * green + 0.0722 * blue;
};
const ground = (element) => {
  for (let at = element; at; at = at.parentElement) {
    const colour = getComputedStyle(at).backgroundColor;
    if ((parts(colour)[3] ?? 1) > 0.5) return colour;
  }
  return 'rgb(255, 255, 255)';
};
const found = [];
for (const element of document.querySelectorAll('#screen *')) {
  const isText = [...element.childNodes].some((node) => node.nodeType === 3 && node.data.trim());
  if (!isText || !element.getClientRects().length || element.disabled) continue;
  const style = getComputedStyle(element);
  const bar = element.closest('.trip')?.querySelector('.body');
  const inks = [light(element instanceof SVGElement ? style.fill : style.color), light(bar ? getComputedStyle(bar).fill : ground(element))];
  const contrast = (Math.max(...inks) + 0.05) / (Math.min(...inks) + 0.05);
  if (contrast < arguments[0]) found.push([element.textContent.slice(0, 30), contrast]);
}
return found;
"""
"""The texts that stand out less from what is behind them than they should, by the rule of the W3C."""

REACHABLE = """
const able = 'button, input, select, a[href], [tabindex="0"]';
return [...document.querySelectorAll(able)].filter((one) => one.tabIndex >= 0 && !one.disabled && one.getClientRects().length)
  .map((one) => one.id || one.dataset.trip || one.textContent);
"""

MIDDLE = """
const frame = document.querySelector('#panel-Vehicles .frame').getBoundingClientRect();
const off = (bar) => {
  const box = bar.getBoundingClientRect();
  return Math.hypot(box.x + box.width / 2 - frame.x - frame.width / 2, box.y - frame.y - frame.height / 2);
};
return [...document.querySelectorAll('.sheet .trip')].reduce((one, other) => (off(other) < off(one) ? other : one)).dataset.trip;
"""
"""The trip that is nearest to the middle of the vehicles."""

HALF = 25
"""How many random edits are made on each of two feeds."""

FOCUSED = "const one = document.activeElement; return one === document.body ? null : one.id || one.dataset.trip || one.textContent"


class BrowserTest(FolderTest):
    """A test with a browser."""

    def setUp(self) -> None:
        super().setUp()
        self.browser = Browser()
        self.addCleanup(self.browser.close)

    def names(self, selector: str) -> list[str]:
        """The names of the trips of a selector."""
        return self.browser.run("return [...document.querySelectorAll(arguments[0])].map((bar) => bar.dataset.trip)", selector)

    def choose(self, selector: str, value: str) -> None:
        """Chooses a value of a field."""
        self.browser.run("const field = document.querySelector(arguments[0]); field.value = arguments[1]; "
                         "field.dispatchEvent(new Event('input'))", selector, value)

    def bar(self, trip: str) -> str:
        """The selector of a trip."""
        return f'.sheet [data-trip="{trip}"]'

    def labels(self, selector: str) -> list[str]:
        """What all elements of a selector are called."""
        script = "return [...document.querySelectorAll(arguments[0])].map((found) => found.getAttribute('aria-label'))"
        return self.browser.run(script, selector)

    def box(self, selector: str) -> dict[str, float]:
        """Where an element stands in the window."""
        return self.browser.run("return document.querySelector(arguments[0]).getBoundingClientRect().toJSON()", selector)


@needs_browser
class LookTest(BrowserTest):
    """The static page of made days."""

    def open(self, trips: int) -> None:
        """Opens the page of so many trips."""
        self.day = made_day(trips)
        path = self.room / "day.html"
        path.write_text(static_page(as_text(as_view(self.day))))
        self.browser.open(path.as_uri())

    def drawn(self) -> list[str]:
        """The names of the rows that are drawn, from above."""
        return self.labels("#panel-Vehicles .sheet > g")

    def test_many_trips(self) -> None:
        """Of 4,096 trips the rows in view are drawn, in their order, and hours and names stay while they scroll."""
        self.open(4096)
        self.assertEqual(self.browser.texts("#numbers dd"), ["453", "12,913", "462"])
        self.assertIn("No plan has fewer vehicles", self.browser.text("#verdict"))
        before = self.drawn()
        self.assertEqual(before, [f"block B{number}" for number in range(1, len(before) + 1)])
        self.assertLess(len(before), 60)
        frame = "#panel-Vehicles .frame"
        for _ in range(6):
            self.browser.click("#zoom-in")
        self.browser.run("const frame = document.querySelector(arguments[0]); frame.scrollTo(600, frame.scrollHeight)", frame)
        self.browser.wait(lambda: "block B453" in self.drawn())
        self.assertEqual(self.drawn()[-1], "block B453")
        self.assertLess(len(self.drawn()), 60)
        top, left = self.box(frame)["top"], self.box(frame)["left"]
        self.assertEqual((self.box(f"{frame} .head")["top"], self.box(f"{frame} .names")["left"]), (top, left))
        self.assertEqual(self.browser.errors(), [])

    def test_warnings(self) -> None:
        """What a planner should know beside the numbers stands below them, and takes no room where there is nothing."""
        self.open(40)
        self.assertEqual(self.box("#warnings")["height"], 0)
        path = self.room / "warned.html"
        path.write_text(static_page(as_text(as_view(self.day) | {"warnings": ['depot.csv has no record of "A"', "<b>"]})))
        self.browser.open(path.as_uri())
        self.assertEqual(self.browser.texts("#warnings li"), ['depot.csv has no record of "A"', "<b>"])
        self.assertGreater(self.box("#warnings")["height"], 0)

    def test_search_and_filter(self) -> None:
        """A search goes from trip to trip, and a filter leaves rows and the rest of their trips back."""
        self.open(400)
        self.browser.click("#tab-Terminals")
        self.browser.type("#search", "L3-")
        self.assertRegex(self.browser.text("#search-count"), r"^1 of \d+ trips$")
        self.browser.click("#search-next")
        self.assertRegex(self.browser.text("#search-count"), "^2 of ")
        self.browser.run("document.getElementById('search').focus()")
        found, = self.names(".bar.found")
        self.assertTrue(found.startswith("L3-"))
        box, frame = self.box(".bar.found"), self.box("#panel-Vehicles .frame")
        self.assertTrue(frame["top"] < box["top"] and box["bottom"] < frame["bottom"])
        self.browser.keys("Escape")
        self.assertEqual(self.browser.run(FOCUSED), found)
        self.choose("#filter-line", "line 3")
        rows = [block.name for block in self.day.blocks if any(ride.trip and ride.trip.route_id == "line 3" for ride in block.rides)]
        self.assertEqual(self.drawn(), [f"block {name}" for name in rows][:len(self.drawn())])
        dim, all_trips = (self.names(selector) for selector in (".bar.trip.dim", ".bar.trip"))
        self.assertEqual([trip for trip in all_trips if trip not in dim], [trip for trip in all_trips if trip.startswith("L3-")])
        self.browser.click("#filter-clear")
        self.choose("#filter-terminal", "Terminal 7")
        rows = [block.name for block in self.day.blocks if any("Terminal 7" in (ride.start, ride.end) for ride in block.rides)]
        self.assertEqual(self.drawn(), [f"block {name}" for name in rows][:len(self.drawn())])
        self.browser.click("#filter-clear")
        self.browser.type("#filter-from", "25:99")
        self.assertEqual(self.browser.run("return document.getElementById('filter-from').getAttribute('aria-invalid')"), "true")
        self.browser.type("#filter-from", "22:00")
        late = [block.name for block in self.day.blocks if any(ride.ends >= 1320 for ride in block.rides)]
        self.browser.wait(lambda: self.drawn() == [f"block {name}" for name in late][:len(self.drawn())])

    def test_exact_search(self) -> None:
        """A block, a line or a trip that is named exactly comes before names that have it in them; Enter and Escape lead to it."""
        self.open(400)
        block, trip = self.day.blocks[1], self.day.blocks[4].rides[2]
        self.browser.run("document.getElementById('search').focus()")
        for text, key, wanted in (("b2", "Enter", block.rides[0].name), (trip.name, "Escape", trip.name), ("line 3", "Enter", None)):
            self.browser.type("#search", text)
            self.assertNotIn("no trip", self.browser.text("#search-count"))
            self.browser.keys(key)
            found = self.browser.run(FOCUSED)
            self.assertEqual(found, wanted or found)
            self.assertTrue(wanted or found.startswith("L3-"))
        self.browser.type("#search", "b1")
        self.browser.keys("Tab", "Tab")
        current = self.browser.run("return document.querySelector('.sheet [tabindex=\"0\"]').dataset.trip")
        self.assertEqual(current, self.day.blocks[0].rides[0].name)

    def test_hours_zoom(self) -> None:
        """From and until show these hours alone, as wide as the window, and without them it is the whole day again."""
        self.open(400)
        whole = self.box(".sheet")["width"]
        self.browser.type("#filter-from", "07:00")
        self.browser.type("#filter-until", "09:00")
        frame = self.box("#panel-Vehicles .frame")
        hours = {text: self.browser.run("""return [...document.querySelectorAll('#panel-Vehicles .hour')]
          .find((one) => one.textContent === arguments[0]).getBoundingClientRect().toJSON()""", text) for text in ("07:00", "09:00")}
        self.assertAlmostEqual(hours["07:00"]["x"] + hours["07:00"]["width"] / 2, frame["x"] + 64, delta=4)
        self.assertAlmostEqual(hours["09:00"]["x"] + hours["09:00"]["width"] / 2, frame["right"], delta=30)
        self.browser.click("#filter-clear")
        self.assertAlmostEqual(self.box(".sheet")["width"], whole, delta=20)

    def test_small_windows(self) -> None:
        """A phone and a window of 800 by 600 show mostly the chart. Tools and legend fold, and come by their buttons."""
        self.open(1500)
        beyond = "const page = document.documentElement; return [page.scrollWidth - page.clientWidth, page.scrollHeight - page.clientHeight]"
        for width, height in ((390, 844), (800, 600), (911, 512)):
            self.browser.resize(width, height)
            self.browser.wait(lambda: self.browser.run("return document.getElementById('legend').hidden"))
            frame = self.box("#panel-Vehicles .frame")
            self.assertGreater(frame["width"] * frame["height"], 0.7 * width * height)
            self.assertLessEqual(frame["bottom"], self.box("#run")["top"])
            for button, part in (("tools", "#search"), ("legend", "#legend")):
                self.browser.click(f"#fold-{button}")
                self.assertGreater(self.box(part)["height"], 0)
                self.assertEqual(self.browser.run(beyond), [0, 0], (width, button))
                self.browser.click(f"#fold-{button}")
                self.assertEqual(self.box(part)["height"], 0)
        self.browser.resize(1400, 1000)
        self.browser.wait(lambda: self.box("#search")["height"] > 0)
        self.assertEqual(self.browser.errors(), [])

    def test_order(self) -> None:
        """Rows go by line, start, end, span and waiting."""
        self.open(400)
        blocks = self.day.blocks
        waits = {block.name: sum(ride.departs - since for ride, since in block.waits()) for block in blocks}
        orders = {
            "line": lambda block: (int(block.rides[0].trip.route_id.split()[1]), block.leaves),
            "start": lambda block: block.leaves, "end": lambda block: block.returns,
            "span, longest first": lambda block: block.leaves - block.returns,
            "waiting, longest first": lambda block: -waits[block.name], "block": lambda block: 0}
        for name, key in orders.items():
            self.choose("#sort", name)
            rows = [f"block {block.name}" for block in sorted(blocks, key=key)]
            self.assertEqual(self.drawn(), rows[:len(self.drawn())], name)

    def test_times_and_ends(self) -> None:
        """Bars have their times where there is room, and rows the terminals at their ends, in rows of middle height too."""
        self.open(800)
        self.assertEqual(self.browser.run("return document.getElementById('row-size').value"), "middle")
        self.choose("#sort", "end")
        block = min(self.day.blocks, key=lambda one: one.returns)
        ride = block.rides[-1]
        ends = self.browser.texts(f'.sheet [aria-label="block {block.name}"] .place')
        self.assertIn(f"{ride.arrives // 60:02}:{ride.arrives % 60:02} {ride.end}", ends)
        for _ in range(7):
            self.browser.click("#zoom-in")
        labels = self.browser.texts(".sheet .label")
        self.assertTrue(any(re.fullmatch(r"line \d+ L\d+-\d+ \d\d:\d\d–\d\d:\d\d", label) for label in labels), labels[:5])

    def test_keys(self) -> None:
        """The arrow keys go from bar to bar, tell what each is, and scroll to it; keys zoom."""
        self.open(400)
        first = self.day.blocks[0]
        self.browser.run("document.querySelector('.sheet [tabindex=\"0\"]').focus()")
        focused = "return document.activeElement.getAttribute('aria-label')"
        self.assertIn("out of the depot, depot to " + first.rides[0].start, self.browser.run(focused))
        self.browser.keys("ArrowRight")
        self.assertIn(first.rides[0].name, self.browser.run(focused))
        self.assertIn(first.rides[0].name, self.browser.text("#tip"))
        self.assertFalse(self.browser.run("return document.getElementById('tip').hidden"))
        self.browser.keys("ArrowDown")
        self.assertIn("block B2", self.browser.run(focused))
        self.browser.keys("End", "+", "+", "+", "+")
        self.assertIn("home to the depot", self.browser.run(focused))
        self.browser.keys("Home", "End")
        box, frame = self.box(".bar:focus"), self.box("#panel-Vehicles .frame")
        self.assertTrue(frame["left"] <= box["left"] and box["right"] <= frame["right"])
        wide = self.box(".sheet")["width"]
        self.browser.keys("0")
        self.assertLess(self.box(".sheet")["width"], wide)

    def test_service(self) -> None:
        """The curve above the rows tells the most vehicles that are out at one time: those that wait are not."""
        self.open(400)
        spans = [(block.leaves, block.returns) for block in self.day.blocks]
        waits = [(since, ride.departs) for block in self.day.blocks for ride, since in block.waits()]
        count = lambda found, minute: sum(first <= minute < last for first, last in found)  # noqa: E731
        most = max(count(spans, minute) - count(waits, minute) for minute in range(240, 1800))
        self.assertEqual(self.browser.text("#panel-Vehicles .peak"), str(most))

    def test_hours_apart(self) -> None:
        """No two hours overlap, in windows and on paper of any width."""
        self.open(400)
        apart = """const boxes = [...document.querySelectorAll(arguments[0])].map((one) => one.getBoundingClientRect())
          .sort((one, other) => one.left - other.left);
          return [boxes.length, boxes.every((box, at) => at === 0 || boxes[at - 1].right <= box.left)]"""
        for width in (1400, 1280, 1111, 800, 500):
            self.browser.resize(width, 800)
            self.browser.run("document.getElementById('zoom-fit').click()")
            number, good = self.browser.run(apart, "#panel-Vehicles .hour")
            self.assertEqual((number > 3, good), (True, True), width)
        self.browser.command("Emulation.setEmulatedMedia", media="print")
        self.browser.resize(960, 800)
        self.browser.run("dispatchEvent(new Event('beforeprint'))")
        number, good = self.browser.run(apart, "#paper .sheet-of-paper:nth-of-type(1) .hour")
        self.assertEqual((number > 3, good), (True, True))

    def test_hover(self) -> None:
        """A bar below the pointer tells all of itself beside it."""
        self.open(400)
        name = self.browser.run(MIDDLE)
        self.browser.point(self.bar(name))
        self.browser.wait(lambda: not self.browser.run("return document.getElementById('tip').hidden"))
        block = next(block.name for block in self.day.blocks if any(ride.name == name for ride in block.rides))
        told = self.browser.text("#tip")
        for words in (name, f"block {block}", "layover 4 minutes", "to passengers: to Terminal", "published", "service weekday"):
            self.assertIn(words, told)

    def test_wheel(self) -> None:
        """The wheel with Ctrl makes the hours wider, and what is below the pointer stays there."""
        self.open(400)
        bar, wide = self.bar(self.browser.run(MIDDLE)), self.box(".sheet")["width"]
        before = self.box(bar)
        turn = """const [bar, x] = [document.querySelector(arguments[0]), arguments[1]];
          bar.dispatchEvent(new WheelEvent('wheel', { deltaY: -300, ctrlKey: true, clientX: x, bubbles: true, cancelable: true }));"""
        self.browser.run(turn, bar, before["left"])
        self.assertAlmostEqual(self.box(".sheet")["width"] / wide, 2.718, delta=0.05)
        self.assertAlmostEqual(self.box(bar)["left"], before["left"], delta=2)

    def test_fingers(self) -> None:
        """Two fingers make the hours as much wider as they move apart, though the bars below them are drawn anew, and narrower again."""
        self.open(400)
        wide, middle = self.box(".sheet")["width"], self.browser.run(MIDDLE)
        for apart, until, times in ((40, 200, 5), (200, 104, 2.6)):
            self.browser.pinch(self.bar(middle), apart, until)
            self.assertAlmostEqual(self.box(".sheet")["width"] / wide, times, delta=0.3)
        self.assertEqual(self.browser.errors(), [])

    def test_without_colour(self) -> None:
        """Lines have marks that differ without colour, and hatching, dashes and lines tell the other bars."""
        self.open(400)
        marks = self.browser.run("""return [...document.querySelectorAll('#legend svg')].slice(0, 7).map((sample) => {
          const mark = sample.querySelector('.mark');
          return mark ? mark.getAttribute('y1') + mark.getAttribute('stroke-dasharray') : 'none'; })""")
        self.assertEqual(len(set(marks)), 7)
        self.assertEqual(self.browser.texts("#legend span")[-4:], ["layover", "empty running", "from and to the depot", "waiting"])
        falls = self.browser.run("""return ['.empty .hatch path', '.out .hatch path', '.home .hatch path']
          .map((kind) => document.querySelector(kind).getAttribute('d').match(/^M\\S+ (\\S+)L/)[1] === '0')""")
        self.assertEqual(falls, [False, True, True])

    def test_contrast(self) -> None:
        """All texts stand out from what is behind them."""
        self.open(400)
        for tab in ("Vehicles", "Terminals", "Blocks"):
            self.browser.click(f"#tab-{tab}")
            self.assertEqual(self.browser.run(CONTRASTS, LEAST_CONTRAST), [], tab)

    def test_reach(self) -> None:
        """The Tab key reaches all that can be used, in the order in which it stands."""
        self.open(400)
        wanted = self.browser.run(REACHABLE)
        reached: list[str] = []
        for _ in range(len(wanted) + 3):
            self.browser.keys("Tab")
            focused = self.browser.run(FOCUSED)
            if focused is None or focused in reached:
                break
            reached.append(focused)
        self.assertEqual([name for name in wanted if name not in reached], [])
        self.assertEqual([name for name in reached if name in wanted], wanted)

    def test_roles(self) -> None:
        """Tabs, panels, rows and fields say what they are."""
        self.open(400)
        self.assertEqual(self.browser.texts('[role="tab"]'), ["Vehicles", "Terminals", "Blocks"])
        self.browser.run("document.getElementById('tab-Vehicles').focus()")
        self.browser.keys("ArrowRight")
        self.assertEqual(self.browser.run("return document.querySelector('[aria-selected=\"true\"]').id"), "tab-Terminals")
        panels = self.browser.run("return [...document.querySelectorAll('[role=tabpanel]:not([hidden])')].map((one) => one.id)")
        self.assertEqual(panels, ["panel-Terminals"])
        nameless = self.browser.run("""return [...document.querySelectorAll('input, select, button')]
          .filter((one) => !one.labels?.length && !one.getAttribute('aria-label') && !one.textContent.trim())
          .map((one) => one.outerHTML)""")
        self.assertEqual(nameless, [])
        self.assertTrue(all(self.labels(".bar")))
        self.assertEqual(self.labels(".bar:not([role])"), [])

    def test_table(self) -> None:
        """The table is sorted by its headings, and leads to the vehicles."""
        self.open(400)
        self.browser.click("#tab-Blocks")
        self.browser.click("thead th:nth-child(2) button")
        trips = [int(text) for text in self.browser.texts("table.blocks tbody td:nth-child(2)")]
        self.assertEqual(trips, sorted(len(block.rides) for block in self.day.blocks))
        self.browser.click("thead th:nth-child(2) button")
        self.assertEqual([int(text) for text in self.browser.texts("table.blocks tbody td:nth-child(2)")], trips[::-1])
        name = self.browser.text("table.blocks tbody th button")
        self.browser.click("table.blocks tbody th button")
        self.assertIn(f"block {name}", self.browser.run("return document.activeElement.getAttribute('aria-label')"))

    def test_paper(self) -> None:
        """On A4 and on A3 each page has the title and, above drawings, the hours. The 80 vehicles take seven sheets of A4."""
        self.open(600)
        pages = []
        for width, height in ((21.0, 29.7), (29.7, 42.0)):
            paper = self.browser.printed(width, height)
            self.assertTrue(paper.startswith(b"%PDF"))
            pages.append(len(re.findall(rb"/Type\s*/Page\b(?!s)", paper)))
        self.assertEqual((len(self.day.blocks), pages[0]), (80, 7))
        self.assertGreater(pages[0], pages[1])
        self.assertGreaterEqual(pages[1], 3)
        heads = self.browser.texts("#paper thead")
        self.assertEqual(len(heads), 3)
        for head in heads:
            self.assertIn("made town, all services: ", head)
        self.assertTrue(all("07:0008:00" in head for head in heads[:2]))
        rows = self.browser.texts("#paper .sheet-of-paper:nth-of-type(1) tbody th")
        self.assertEqual(rows, [block.name for block in self.day.blocks])
        beside = self.browser.texts("#paper .numbers-of-paper tbody tr:first-child td")
        self.assertEqual([text for text in beside if text.startswith("B")], ["B1", "B2"])
        self.assertEqual(len(self.browser.texts("#paper .numbers-of-paper tbody tr")), -(-len(rows) // 2))

    def test_paper_of_a_vehicle(self) -> None:
        """The paper of few vehicles has the times of their trips; pages have their numbers."""
        self.open(400)
        block = next(block for block in self.day.blocks if len(block.rides) > 4 and block.name not in ("B1", "B2"))
        self.browser.type("#filter-block", block.name)
        self.browser.run("dispatchEvent(new Event('beforeprint'))")
        times = self.browser.texts("#paper .paper-time")
        rows = self.browser.texts("#paper .sheet-of-paper:nth-of-type(1) tbody th")
        shown = [shown for shown in self.day.blocks if shown.name in rows]
        self.assertIn(block, shown)
        for ride in (ride for one in shown for ride in one.rides):
            self.assertTrue({f"{ride.departs // 60:02}:{ride.departs % 60:02}", f":{ride.departs % 60:02}"} & set(times), ride)
        page = self.browser.run("""return [...document.styleSheets].flatMap((sheet) => [...sheet.cssRules])
          .flatMap((rule) => [...(rule.cssRules ?? [])]).find((rule) => rule instanceof CSSPageRule).cssText""")
        self.assertIn("counter(page)", page)

    def test_times_on_paper_are_apart(self) -> None:
        """Where a trip leaves in the minute in which the one before it arrives, their times stand apart on paper."""
        self.day = made_day(40)
        view = as_view(self.day)
        follows = [(before, after) for block in view["blocks"] for (before, _), (after, empty) in pairwise(block["rides"]) if not empty]
        for before, after in follows:
            view["trips"][before]["arrives"] = view["trips"][before]["ends"] = view["trips"][after]["departs"]
        path = self.room / "follows.html"
        path.write_text(static_page(as_text(view)))
        self.browser.open(path.as_uri())
        self.choose("#filter-block", view["blocks"][0]["name"])
        self.browser.command("Emulation.setEmulatedMedia", media="print")
        self.browser.resize(1060, 800)
        self.browser.run("dispatchEvent(new Event('beforeprint'))")
        gaps = self.browser.run("""return [...document.querySelectorAll('#paper .sheet-of-paper:nth-of-type(1) tbody tr')].flatMap((row) => {
          const boxes = [...row.querySelectorAll('.paper-time')].map((one) => one.getBoundingClientRect());
          return boxes.sort((one, other) => one.left - other.left).slice(1).map((box, at) => box.left - boxes[at].right); })""")
        self.assertGreater(len(gaps), 2)
        self.assertGreater(min(gaps), 1)


class ServedTest(BrowserTest):
    """A test of the page of `desk open`."""

    def serve(self, town: Path, planner: str | None = None) -> None:
        """Opens the page of a town, for a planner where one is named."""
        self.town = town
        self.server = self.serve_page(Session(self.town, planner))
        self.browser.open(self.server.address)

    def serve_example(self, name: str) -> None:
        """Opens the page of a copy of an example."""
        shutil.copytree(ROOT / "examples" / name, self.room / name, ignore=shutil.ignore_patterns("expected"))
        self.serve(self.room / name)

    def script(self) -> str:
        path: Path = self.town / "edits.csv"
        return path.read_text() if path.exists() else ""

    def wait_for(self, words: str) -> str:
        """Waits until the page says that an edit was done, or was refused, and gives what it says."""
        said = "return [...document.querySelectorAll('#said, #refusal:not([hidden])')].map((box) => box.textContent).join()"
        return self.browser.wait(lambda: (text := self.browser.run(said)) if words in self.browser.run(said) else "")


@needs_browser
@needs_program
class OpenTest(ServedTest):
    """The page of an example, beside the program's text and the script."""

    def setUp(self) -> None:
        super().setUp()
        self.serve_example("small_town")

    def test_from_the_file_that_is_handed_over(self) -> None:
        """The file that `--browser` hands over leads to the page, which works as from its address."""
        self.browser.open(handed_over(self.server.address, self.room).as_uri())
        self.assertEqual(self.browser.run("return location.href"), self.server.address)
        self.assertEqual(len(self.browser.texts("#numbers dd")), 3)
        self.assertEqual(self.browser.errors(), [])

    def test_boards_are_drawn_in_their_style(self) -> None:
        """The policy of the page lets its own style through."""
        for command in ("blocks", "joined"):
            run([command, self.town])
        path = self.room / "boards.html"
        self.assertEqual(self.desk("boards", self.town, "-o", path)[0], 0)
        self.browser.visit(path.as_uri())
        self.assertEqual(self.browser.run("return getComputedStyle(document.querySelector('td.time')).whiteSpace"), "nowrap")
        self.assertEqual(self.browser.errors(), [])

    def test_as_the_program_says(self) -> None:
        """Numbers, blocks, trips and deficits of the page are those of the program."""
        blocks = run(["blocks", self.town]).text.decode()
        fixed, vehicles, minutes = re.findall(r"\d+", blocks)
        self.assertEqual(self.browser.texts("#numbers dd"), [vehicles, minutes, fixed])
        self.assertIn(run(["check", self.town]).text.decode().strip(), self.browser.text("#run"))
        drawn = self.browser.run("""return [...document.querySelectorAll('#panel-Vehicles .sheet > g')].map((row) =>
          [row.getAttribute('aria-label'), [...row.querySelectorAll('.trip')].map((trip) => trip.dataset.trip)])""")
        self.assertEqual(drawn, [[f"block {block.name}", list(block.trips)] for block in read_blocks(self.town / "blocks.csv")])
        for trip, departs, ends in re.findall(r"(\S+) (\d\d:\d\d) (\d\d:\d\d)", run(["fixed", self.town]).text.decode()):
            label, = self.labels(self.bar(trip))
            self.assertIn(f" {departs} ", label)
            self.assertIn(ends, label)
        self.browser.click("#tab-Terminals")
        told = self.labels("#panel-Terminals .sheet > g")
        said = re.findall(r"(.+) max (\d+) at (\d+:\d+)", run(["deficits", self.town]).text.decode())
        self.assertEqual(told, [f"{name}: maximum {most} at {at}" for name, most, at in said])
        self.assertEqual(self.browser.errors(), [])

    def test_drag_and_undo(self) -> None:
        """A drag within the tolerance is one record; undo and redo are records too; each says what it changes."""
        trip = self.bar("wd_2_o_0735")
        self.browser.hold(trip, 400)
        self.assertIn("wd_2_o_0735 +10", self.browser.text("#tip"))
        self.browser.let_go()
        self.assertIn("the numbers are as before", self.wait_for("shift wd_2_o_0735 +10: "))
        self.assertEqual(self.script(), "shift,wd_2_o_0735,+10\n")
        self.assertIn("shifted by +10 minutes", self.labels(trip)[0])
        self.assertEqual(self.names(".bar.changed"), ["wd_2_o_0735"])
        self.browser.keys("Control+z")
        self.wait_for("undo: ")
        self.browser.click("#redo")
        self.wait_for("redo: ")
        self.assertEqual(self.script(), "shift,wd_2_o_0735,+10\nundo\nredo\n")
        self.assertEqual(self.browser.errors(), [])

    def test_rows_that_stay(self) -> None:
        """An edit draws the rows anew that it changes, and no others; a zoom draws all."""
        self.browser.click(self.bar("wd_2_o_0735"))
        block = self.browser.run("return document.activeElement.parentNode.getAttribute('aria-label')")
        self.drawn_anew()
        for keys, words in ((("Shift+ArrowRight", "Enter"), "shift wd_2_o_0735 +1: "), (("Control+z",), "undo: ")):
            self.assertEqual(self.drawn_anew(), [])
            self.browser.keys(*keys)
            self.wait_for(words)
            self.assertEqual(self.drawn_anew(), [block])
        self.browser.click("#zoom-in")
        self.assertEqual(len(self.drawn_anew()), 11)

    def drawn_anew(self) -> list[str]:
        """The rows that were drawn since this was asked last."""
        return self.browser.run("""const fresh = [...document.querySelectorAll('#panel-Vehicles .sheet > g')].filter((row) => !row.isKnown);
          fresh.forEach((row) => { row.isKnown = true; });
          return fresh.map((row) => row.getAttribute('aria-label'))""")

    def test_no_trips(self) -> None:
        """A day without trips has neither tick nor cross, and says which dates have trips. When that is mended the tick is back."""
        good = (self.town / "desk.toml").read_text()
        self.browser.wait(lambda: self.browser.text("#verdict").startswith("✓ No plan has fewer vehicles"))
        (self.town / "desk.toml").write_text(good.replace("20260907", "20260831"))
        self.wait_for("The folder has changed")
        words = self.browser.text("#verdict")
        self.assertIn("Trips run on 20260901 (Tuesday, 188 trips)", words)
        self.assertTrue(words.startswith("No trip runs."), words)
        self.assertEqual((self.browser.texts("#verdict .yes, #verdict .no"), self.names(".bar")), ([], []))
        (self.town / "desk.toml").write_text(good)
        self.browser.wait(lambda: self.browser.text("#verdict").startswith("✓ "))
        self.assertEqual(self.browser.errors(), [])

    def test_keys_and_cancel(self) -> None:
        """Keys shift and cancel the trip with the focus, which keeps it; the numbers say by how much."""
        self.browser.click(self.bar("wd_1_o_0740"))
        self.browser.keys("Shift+ArrowRight", "Shift+ArrowRight", "Shift+ArrowLeft", "Escape")
        self.assertEqual(self.script(), "")
        self.browser.keys("Shift+ArrowLeft", "Enter")
        self.wait_for("shift wd_1_o_0740 -1: ")
        self.assertEqual(self.browser.run(FOCUSED), "wd_1_o_0740")
        self.browser.keys("Delete")
        self.wait_for("cancel wd_1_o_0740: ")
        self.assertEqual(self.script(), "shift,wd_1_o_0740,-1\ncancel,wd_1_o_0740\n")
        self.browser.click("#tab-Edits")
        self.assertEqual(self.browser.texts("#records code"), ["shift,wd_1_o_0740,-1", "cancel,wd_1_o_0740"])
        self.browser.click("#cancelled button")
        self.wait_for("restore wd_1_o_0740: ")
        self.assertEqual(self.browser.errors(), [])

    def test_refused(self) -> None:
        """The program's words for a refused edit stand where the hand is, and the script stays."""
        self.browser.click(self.bar("sc_S_o_0825"))
        self.browser.type("#shift-minutes", "7")
        self.browser.keys("Enter")
        self.assertIn("record 1: refused, sc_S_o_0825: outside tolerance (+7)", self.wait_for("refused"))
        words, field = self.box("#refusal"), self.box("#shift-minutes")
        self.assertLess(abs(words["top"] - field["bottom"]), 150)
        self.assertEqual(self.script(), "")
        self.browser.click("#refusal button")
        self.assertEqual(self.browser.run(FOCUSED), "shift-minutes")
        self.browser.hold(self.bar("sc_S_o_0745"), 90)
        self.assertIn("allow nothing", self.browser.text("#tip"))
        self.browser.let_go()
        self.assertEqual(self.script(), "")

    def test_panel(self) -> None:
        """What stands beside the vehicles can be closed; in a small window it comes with the trip that is touched."""
        self.assertGreater(self.box("#side")["width"], 0)
        wide = self.box("#panel-Vehicles .frame")["width"]
        self.browser.click("#side .close")
        self.assertGreater(self.box("#panel-Vehicles .frame")["width"], wide + 200)
        self.browser.resize(390, 844)
        self.browser.wait(lambda: self.browser.run("return document.getElementById('legend').hidden"))
        self.browser.tap(self.bar("wd_1_o_0740"))
        self.assertIn("wd_1_o_0740", self.browser.text("#side h2"))
        self.assertGreater(self.box("#panel-Vehicles .frame")["height"], 844 * 0.4)
        self.browser.click("#side form button")
        self.wait_for("shift wd_1_o_0740")
        self.assertLess(self.box("#said")["bottom"], self.box("#side")["top"])
        self.browser.click("#side .close")
        self.assertEqual(self.box("#side")["height"], 0)
        self.assertEqual(self.browser.errors(), [])

    def test_mended(self) -> None:
        """What makes the feed unreadable is told with its hint, and goes when it is mended."""
        good = (self.town / "desk.toml").read_text()
        (self.town / "desk.toml").write_text(good.replace("layover = 5", "layover = -5"))
        self.browser.wait(lambda: "feed refused: desk.toml: bad layover" in self.browser.text("#refusal"))
        self.assertIn("layover", self.browser.text("#refusal p"))
        (self.town / "desk.toml").write_text(good)
        self.browser.wait(lambda: self.browser.run("return document.getElementById('refusal').hidden"))
        self.browser.click(self.bar("sc_S_o_0825"))
        self.browser.type("#shift-minutes", "7")
        self.browser.keys("Enter")
        self.wait_for("outside tolerance (+7)")
        self.assertIn("Write a smaller shift", self.browser.text("#refusal p"))
        (self.town / "tolerances.csv").unlink()
        self.wait_for("The folder has changed")
        self.assertTrue(self.browser.run("return document.getElementById('refusal').hidden"))

    def test_changed_folder(self) -> None:
        """What another program writes into the folder is seen without a hand."""
        (self.town / "edits.csv").write_text("cancel,sc_S_o_0825\n")
        self.wait_for("The folder has changed")
        self.browser.wait(lambda: not self.browser.run("return !!document.querySelector(arguments[0])", self.bar("sc_S_o_0825")))
        self.browser.click("#tab-Edits")
        self.assertIn("record 1: ok", self.browser.text("#records"))

    def test_suggestions_and_files(self) -> None:
        """Suggestions, keeping and writing say what the program says."""
        self.browser.click("#tab-Edits")
        self.browser.click("#suggest-audit")
        self.browser.wait(lambda: "12 vehicles, 0 empty minutes; 1 vehicle above the least" in self.browser.text("#suggested"))
        self.browser.click("#export-blocks")
        self.browser.wait(lambda: "fixed 11, vehicles 11, minutes 0" in self.browser.text("#answered"))
        self.assertTrue((self.town / "prices.csv").is_file())
        self.browser.click("#keep")
        self.browser.wait(lambda: "kept 0 records" in self.browser.text("#answered"))
        self.assertEqual(self.browser.run(CONTRASTS, LEAST_CONTRAST), [])
        self.assertEqual(self.browser.errors(), [])


@needs_browser
@needs_program
class NamesTest(ServedTest):
    """The page of a town whose blocks keep the names of the feed."""

    def rows(self) -> list[str]:
        """The names of the rows, from above."""
        return [name.removeprefix("block ") for name in self.labels("#panel-Vehicles .sheet > g")]

    def test_names_that_stay(self) -> None:
        """Rows have the stated names, after an edit too, and go by them, new ones last. Trips are counted by neighbours and by names."""
        shutil.copytree(ROOT / "examples" / "small_town", self.room / "named", ignore=shutil.ignore_patterns("expected"))
        toml = self.room / "named" / "desk.toml"
        toml.write_text('block_names = "stated"\n' + toml.read_text())
        self.serve(self.room / "named")
        self.assertEqual(self.rows(), ["1.1", "1.2", "1.3", "1.4", "2.1", "2.2", "3.1", "2.3", "S.1", "S.2", "S.3"])
        self.browser.click(self.bar("wd_2_o_0735"))
        self.browser.keys("Delete")
        said = self.wait_for("cancel wd_2_o_0735: ")
        self.assertIn("vehicles 11 → 12", said)
        self.assertIn("Marked: 3 trips. In another block: 2 by neighbours, 2 by names.", said)
        self.assertEqual(sorted(self.names(".bar.changed")), ["wd_2_i_0640", "wd_2_i_0810", "wd_2_o_0605"])
        run(["blocks", self.town])
        self.assertEqual(self.rows(), [block.name for block in read_blocks(self.town / "blocks.csv")])
        self.choose("#sort", "name, kept ones first")
        self.assertEqual(self.rows(), ["1.1", "1.2", "1.3", "1.4", "2.1", "2.2", "2.3", "3.1", "S.1", "S.2", "S.3", "V1"])
        self.assertEqual(self.browser.errors(), [])


@needs_browser
@needs_program
class PlannerTest(ServedTest):
    """The page of a planner."""

    def test_boards_write_and_keep(self) -> None:
        """A planner's page writes boards and feed by the edits that stand. Keep takes these into the script, and empties their file."""
        shutil.copytree(ROOT / "examples" / "small_town", self.room / "town", ignore=shutil.ignore_patterns("expected"))
        self.serve(self.room / "town", "ann")
        self.assertIn("planner ann", self.browser.text("#date"))
        self.browser.click(self.bar("wd_2_o_0735"))
        self.browser.keys("Shift+ArrowRight", "Enter")
        self.wait_for("shift wd_2_o_0735 +1: ")
        self.browser.click("#tab-Edits")
        for what, file, record in (("boards", "boards.csv", ",trip,wd_2_o_0735,Station,07:36,"),
                                   ("feed", "stop_times_blocks.txt", "wd_2_o_0735,07:36:00,07:36:00,")):
            self.browser.click(f"#export-{what}")
            self.browser.wait(lambda file=file: (self.town / file).is_file() and self.browser.text("#answered"))
            self.assertIn(record, (self.town / file).read_text())
        planned = self.town / "planner_edits.csv"
        self.assertEqual((self.script(), planned.read_text()), ("", "ann,shift,wd_2_o_0735,+1\n"))
        self.browser.click("#keep")
        self.browser.wait(lambda: "kept 1 records" in self.browser.text("#answered"))
        self.assertIn("took 1 record into", self.browser.text("#answered"))
        self.assertEqual((self.script(), planned.read_text()), ("shift,wd_2_o_0735,+1\n", ""))
        self.assertEqual(self.browser.errors(), [])


@needs_browser
@needs_program
class HandTest(ServedTest):
    """After an edit the hand is on the trip that was chosen, wherever that went."""

    def test_small_town(self) -> None:
        """Half of the edits of this class, on a day with lines of its own."""
        self.serve_example("small_town")
        self.check_hand(1)

    def test_many_ties(self) -> None:
        """Half of them on a day where most edits put trips into other blocks."""
        self.serve(many_ties(self.room / "ties"))
        self.check_hand(2)

    def check_hand(self, seed: int) -> None:
        """Random shifts, cancels and undos by keys. Each key edits the trip that was chosen, or nothing."""
        draw, chosen, edited = random.Random(seed), "", 0
        for number in range(HALF):
            if not chosen or draw.random() < 0.3:
                chosen = draw.choice(self.names(".sheet .bar.trip"))
                self.browser.click(self.bar(chosen))
            keys, record = draw.choice((
                (("Shift+ArrowRight", "Enter"), f"shift,{chosen},+1\n"), (("Shift+ArrowLeft", "Enter"), f"shift,{chosen},-1\n"),
                (("Delete",), f"cancel,{chosen}\n"), (("Control+z",), "undo\n")))
            before = self.script()
            self.browser.keys(*keys)
            self.browser.wait(lambda: self.browser.run("return !document.body.classList.contains('busy')"))
            fresh = self.script().removeprefix(before)
            self.assertIn(fresh, ("", record), f"edit {number}")
            edited += fresh != ""
            self.check_chosen(chosen, f"edit {number}: {keys}")
        self.assertGreater(edited, HALF // 3)
        self.assertEqual(self.browser.errors(), [])

    def test_elsewhere(self) -> None:
        """A trip that is restored on another tab, or comes back by a button, is chosen and in view; what is focused stays."""
        self.serve(many_ties(self.room / "ties"))
        last = self.server.session.day()["day"]["blocks"][-1]["rides"][0][0]
        trip = self.server.session.day()["day"]["trips"][last]["id"]
        self.browser.type("#search", trip)
        self.browser.keys("Enter", "Shift+ArrowRight", "Enter")
        self.wait_for(f"shift {trip} +1: ")
        self.browser.keys("Delete")
        self.wait_for(f"cancel {trip}: ")
        self.browser.run("document.querySelector('#panel-Vehicles .frame').scrollTop = 0")
        self.browser.click("#undo")
        self.wait_for("undo: ")
        self.assertEqual(self.browser.run(FOCUSED), "undo")
        self.check_in_view(trip)
        self.browser.keys("Enter")
        self.browser.wait(lambda: self.script().endswith("undo\nundo\n") and self.browser.run(FOCUSED) == trip)
        self.browser.click("#redo")
        self.wait_for("redo: ")
        self.browser.click("#redo")
        self.browser.wait(lambda: self.script().endswith("redo\nredo\n"))
        self.wait_for("redo: ")
        self.assertIn("Choose a trip", self.browser.text("#side"))
        self.browser.run("document.querySelector('#panel-Vehicles .frame').scrollTop = 0")
        self.browser.click("#tab-Edits")
        self.browser.click("#cancelled button")
        self.wait_for(f"restore {trip}: ")
        self.assertIn(trip, self.browser.text("#side h2"))
        self.browser.click("#tab-Vehicles")
        self.check_in_view(trip)
        self.assertEqual(self.browser.errors(), [])

    def check_in_view(self, trip: str) -> None:
        """A trip is in view among the vehicles."""
        box, frame = self.box(self.bar(trip)), self.box("#panel-Vehicles .frame")
        self.assertTrue(frame["top"] <= box["top"] and box["bottom"] <= frame["bottom"])

    def check_chosen(self, trip: str, edit: str) -> None:
        """The focus, the selection and what stands beside the vehicles are of this trip, which is in view; of none where it does not run."""
        runs = self.browser.run("return !!document.querySelector(arguments[0])", self.bar(trip))
        self.assertEqual(self.browser.run(FOCUSED), trip if runs else None, edit)
        self.assertIn(trip if runs else "Choose a trip", self.browser.text("#side"), edit)
        if runs:
            self.check_in_view(trip)


@needs_browser
@needs_program
class ColourTest(ServedTest):
    """The colours of lines."""

    def fills(self) -> dict[str, str]:
        """The colour of each line."""
        found = self.browser.run("""return [...document.querySelectorAll('#legend span')].filter((one) => one.querySelector('rect[rx]'))
          .map((one) => [one.textContent, one.querySelector('rect').getAttribute('fill')])""")
        return dict(found)

    def test_colours(self) -> None:
        """A line has its `route_color` where that is one and is told from white and from the others; no edit changes a colour."""
        town = self.room / "small_town"
        shutil.copytree(ROOT / "examples" / "small_town", town, ignore=shutil.ignore_patterns("expected"))
        (town / "routes.txt").write_text(table("route_id,route_short_name,route_color", [
            ("line_1", "1", "D32F2F"), ("line_2", "2", "d3302f"), ("line_3", "3", "0B3D91"), ("line_S", "S", "FFFFFF"), ("line_N1", "N1", "")]))
        self.serve(town)
        before = self.fills()
        self.assertEqual((before["1"], before["3"]), ("#d32f2f", "#0b3d91"))
        self.assertEqual(len(set(before.values())), len(before))
        self.assertFalse({"#ffffff", "#d3302f"} & set(before.values()))
        self.assertEqual(self.browser.run(CONTRASTS, LEAST_CONTRAST), [])
        self.browser.click("#tab-Edits")
        for field, value in (("trip", "E1"), ("departs", "10:00"), ("arrives", "10:20")):
            self.browser.type(f"#extra [name={field}]", value)
        self.choose("#extra [name=to]", "Hospital")
        self.browser.click("#extra button")
        self.wait_for("extra E1: ")
        after = self.fills()
        self.assertEqual({line: after[line] for line in before}, before)
        self.assertNotIn(after["extra trip"], before.values())
        self.assertEqual(self.browser.errors(), [])


@needs_browser
@needs_program
class SuggestionTest(ServedTest):
    """Suggestions of the program, which are offered where they help, and tried by a click."""

    def try_first(self, word: str, told: str) -> str:
        """Asks for suggestions, tries the first one, which tells of itself so, and gives what the page says."""
        self.browser.click("#tab-Edits")
        self.browser.click(f"#suggest-{word}")
        self.browser.wait(lambda: told in self.browser.text("#suggested"))
        self.browser.click("#suggested button")
        return self.wait_for("Marked: ")

    def test_shift(self) -> None:
        """Two trips miss each other by a minute, and a shift saves the second vehicle."""
        times = [("V1", 1, "06:00:00", "A"), ("V1", 2, "06:30:00", "B"), ("V2", 1, "06:29:00", "B"), ("V2", 2, "06:59:00", "A")]
        self.serve(write_feed(self.room / "two", {
            "desk.toml": "late = 1\n", "trips.txt": "service_id,trip_id\nW,V1\nW,V2\n",
            "stop_times.txt": table("trip_id,stop_sequence,arrival_time,departure_time,stop_id",
                                    [(trip, number, time, time, stop) for trip, number, time, stop in times])}))
        self.assertIn("vehicles 2 → 1", self.try_first("shifts", "V2 by +1: vehicles 2 → 1, empty minutes 0 as before"))
        self.assertEqual(self.script(), "shift,V2,+1\n")
        self.assertEqual(self.browser.errors(), [])

    def test_chain(self) -> None:
        """A chain of deadheads that the plan has already is not offered, and the page says so."""
        self.serve_example("depot")
        self.browser.click("#tab-Edits")
        self.browser.click("#suggest-chains")
        self.browser.wait(lambda: "1 chain is not offered: this plan would not be better." in self.browser.text("#suggested"))
        self.assertEqual((self.names("#suggested button"), self.browser.errors()), ([], []))
