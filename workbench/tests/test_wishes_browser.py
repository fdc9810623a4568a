"""Wishes in a browser: a trip is put on another bus by mouse, keys and touch, and each wish has its cost and a way back."""
from __future__ import annotations

from pathlib import Path
from unittest import mock

from desk.open.session import Session
from desk.pair_rules import FILE
from tests.browser import needs_browser
from tests.feeds import needs_program, write_feed
from tests.test_browser import CONTRASTS, FOCUSED, LEAST_CONTRAST, ServedTest
from tests.test_rules import PAIRS, crossing

ROW = 38
"""How high a row is in which all is drawn."""

COSTLY = "No vehicle more, 12 empty minutes more, and no plan with this wish has fewer."


@needs_browser
@needs_program
class WishTest(ServedTest):
    """The page of four trips: P1 then Q1 is B1, and P2 then Q2 is B2. Each other way to Q1 and Q2 is 12 empty minutes."""

    def open(self, records: str | None = None, planner: str | None = None, **files: str) -> Path:
        """Opens the town with these records in its `pairs.csv`, and gives that file."""
        town = write_feed(crossing(self.room / "town"), files if records is None else {FILE: PAIRS + records, **files})
        self.serve(town, planner)
        return town / FILE

    def rows(self) -> list[list[str]]:
        """The trips of each row, from above."""
        return self.browser.run("""return [...document.querySelectorAll('#panel-Vehicles .sheet > g')].map((row) =>
          [...row.querySelectorAll('.trip')].map((trip) => trip.dataset.trip))""")

    def is_open(self) -> bool:
        """Whether a wish is offered."""
        return not self.browser.run("return document.getElementById('wish').hidden")

    def wait_for_offer(self) -> str:
        """Waits until a wish is offered, whose taking has the focus, and gives what is said of it."""
        self.browser.wait(self.is_open)
        self.assertEqual(self.browser.run(FOCUSED), "wish-take")
        return self.browser.text("#wish")

    def wait_for_refusal(self) -> str:
        """Waits until a wish is refused, and gives what is said of it."""
        self.browser.wait(lambda: not self.browser.run("return document.getElementById('refusal').hidden"))
        self.assertFalse(self.is_open())
        return self.browser.text("#refusal")

    def test_a_drag_scrolls(self) -> None:
        """A drag to the lower end of the rows in view brings the next one."""
        self.open()
        self.browser.resize(900, 215)
        frame = "#panel-Vehicles .frame"
        self.browser.wait(lambda: self.box(frame)["height"] < 140)
        room = self.box(frame)["bottom"] - self.box(self.bar("P1"))["top"] - 9
        self.assertLess(room, 2 * ROW)
        self.browser.hold(self.bar("P1"), 0, round(room - 3))
        self.assertGreater(self.browser.run("return document.querySelector(arguments[0]).scrollTop", frame), 0)
        self.assertIn("P1 on block B2", self.browser.text("#tip"))
        self.browser.let_go()
        self.assertIn("P1 before Q2 on B2", self.wait_for_offer())

    def tab_to(self, element: str) -> None:
        """Presses Tab until an element of the side has the focus."""
        for _ in range(12):
            self.browser.keys("Tab")
            if self.browser.run(FOCUSED) == element:
                return
        self.fail(f"the Tab key does not reach {element}")

    def test_mouse(self) -> None:
        """A bar that is dragged to another row asks what that bus costs. Only when that is taken it is a record, and undo leaves it."""
        path = self.open()
        self.browser.hold(self.bar("Q2"), 6, -ROW)
        self.assertIn("Q2 on block B1", self.browser.text("#tip"))
        mark, row = self.box(".target .place-of-trip"), self.box('.sheet [aria-label="block B1"] .trip')
        self.assertLess(abs(mark["top"] - row["top"]), 4)
        self.browser.let_go()
        said = self.wait_for_offer()
        self.assertTrue(said.startswith(f"Q2 after P1 on B1{COSTLY}pairs.csv: P1,Q2,keep"), said)
        self.assertEqual((self.browser.texts(".target"), self.browser.run(CONTRASTS, LEAST_CONTRAST)), ([], []))
        self.browser.click("#wish-leave")
        self.assertEqual((self.is_open(), self.browser.run(FOCUSED), path.exists()), (False, "Q2", False))
        self.browser.hold(self.bar("Q2"), -5, -ROW)
        self.browser.let_go()
        self.wait_for_offer()
        self.browser.click("#wish-take")
        self.assertIn("empty minutes 0 → 12", self.wait_for("Q2 after P1 on B1: "))
        self.assertEqual((path.read_text(), self.rows(), self.browser.run(FOCUSED)), (PAIRS + "P1,Q2,keep\n", [["P1", "Q2"], ["P2", "Q1"]], "Q2"))
        self.browser.keys("Delete")
        self.wait_for("cancel Q2: ")
        self.browser.keys("Control+z")
        self.wait_for("undo: ")
        self.assertEqual((path.read_text(), self.rows(), self.script()), (PAIRS + "P1,Q2,keep\n", [["P1", "Q2"], ["P2", "Q1"]], "cancel,Q2\nundo\n"))
        self.assertEqual(self.browser.errors(), [])

    def test_a_drag_to_the_side(self) -> None:
        """A drag that goes more to the side than up is a shift as ever, and one that ends in its own row is nothing."""
        self.open(**{"tolerances.csv": "trip_id,early,late\nQ2,0,60\n"})
        self.browser.hold(self.bar("Q2"), 60, -ROW)
        self.assertIn("Q2 +", self.browser.text("#tip"))
        self.assertEqual(self.browser.texts(".target"), [])
        self.browser.let_go()
        self.assertIn("the numbers are as before", self.wait_for("shift Q2 +"))
        self.browser.hold(self.bar("Q1"), 0, 9)
        self.browser.let_go()
        self.browser.hold(self.bar("Q1"), 0, 9 * ROW)
        self.assertEqual(self.browser.texts(".target"), [])
        self.browser.let_go()
        self.assertEqual((self.is_open(), (self.town / FILE).exists()), (False, False))
        self.assertEqual(self.script().count("\n"), 1)
        self.assertEqual(self.browser.errors(), [])

    def test_keys(self) -> None:
        """By keys alone: a block is named, Escape leaves the wish where it was asked, Enter takes it, and each button is reached."""
        path = self.open()
        self.browser.click(self.bar("Q2"))
        self.tab_to("wish-block")
        self.browser.keys(*"B1", "Enter")
        self.assertIn(COSTLY, self.wait_for_offer())
        self.browser.keys("Escape")
        self.assertEqual((self.is_open(), self.browser.run(FOCUSED), path.exists()), (False, "wish-block", False))
        self.browser.keys("Enter")
        self.wait_for_offer()
        self.browser.keys("Enter")
        self.wait_for("Q2 after P1 on B1: ")
        self.assertEqual((path.read_text(), self.browser.run(FOCUSED)), (PAIRS + "P1,Q2,keep\n", "Q2"))
        for key, wish, records in ((("Home",), "wish-never", "P1,Q2,never\n"), ((), "wish-freeze", "P1,Q2,never\nP1,Q1,keep\n"),
                                   ((), "wish-thaw", "P1,Q2,never\n")):
            self.browser.keys(*key)
            self.tab_to(wish)
            self.browser.keys("Enter")
            self.wait_for_offer()
            self.browser.keys("Enter")
            self.browser.wait(lambda records=records: path.read_text() == PAIRS + records)
            self.browser.wait(lambda: self.browser.run(FOCUSED) == "P1")
        self.assertEqual(self.browser.errors(), [])

    def test_swap(self) -> None:
        """Two tails are swapped by mouse, and swapped back by keys: the first trip is remembered until the second is chosen."""
        path = self.open()
        self.browser.click(self.bar("P1"))
        self.browser.click("#wish-head")
        self.assertEqual(self.browser.run("return document.activeElement.getAttribute('aria-pressed')"), "true")
        self.browser.click(self.bar("Q1"))
        self.assertEqual(self.browser.texts("#wish-swap"), [])
        self.browser.click(self.bar("P2"))
        self.browser.click("#wish-swap")
        self.assertIn(f"Q2 after P1 and Q1 after P2{COSTLY}", self.wait_for_offer())
        self.browser.click("#wish-take")
        self.wait_for("Q2 after P1 and Q1 after P2: ")
        self.assertEqual((path.read_text(), self.rows()), (PAIRS + "P1,Q2,keep\nP2,Q1,keep\n", [["P1", "Q2"], ["P2", "Q1"]]))
        self.browser.run("document.querySelector(arguments[0]).focus()", self.bar("P1"))
        self.tab_to("wish-head")
        self.browser.keys("Enter")
        self.browser.run("document.querySelector(arguments[0]).focus()", self.bar("P1"))
        self.browser.keys("ArrowDown")
        self.tab_to("wish-swap")
        self.browser.keys("Enter")
        self.assertIn("In the way stands, and is taken back with it:P1 to Q2 keepP2 to Q1 keep", self.wait_for_offer())
        self.browser.keys("Enter")
        self.wait_for("Q1 after P1 and Q2 after P2: ")
        self.assertEqual((path.read_text(), self.rows()), (PAIRS + "P1,Q1,keep\nP2,Q2,keep\n", [["P1", "Q1"], ["P2", "Q2"]]))
        self.assertEqual(self.browser.errors(), [])

    def test_touch(self) -> None:
        """On a phone a trip that is touched has the same wishes, and the offer is inside the window."""
        path = self.open()
        self.browser.resize(390, 844)
        self.browser.wait(lambda: self.browser.run("return document.getElementById('legend').hidden"))
        self.browser.tap(self.bar("Q2"))
        self.browser.type("#wish-block", "B1")
        self.browser.tap("#side form:has(#wish-block) button")
        self.assertIn(COSTLY, self.wait_for_offer())
        box = self.box("#wish")
        self.assertTrue(box["left"] >= 0 and box["top"] >= 0 and box["right"] <= 390 and box["bottom"] <= 844, box)
        self.browser.tap("#wish-take")
        self.wait_for("Q2 after P1 on B1: ")
        self.assertEqual(path.read_text(), PAIRS + "P1,Q2,keep\n")
        for button, first, second in (("#wish-never", "P1", "P1,Q2,never\n"), ("#wish-freeze", "P2", "P1,Q2,never\nP2,Q2,keep\n"),
                                      ("#wish-thaw", "P2", "P1,Q2,never\n")):
            self.browser.tap(self.bar(first))
            self.browser.run("document.querySelector(arguments[0]).scrollIntoView()", button)
            self.browser.tap(button)
            self.wait_for_offer()
            self.browser.tap("#wish-take")
            self.browser.wait(lambda: not self.browser.run("return document.body.classList.contains('busy')"))
            self.assertEqual(path.read_text(), PAIRS + second)
        for trip, button in (("P1", "#wish-head"), ("P2", "#wish-swap")):
            self.browser.tap(self.bar(trip))
            self.browser.run("document.querySelector(arguments[0]).scrollIntoView()", button)
            self.browser.tap(button)
        self.assertIn("and", self.wait_for_offer())
        self.browser.tap("#wish-leave")
        self.assertEqual((self.is_open(), path.read_text()), (False, PAIRS + "P1,Q2,never\n"))
        self.assertEqual(self.browser.errors(), [])

    def test_what_cannot_be(self) -> None:
        """A pair that no vehicle makes is said in words where the hand is, and is not offered. So is a block that is not there."""
        path = self.open(**{"deadheads.csv": "from,to,minutes\nX,Y,35\n"})
        self.browser.drag(self.bar("Q2"), 0, -ROW)
        self.assertIn("Q2 after P1 on B1Q2 cannot follow on P1: a vehicle comes 5 minutes too late. Nothing was written.", self.wait_for_refusal())
        self.browser.click(self.bar("Q2"))
        self.browser.type("#wish-block", "B7")
        self.browser.keys("Enter")
        self.browser.wait(lambda: "no block is called B7" in self.browser.text("#refusal"))
        self.browser.click("#refusal button")
        self.assertEqual((self.browser.run(FOCUSED), path.exists()), ("wish-block", False))

    def test_what_changes_beneath(self) -> None:
        """An offer goes when another program changes the folder, and the records that this one wrote stand."""
        path = self.open()
        self.browser.drag(self.bar("Q2"), 0, -ROW)
        self.wait_for_offer()
        path.write_text(PAIRS + "P2,Q1,keep\n")
        self.wait_for("The folder has changed")
        self.assertFalse(self.is_open())
        self.browser.wait(lambda: self.rows() == [["P1", "Q2"], ["P2", "Q1"]])
        self.assertEqual(path.read_text(), PAIRS + "P2,Q1,keep\n")

    def test_list(self) -> None:
        """The list has each record, by hand too, with its cost and a way back; costs are asked while the list is looked at alone."""
        asked: list[object] = []
        cost = Session.cost
        with mock.patch.object(Session, "cost", lambda session, words: asked.append(words["without"]) or cost(session, words)):
            path = self.open('"P1",Q2,keep\nQ1,P1,never\nP2,Q9,keep\n')
            self.assertEqual(asked, [])
            self.browser.click("#tab-Wishes")
            self.browser.wait(lambda: len(asked) == 4 and ".." not in self.browser.text("#wishes"))
            self.assertEqual(asked, [[1, 2, 3], [1], [2], [3]])
            self.assertEqual(self.browser.texts("#wishes li"), [
                "P1 to Q2: kept together, costs 5 minutes, without it vehicles 3, minutes 0 Show Take back",
                "Q1 to P1: never one after the other, costs nothing Show Take back",
                "P2 to Q9: kept together (not in this plan), costs 1 vehicle, without it vehicles 2, minutes 12 Show Take back"])
            self.assertEqual(self.browser.text("#wishes-sum"), "With all wishes 3 vehicles, 5 empty minutes; with none 2 vehicles, 0 empty minutes.")
            self.assertIn("Undo takes back edits, and no wish", self.browser.text("#panel-Wishes"))
            self.assertEqual(self.browser.run(CONTRASTS, LEAST_CONTRAST), [])
            self.browser.click("#wishes li:nth-child(2) button:last-child")
            self.wait_for("without Q1 to P1 never: ")
            self.assertEqual(path.read_text(), PAIRS + '"P1",Q2,keep\nP2,Q9,keep\n')
            self.browser.wait(lambda: self.browser.run("return document.activeElement.getAttribute('aria-label')") == "take back P2 to Q9")
            self.browser.wait(lambda: len(asked) == 7)
            self.browser.click("#wishes li:first-child button")
            self.assertEqual(self.browser.run(FOCUSED), "P1")
            self.browser.keys("Delete")
            self.wait_for("cancel P1: ")
            self.assertEqual(len(asked), 7)
            self.browser.click("#tab-Wishes")
            self.browser.wait(lambda: len(asked) == 10)
        self.assertEqual(self.browser.errors(), [])

    def test_no_wish(self) -> None:
        """Without a wish the list says how one is made; when the last one is taken back, the header stays."""
        path = self.open("Q1,P1,never\n")
        self.browser.click("#tab-Wishes")
        self.browser.click("#wishes button:last-child")
        self.wait_for("without Q1 to P1 never: ")
        self.assertIn("There is no wish. Drag a trip", self.browser.text("#panel-Wishes"))
        self.assertEqual(path.read_text(), PAIRS)

    def test_planner(self) -> None:
        """A planner's page says that wishes are of the town, offers none, and a drag up is none."""
        self.open("P1,Q2,keep\n", "ann")
        self.browser.click(self.bar("Q2"))
        self.assertEqual(self.browser.texts("#wish-block, #wish-never, #wish-freeze"), [])
        self.browser.hold(self.bar("Q2"), 0, ROW)
        self.assertEqual(self.browser.texts(".target"), [])
        self.browser.let_go()
        self.browser.click("#tab-Wishes")
        self.assertIn("Wishes are of the town, and not of one planner", self.browser.text("#panel-Wishes"))
        self.assertEqual((self.is_open(), self.browser.errors()), (False, []))
