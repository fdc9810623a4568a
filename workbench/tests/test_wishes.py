"""Wishes in a session: the records that each gives, what the program says of it, and what is written into `pairs.csv`."""
from __future__ import annotations

import json
from pathlib import Path
from typing import Any
from unittest import mock

from desk import program
from desk.answers import FeedRefused, ask
from desk.errors import DeskError, UsageError
from desk.open import session as session_module
from desk.open.session import CHANGED, Session
from desk.pair_rules import FILE, KEEP, NEVER, Rule, in_the_way, read_rules, rewritten
from desk.records import without_records
from desk.rooms import room_of
from desk.town import Town
from tests.feeds import FolderTest, needs_program, write_feed
from tests.small_town import small_town, two_trips
from tests.test_rules import PAIRS, crossing

RUN = program.run


class FileTest(FolderTest):
    """What is written into `pairs.csv`, whatever stands there."""

    def test_all_else_stays(self) -> None:
        """Records by hand, their order, quotes, line ends, blank lines and other columns stay byte for byte."""
        head = '\ufeffnote,rule,"after",before\r\n\r\n'
        one, two, three = 'mine,keep,"B, 1",A\r\n', '"two\n\nlines", never ,D,C\n\n', 'last,keep,F,E'
        whole = (head + one + two + three).encode()
        fresh = [Rule(0, "G", "H, 1", KEEP)]
        self.assertEqual(rewritten(whole, [], fresh), whole + b'\n,keep,"H, 1",G\n')
        self.assertEqual(rewritten(whole, [Rule(1, "A", "B, 1", KEEP)], []), (head + two + three).encode())
        self.assertEqual(rewritten(whole, [Rule(2, "C", "D", NEVER)], []), (head + one + "\n" + three).encode())
        self.assertEqual(rewritten(whole, [Rule(3, "E", "F", KEEP), Rule(1, "A", "B, 1", KEEP)], fresh),
                         (head + two).encode() + b',keep,"H, 1",G\n')

    def test_without_a_file(self) -> None:
        """A file that is not there gets its header, which stays when the last record is taken back."""
        made = rewritten(b"", [], [Rule(0, "A", "B", KEEP)])
        self.assertEqual(made, b"before,after,rule\nA,B,keep\n")
        self.assertEqual(rewritten(made, [Rule(1, "A", "B", KEEP)], []), b"before,after,rule\n")

    def test_open_quote(self) -> None:
        """A file behind which no record can be put is an error."""
        with self.assertRaisesRegex(DeskError, "quote is not closed"):
            rewritten(b'before,after,rule,note\nA,B,keep,"mine\n', [], [Rule(0, "C", "D", KEEP)])

    def test_bytes(self) -> None:
        """Bytes that are no UTF-8 stay, and a record that is not there takes nothing away."""
        text = b"before,after,rule,note\nA,B,keep,\xff\nC,D,never,x"
        self.assertEqual(without_records(text, {2}), b"before,after,rule,note\nA,B,keep,\xff\n")
        self.assertEqual(without_records(text, {7}), text)


@needs_program
class WishTest(FolderTest):
    """A session of four trips: P1 then Q1 is B1, and P2 then Q2 is B2. Each other way to Q1 and Q2 is 12 empty minutes."""

    def setUp(self) -> None:
        super().setUp()
        self.open(crossing(self.room / "town"))

    def open(self, town: Path) -> None:
        """Opens a town."""
        self.town = town
        self.session = Session(town)

    def state(self) -> str:
        return self.session.day()["day"]["state"]

    def ask(self, wish: str, **words: object) -> dict[str, Any]:
        """What is said of a wish."""
        return self.session.wish({"wish": wish, "state": self.state(), **words})["wish"]

    def take(self, wish: str, **words: object) -> dict[str, Any]:
        """The answer to a wish that is taken."""
        return self.session.take_wish({"wish": wish, "state": self.state(), **words})

    def pairs(self) -> str | None:
        """What stands in the file of rules."""
        path = self.town / FILE
        return path.read_text() if path.is_file() else None

    def blocks(self) -> list[list[str]]:
        """The trips of each block of the day as it stands."""
        day = self.session.day()["day"]
        return [[day["trips"][number]["id"] for number, _ in block["rides"]] for block in day["blocks"]]

    def test_what_each_wish_gives(self) -> None:
        """Each wish in words, with its records and with what the program says of the plan. Asked alone it writes nothing."""
        costly = "No vehicle more, 12 empty minutes more, and no plan with this wish has fewer."
        for words, title, records, cost in (
                ({"wish": "put", "trip": "Q2", "block": "B1"}, "Q2 after P1 on B1", ["P1,Q2,keep"], costly),
                ({"wish": "put", "trip": "P2", "block": "B1"}, "P2 before Q1 on B1", ["P2,Q1,keep"], costly),
                ({"wish": "swap", "trip": "P1", "other": "P2"}, "Q2 after P1 and Q1 after P2", ["P1,Q2,keep", "P2,Q1,keep"], costly),
                ({"wish": "swap", "trip": "P1", "other": "Q2"}, "Q1 after Q2", None, ""),
                ({"wish": "never", "trip": "P1"}, "Q1 never straight after P1", ["P1,Q1,never"], costly),
                ({"wish": "freeze", "block": "B2"}, "B2 as it is", ["P2,Q2,keep"],
                 "No vehicle more, no empty minute more, and no plan with this wish has fewer.")):
            told = self.ask(**words)
            self.assertEqual(told["title"], title)
            if records is None:
                self.assertEqual(told["misfit"], "Q1 cannot follow on Q2: no vehicle can make the second after the first. Nothing was written.")
            else:
                self.assertEqual(told, {"title": title, "cost": cost, "records": records, "taken": [], "file": FILE})
        self.assertIsNone(self.pairs())

    def test_the_example_of_the_page(self) -> None:
        """What docs/PLANNING.md shows of a wish is what is said of it."""
        self.open(small_town(self.room / "small"))
        told = self.ask("put", trip="wd_N1_o_2230", block="V3")
        self.assertIn(f"```text\n{told['title']}\n{told['cost']}\n```\n", (program.ROOT / "docs" / "PLANNING.md").read_text())

    def test_the_cost_of_a_vehicle(self) -> None:
        """A wish that parts the trips of the only vehicle costs one, and taking it back gives it free again."""
        self.open(two_trips(self.room / "two"))
        self.assertEqual(self.ask("never", trip="U1")["cost"], "1 vehicle more, 13 empty minutes fewer, and no plan with this wish has fewer.")
        self.assertTrue(self.take("never", trip="U1")["done"])
        self.assertEqual(self.ask("back", record=1)["cost"], "1 vehicle fewer, 13 empty minutes more, and no plan without it has fewer.")

    def test_what_is_taken(self) -> None:
        """A wish that is taken is a record, and the plan follows it. Taken back, the header stays and the plan is as it was."""
        answer = self.take("put", trip="Q2", block="B1")
        self.assertEqual((answer["done"], answer["said"], answer["marks"]["trips"]), (True, "Q2 after P1 on B1", ["P1", "P2", "Q1", "Q2"]))
        self.assertEqual(answer["change"]["numbers"], {"fixed": 2, "vehicles": 2, "minutes": 12})
        wish = {"record": 1, "before": "P1", "after": "Q2", "rule": "keep"}
        self.assertEqual((answer["change"]["wishes"], self.pairs()), ([wish], PAIRS + "P1,Q2,keep\n"))
        day = self.session.day()["day"]
        self.assertEqual((day["wishes"], day["proof"]["verdict"]["text"]), ([wish], "yes, vehicles 2, minutes 12"))
        self.assertEqual(self.blocks(), [["P1", "Q2"], ["P2", "Q1"]])
        self.assertTrue(self.take("back", record=1)["done"])
        self.assertEqual((self.blocks(), self.pairs()), ([["P1", "Q1"], ["P2", "Q2"]], PAIRS))

    def test_one_run(self) -> None:
        """To ask is one run of the program, and so is to take. The feed is not read again for the next edit."""
        state, runs = self.state(), []
        with mock.patch.object(program, "run", lambda words: runs.append(words[0]) or RUN(words)):
            self.session.wish({"wish": "put", "trip": "Q2", "block": "B1", "state": state})
            self.assertEqual(runs, ["blocks"])
            answer = self.session.take_wish({"wish": "put", "trip": "Q2", "block": "B1", "state": state})
            self.assertEqual((runs, answer["change"]["trips"]), (["blocks", "blocks"], [[0, 4]]))
            self.session.edit({"edit": "cancel", "trip": "Q1", "state": answer["change"]["state"]})
            self.assertEqual(runs, ["blocks"] * 3)

    def test_what_does_not_fit(self) -> None:
        """A pair that no vehicle makes is said with its reason, and is not written."""
        ways = self.town / "deadheads.csv"
        for minutes, why in (("35", "a vehicle comes 5 minutes too late"), (None, "no way leads from one to the other")):
            ways.write_text("from,to,minutes\nY,X,7\n" + (f"X,Y,{minutes}\n" if minutes else ""))
            told = self.ask("put", trip="Q2", block="B1")
            self.assertEqual(told, {"title": "Q2 after P1 on B1", "misfit": f"Q2 cannot follow on P1: {why}. Nothing was written."})
            answer = self.take("put", trip="Q2", block="B1")
            self.assertEqual((answer["done"], answer["said"]), (False, f"Q2 cannot follow on P1: {why}"))
            self.assertIsNone(self.pairs())

    def test_what_stands_in_the_way(self) -> None:
        """A wish that clashes says which one stands in the way, and takes that back together. Records by hand stay as they are."""
        by_hand = PAIRS + 'P1,"Q2",keep\nX,Y,never\n'
        (self.town / FILE).write_text(by_hand)
        told = self.ask("put", trip="Q2", block="B2")
        self.assertEqual((told["taken"], told["records"], self.pairs()), (["P1 to Q2 keep"], ["P2,Q2,keep"], by_hand))
        self.assertEqual(told["cost"], "No vehicle more, 12 empty minutes fewer, and no plan with this wish has fewer.")
        self.assertTrue(self.take("put", trip="Q2", block="B2")["done"])
        self.assertEqual(self.pairs(), PAIRS + "X,Y,never\nP2,Q2,keep\n")
        self.assertTrue(self.take("never", trip="P2")["done"])
        self.assertEqual(self.pairs(), PAIRS + "X,Y,never\nP2,Q2,never\n")

    def test_the_program_refuses_what_clashes(self) -> None:
        """The rules that are said to stand in the way are those beside which the program refuses another one."""
        fresh = Rule(0, "P1", "Q2", KEEP)
        for before, after, rule in (("P1", "Q2", KEEP), ("P1", "Q2", NEVER), ("P1", "Q1", KEEP), ("P2", "Q2", KEEP), ("P1", "Q1", NEVER),
                                    ("P2", "Q1", KEEP), ("Q2", "P1", KEEP), ("Q2", "Q1", KEEP), ("P2", "P1", KEEP), ("P2", "Q2", NEVER)):
            stands = Rule(1, before, after, rule)
            content = rewritten(rewritten(b"", [], [stands]), [], [fresh])
            refused = False
            with room_of(Town(self.town), {FILE: content}) as room:
                try:
                    ask("blocks", Town(self.town), room)
                except FeedRefused as error:
                    refused = error.said == "pairs.csv record 2: duplicate"
            self.assertEqual(in_the_way([stands], [fresh]), [stands] if refused else [], stands)

    def test_freeze_and_thaw(self) -> None:
        """A frozen block keeps the neighbours that are not kept yet, and what keeps it is taken back at once."""
        self.assertTrue(self.take("freeze", block="B1")["done"])
        self.assertEqual(self.pairs(), PAIRS + "P1,Q1,keep\n")
        with self.assertRaisesRegex(DeskError, "B1 as it is: this is wished for already"):
            self.ask("freeze", block="B1")
        (self.town / FILE).write_text(PAIRS + "P1,Q1,keep\nP2,Q2,keep\nP1,Q2,never\n")
        self.assertTrue(self.take("thaw", block="B1")["done"])
        self.assertEqual(self.pairs(), PAIRS + "P2,Q2,keep\nP1,Q2,never\n")
        with self.assertRaisesRegex(DeskError, "nothing keeps B1"):
            self.ask("thaw", block="B1")

    def test_what_cannot_be_wished(self) -> None:
        """What is no wish of this day is an error in words, and nothing is written."""
        (self.town / "edits.csv").write_text("extra,E,X,Y,06:00,07:10\ncancel,Q1\n")
        rows = self.blocks()
        block = f"B{rows.index(['E']) + 1}"
        for words, said in (
                ({"wish": "put", "trip": "E", "block": block}, f"E is on {block} already"),
                ({"wish": "put", "trip": "P1", "block": block}, f"each trip of {block} runs while P1 does"),
                ({"wish": "put", "trip": "Q1", "block": block}, "Q1 does not run"),
                ({"wish": "put", "trip": "P1", "block": "B 9"}, "no block is called B 9"),
                ({"wish": "swap", "trip": "E", "other": "Q2"}, "nothing follows on E, nor on Q2"),
                ({"wish": "swap", "trip": "P2", "other": "Q2"}, "P2 and Q2 are on one bus: choose trips of two"),
                ({"wish": "never", "trip": "Q2"}, "nothing follows on Q2"),
                ({"wish": "freeze", "block": block}, f"{block} has one trip, and nothing to keep")):
            with self.assertRaises(DeskError) as raised:
                self.ask(**words)
            self.assertEqual(str(raised.exception), said)
        for words in ({"wish": "merge"}, {"wish": None}, {"wish": ["put"]}, {"wish": "put", "trip": "P1"}, {"wish": "put", "trip": 1, "block": "B1"},
                      {"wish": "back", "record": 1}, {"wish": "back"}, {"wish": "freeze"}):
            with self.assertRaises(UsageError):
                self.ask(**words)
        self.assertIsNone(self.pairs())

    def test_changed_folder(self) -> None:
        """Where another program has changed the folder, nothing is said of a wish nor written, and the day is read again."""
        state = self.state()
        (self.town / FILE).write_text(PAIRS + "P1,Q1,never\n")
        wish = {"wish": "put", "trip": "Q2", "block": "B1", "state": state}
        self.assertEqual((self.session.wish(wish)["said"], self.session.cost({"state": state, "without": [1]})), (CHANGED, {"plan": None}))
        answer = self.session.take_wish(wish)
        self.assertEqual((answer["done"], answer["said"], answer["day"]["numbers"]["minutes"]), (False, CHANGED, 12))
        self.assertEqual(self.pairs(), PAIRS + "P1,Q1,never\n")

    def test_changed_meanwhile(self) -> None:
        """What another program writes while the program tries a wish is not lost."""
        tried = session_module.try_wish

        def try_and_change(*words: Any) -> Any:
            """Tries a wish, and writes a record as somebody else would."""
            trial = tried(*words)
            (self.town / FILE).write_text(PAIRS + "P1,Q1,never\n")
            return trial

        with mock.patch.object(session_module, "try_wish", try_and_change):
            answer = self.take("freeze", block="B1")
        self.assertEqual((answer["done"], answer["said"], self.pairs()), (False, CHANGED, PAIRS + "P1,Q1,never\n"))

    def test_a_file_that_cannot_be_written(self) -> None:
        """Where the file cannot be written the wish is an error, and what stood there stands."""
        (self.town / FILE).write_text(PAIRS)
        state = self.state()
        with mock.patch("os.replace", side_effect=OSError(28, "No space left on device")), self.assertRaisesRegex(DeskError, "No space left"):
            self.session.take_wish({"wish": "freeze", "block": "B1", "state": state})
        self.assertEqual((self.pairs(), [path.name for path in self.town.glob(".pairs*")]), (PAIRS, []))

    def test_left_by_a_killed_writer(self) -> None:
        """What a killed writer has left of the file beside it is gone after the next one. What an editor keeps there stays."""
        for name in (".pairs.csv.abcd1234", ".pairs.csv.swp", ".edits.csv.swp"):
            (self.town / name).write_text("before")
        self.assertTrue(self.take("freeze", block="B1")["done"])
        self.assertEqual(sorted(path.name for path in self.town.glob(".*csv*")), [".edits.csv.swp", ".pairs.csv.swp"])

    def test_costs(self) -> None:
        """What a wish costs is what `./desk rules` says: the plan without it, by the program."""
        (self.town / FILE).write_text(PAIRS + "P1,Q2,keep\nQ1,P1,never\n")
        (self.town / "edits.csv").write_text("cancel,Q1\nundo\n")
        state, rules = self.state(), self.answer("rules", self.town)
        said = [self.session.cost({"state": state, "without": [rule["record"]]})["plan"] for rule in rules["rules"]]
        self.assertEqual([{name: plan[name] for name in ("vehicles", "minutes")} for plan in said], [rule["without"] for rule in rules["rules"]])
        self.assertEqual([plan["words"] for plan in said], ["costs 12 minutes, without it vehicles 2, minutes 0", "costs nothing"])
        self.assertEqual(self.session.cost({"state": state, "without": [1, 2]})["plan"]["minutes"], rules["none"]["minutes"])
        with self.assertRaises(UsageError):
            self.session.cost({"state": state})

    def test_planners(self) -> None:
        """Wishes are of the town: a planner's page has none, and takes none."""
        (self.town / FILE).write_text(PAIRS + "P1,Q2,keep\n")
        ann = Session(self.town, "ann")
        day = ann.day()["day"]
        self.assertEqual((day["wishes"], day["numbers"]["minutes"]), ([], 12))
        for asked in (ann.wish, ann.take_wish, ann.cost):
            with self.assertRaisesRegex(UsageError, "wishes are of the town"):
                asked({"wish": "back", "record": 1, "state": day["state"], "without": [1]})
        self.assertEqual(self.pairs(), PAIRS + "P1,Q2,keep\n")

    def test_a_day_type(self) -> None:
        """The wishes of a day type come into a file of its own, which begins with the records of the town. That of the town stays."""
        for records, file in (("", "pairs.csv of this day type alone"), ("Q2,P2,never\n", "pairs.csv of this day type alone, which begins with "
                              "the records of the town")):
            town = crossing(self.room / f"period{len(records)}")
            day = write_feed(town / "days" / "mon", {"desk.toml": ""})
            if records:
                (town / FILE).write_text(PAIRS + records)
            self.open(day)
            self.assertEqual(self.ask("freeze", block="B1")["file"], file)
            self.assertTrue(self.take("freeze", block="B1")["done"])
            self.assertEqual(self.pairs(), PAIRS + records + "P1,Q1,keep\n")
            self.assertEqual((town / FILE).read_text() if records else (town / FILE).exists(), PAIRS + records if records else False)
            self.assertEqual(self.ask("freeze", block="B2")["file"], "pairs.csv of this day type alone")
            self.assertEqual([rule.after for rule in read_rules(Town(day))][-1], "Q1")

    def test_an_extra_trip_and_odd_names(self) -> None:
        """An extra trip can be put on another bus, and names are quoted as they need."""
        (self.town / "edits.csv").write_text('extra,"E ""1"", x",A,X,06:00,06:40\n')
        target = next(f"B{at}" for at, trips in enumerate(self.blocks(), 1) if "Q2" in trips)
        told = self.ask("put", trip='E "1", x', block=target)
        self.assertEqual(told["records"], ['"E ""1"", x",Q2,keep'])
        self.assertTrue(self.take("put", trip='E "1", x', block=target)["done"])
        self.assertIn(['E "1", x', "Q2"], self.blocks())
        self.assertEqual(json.loads(json.dumps(self.session.day()["day"]["wishes"]))[0]["before"], 'E "1", x')
