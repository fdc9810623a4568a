"""Tests of the program's texts as JSON: all texts of examples and cases, their values, and what is refused."""
from __future__ import annotations

import random
import re
import unittest
from pathlib import Path

from desk import program, texts
from desk.errors import DeskError
from desk.json_forms import FORMS, FeedRefused
from desk.written_texts import as_text
from tests.feeds import FolderTest, needs_program
from tests.forms import is_answer, objects_of
from tests.small_town import EXAMPLES, two_trips

CASES = program.ROOT / "cases"

UNREADABLE = {
    "planners/names_with_commas_quotes_and_line_ends.case: planners",
    "records/a_quote_that_is_never_closed.case: deficits",
}
"""The cases whose names have line ends."""


def example_texts() -> list[tuple[Path, str, bytes]]:
    """The expected texts of all examples that have a form as JSON, with the example and the command."""
    return [(path.parent.parent, path.stem, path.read_bytes()) for path in sorted(EXAMPLES.glob("*/expected/*.txt"))
            if path.stem in texts.READERS]


def case_texts() -> list[tuple[str, str, str]]:
    """The whole texts of commands in the cases, which are those that no other command reads, with the case and the command."""
    found = []
    for path in sorted(CASES.glob("*/*.case")):
        section = re.search("^--- run\n(.*?)(?=^--- |\\Z)", path.read_text("utf-8", "surrogateescape"), re.M | re.S)
        for run in re.split(r"^\$ ", section[1] if section else "", flags=re.M)[1:]:
            words, _, text = run.partition("\n")
            command = re.fullmatch(r"blockdesk ([a-z]+) \S+", words)
            text = "".join(line + "\n" for line in text.split("\n")[:-1] if not re.fullmatch(r"\[[0-9]+\]|! .*", line))
            if command and command[1] in texts.READERS and text and "\\" not in text and not text.startswith("usage"):
                found.append((f"{path.parent.name}/{path.name}: {command[1]}", command[1], text))
    return found


class AllTexts(unittest.TestCase):
    """Each text comes back from its JSON byte for byte."""

    def test_the_examples(self) -> None:
        for folder, command, text in example_texts():
            with self.subTest(example=folder.name, command=command):
                parsed = texts.as_json(command, text, folder)
                self.assertEqual(as_text(command, parsed).encode(), text)

    def test_each_command_has_an_example(self) -> None:
        self.assertEqual({command for _, command, _ in example_texts()}, set(texts.READERS))

    def test_the_cases(self) -> None:
        found = case_texts()
        self.assertGreater(len(found), 400)
        refused = set()
        for name, command, text in found:
            with self.subTest(case=name):
                try:
                    self.assertEqual(as_text(command, texts.as_json(command, text)), text)
                except DeskError:
                    refused.add(name)
        self.assertEqual(refused, UNREADABLE)

    def test_their_keys_are_those_of_the_forms(self) -> None:
        met: set[str] = set()
        for name, command, text in [*((str(folder), command, text) for folder, command, text in example_texts()), *case_texts()]:
            if name not in UNREADABLE:
                with self.subTest(text=name, command=command):
                    self.assertTrue(is_answer(command, texts.as_json(command, text), met))
        self.assertEqual(met, set().union(*(objects_of(FORMS[command] | FeedRefused) for command in texts.READERS)))

    def test_a_chart_has_no_form(self) -> None:
        with self.assertRaisesRegex(DeskError, "chart has no form"):
            texts.as_json("chart", b"no trips\n")


class Values(unittest.TestCase):
    """What stands in the JSON, written down by hand."""

    def test_deficits(self) -> None:
        text = (EXAMPLES / "three_terminals" / "expected" / "deficits.txt").read_bytes()
        self.assertEqual(texts.as_json("deficits", text), {"refused": [], "sum": 3, "places": [
            {"place": "A", "max": 2, "at": "06:30", "steps": [
                {"at": "06:00", "deficit": 1}, {"at": "06:30", "deficit": 2}, {"at": "07:40", "deficit": 1}]},
            {"place": "B", "max": 1, "at": "07:00", "steps": [{"at": "07:00", "deficit": 1}, {"at": "08:00", "deficit": 0}]},
            {"place": "C", "max": 0, "at": "00:00", "steps": [
                {"at": "07:00", "deficit": -1}, {"at": "07:10", "deficit": 0}, {"at": "07:30", "deficit": -1}]}]})

    def test_fixed(self) -> None:
        text = "record 5: refused, U2: outside tolerance (+2)\nB1: out 10; U1 06:00 06:30\nB2: out 7; U2 07:00 07:30; in 15\nfixed 2\n"
        self.assertEqual(texts.as_json("fixed", text), {
            "refused": [{"record": 5, "trip": "U2", "why": "outside tolerance (+2)"}], "fixed": 2, "blocks": [
                {"block": "B1", "out": 10, "in": 0, "trips": [{"trip": "U1", "deadhead": 0, "departs": "06:00", "ends": "06:30"}]},
                {"block": "B2", "out": 7, "in": 15, "trips": [{"trip": "U2", "deadhead": 0, "departs": "07:00", "ends": "07:30"}]}]})

    def test_blocks_with_a_show(self) -> None:
        text = (EXAMPLES / "edits" / "expected" / "blocks.txt").read_bytes()
        parsed = texts.as_json("blocks", text)
        self.assertEqual((parsed["fixed"], parsed["vehicles"], parsed["minutes"]), (2, 1, 31))
        self.assertEqual(parsed["records"][1], {
            "record": 2, "ok": True, "fixed": 2, "vehicles": 1, "minutes": 31, "plan": {
                "blocks": [{"block": "B1", "out": 0, "in": 0, "trips": [
                    {"trip": "U1", "deadhead": 0, "departs": "06:00", "ends": "06:30"},
                    {"trip": "U2", "deadhead": 31, "departs": "07:01", "ends": "07:31"}]}],
                "prices": [{"trip": "U1", "leave": 0, "enter": 0}, {"trip": "U2", "leave": 0, "enter": 67108833}]}})
        self.assertEqual(parsed["records"][4], {"record": 5, "ok": False, "trip": "U2", "why": "outside tolerance (+2)"})

    def test_audit(self) -> None:
        no = texts.as_json("audit", "block X: U1 to U2 no way\nblock  : U3 to U4 short by 7\nblock Y: U5 to U6 forbidden\n"
                           "no: 3 pairs do not fit\n")
        self.assertEqual(no, {"refused": [], "verdict": "no", "misfits": [
            {"block": "X", "first": "U1", "second": "U2", "short": None, "forbidden": False},
            {"block": " ", "first": "U3", "second": "U4", "short": 7, "forbidden": False},
            {"block": "Y", "first": "U5", "second": "U6", "short": None, "forbidden": True}]})
        above = texts.as_json("audit", (EXAMPLES / "small_town" / "expected" / "audit.txt").read_bytes())
        self.assertEqual(above, {"refused": [], "verdict": "above", "vehicles": 12, "minutes": 0,
                                 "least": {"vehicles": 11, "minutes": 0}, "above": {"vehicles": 1}})
        least = texts.as_json("audit", "vehicles 2, minutes 5\nleast vehicles 2, minutes 5\nleast\n")
        self.assertEqual(least, {"refused": [], "verdict": "least", "vehicles": 2, "minutes": 5,
                                 "least": {"vehicles": 2, "minutes": 5}})

    def test_chains_of_three_deadheads_and_names_with_commas(self) -> None:
        text = "chain 1: B, 1 06:40 to C 07:00; E 06:50 to B, 1 07:00; H 07:45 to E 08:00, sum 3\nchains 1, sum 3\n"
        self.assertEqual(texts.as_json("chains", text), {"refused": [], "sum": 3, "chains": [{"chain": 1, "sum": 3, "deadheads": [
            {"from": "B, 1", "leaves": "06:40", "to": "C", "arrives": "07:00"},
            {"from": "E", "leaves": "06:50", "to": "B, 1", "arrives": "07:00"},
            {"from": "H", "leaves": "07:45", "to": "E", "arrives": "08:00"}]}]})

    def test_shifts(self) -> None:
        text = 'shift,V1,-1\nshift,"V 2, late\nand later",+12\nshifts 2, sum 1\n'
        self.assertEqual(texts.as_json("shifts", text), {"refused": [], "sum": 1, "shifts": [
            {"trip": "V1", "shift": -1}, {"trip": "V 2, late\nand later", "shift": 12}]})

    def test_joined(self) -> None:
        text = "C max 0 at 00:00, was 1\n 06:50 -1\n 07:00 0\nA, b max 1 at 100:00, was 1\n 100:00 1\nsum 1, blocks 1\n"
        self.assertEqual(texts.as_json("joined", text), {"refused": [], "sum": 1, "blocks": 1, "places": [
            {"place": "C", "max": 0, "at": "00:00", "was": 1, "steps": [
                {"at": "06:50", "deficit": -1}, {"at": "07:00", "deficit": 0}]},
            {"place": "A, b", "max": 1, "at": "100:00", "was": 1, "steps": [{"at": "100:00", "deficit": 1}]}]})
        fewer = texts.as_json("joined", "A max 1 at 06:00, was 1\n 06:00 1\nsum 1, blocks 2\n")
        self.assertEqual((fewer["sum"], fewer["blocks"]), (1, 2))

    def test_planners(self) -> None:
        text = ('record 1: refused: not an edit\nplanner 1: ok\nplanner 2: refused, U2: held by record 4\nplanner 3: refused: nothing to undo\n'
                ' Ann, B: extra,"E,""1\n2",A,B,09:00,09:30\n bob: c: shift,U2,-1\nfixed 3, vehicles 2, minutes 1\n')
        self.assertEqual(texts.as_json("planners", text), {
            "refused": [{"record": 1, "trip": None, "why": "not an edit"}],
            "records": [{"record": 1, "ok": True}, {"record": 2, "ok": False, "trip": "U2", "why": "held by record 4"},
                        {"record": 3, "ok": False, "trip": None, "why": "nothing to undo"}],
            "standing": [{"planner": "Ann, B", "edit": "extra", "trip": 'E,"1\n2', "from": "A", "to": "B", "departs": "09:00", "arrives": "09:30"},
                         {"planner": "bob: c", "edit": "shift", "trip": "U2", "shift": -1}],
            "fixed": 3, "vehicles": 2, "minutes": 1})

    def test_check_and_a_refused_feed(self) -> None:
        self.assertEqual(texts.as_json("check", "yes, vehicles 1, minutes 45\n"),
                         {"refused": [], "verdict": "yes", "vehicles": 1, "minutes": 45})
        self.assertEqual(texts.as_json("check", "no: blocks.csv record 2: minutes 19, not 20\n"),
                         {"refused": [], "verdict": "no", "reason": "blocks.csv record 2: minutes 19, not 20"})
        self.assertEqual(texts.as_json("fixed", "feed refused: trips.txt: missing\n"), {"feed_refused": "trips.txt: missing"})


class Refusals(FolderTest):
    """What is refused rather than guessed."""

    def refuse(self, command: str, text: str | bytes, why: str, folder: Path | None = None) -> None:
        """The text must be refused for this reason, in one line."""
        with self.assertRaisesRegex(DeskError, why) as refused:
            texts.as_json(command, text, folder)
        self.assertNotIn("\n", str(refused.exception))

    def test_a_text_without_its_last_line_or_with_one_more(self) -> None:
        for _, command, text in example_texts():
            whole = text.decode()
            cut = whole[:whole.rstrip("\n").rfind("\n") + 1]
            for other in (cut, whole[:-1], whole + whole.splitlines(True)[-1], whole + "\n", "x y z\n" + whole, ""):
                with self.subTest(command=command, text=other[-40:]):
                    self.assertRaises(DeskError, texts.as_json, command, other)

    def test_numbers_that_do_not_add_up(self) -> None:
        self.refuse("deficits", "A max 1 at 06:00\n 06:00 1\nsum 2\n", "sum")
        self.refuse("deficits", "A max 2 at 06:00\n 06:00 1\nsum 2\n", "another maximum")
        self.refuse("deficits", "A max 0 at 00:00\nA max 0 at 00:00\nsum 0\n", "stood before")
        self.refuse("deficits", "A max 1 at 06:00\n 06:00 1\n 05:00 0\nsum 1\n", "order")
        self.refuse("joined", "A max 1 at 06:00, was 1\n 06:00 1\nsum 1, blocks 0\n", "number of the blocks")
        self.refuse("joined", "A max 1 at 06:00, was 1\n 06:00 1\nsum 1, blocks 2\n", "number of the blocks", EXAMPLES / "depot")
        self.refuse("fixed", "B1: U1 06:00 06:30\nfixed 2\n", "number")
        self.refuse("fixed", "B1: U1 06:00 06:30; dh 5; U2 07:00 07:30\nfixed 1\n", "ways")
        self.refuse("fixed", "record 2: refused: not an edit\nrecord 1: refused: not an edit\nfixed 0\n", "order")
        self.refuse("audit", "block X: U1 to U2 no way\nno: 2 pairs do not fit\n", "number")
        self.refuse("audit", "vehicles 3, minutes 0\nleast vehicles 1, minutes 0\nabove by 1 vehicles\n", "difference")
        self.refuse("chains", "chain 1: B 06:40 to C 07:00; E 06:50 to D 07:00, sum 2\nchains 1, sum 2\n", "join")
        self.refuse("shifts", "shift,V2,+1\nshifts 2, sum 1\n", "number")
        self.refuse("blocks", "record 1: ok, fixed 1, vehicles 1, minutes 0\n B1: U1 06:00 06:30\nfixed 1, vehicles 1, minutes 0\n", "prices")
        self.refuse("planners", "planner 2: ok\nfixed 0, vehicles 0, minutes 0\n", "order")

    def test_forms_that_the_program_does_not_write(self) -> None:
        self.refuse("deficits", "A max 01 at 06:00\nsum 1\n", "no form")
        self.refuse("deficits", "A max 0 at 6:00\nsum 0\n", "no form")
        self.refuse("fixed", "B1: out 0; U1 06:00 06:30\nfixed 1\n", "ways")
        self.refuse("shifts", "shift,V2,1\nshifts 1, sum 1\n", "no form")
        self.refuse("shifts", 'shift,"V2",+1\nshifts 1, sum 1\n', "no form")
        self.refuse("fixed", "record 1: refused, U1: no reason\nfixed 0\n", "ways")
        self.refuse("fixed", b"B1: \xff 06:00 06:30\nfixed 1\n", "not UTF-8")

    def test_names_that_leave_two_ways_to_read(self) -> None:
        self.refuse("audit", "block a: b: U1 to U2 no way\nno: 1 pairs do not fit\n", "2 ways")
        self.refuse("audit", "block X: A to B to C short by 3\nno: 1 pairs do not fit\n", "2 ways")
        self.refuse("chains", "chain 1: B 06:40 to C 06:50 to D 07:00, sum 1\nchains 1, sum 1\n", "several")
        self.refuse("fixed", "B1: T1: U 06:00 06:30\nfixed 1\n", "2 ways")

    def test_another_block_tells_where_names_end(self) -> None:
        parsed = texts.as_json("fixed", "B: 1: T1: U 06:00 06:30\nB: 2: V 06:10 06:40\nfixed 2\n")
        self.assertEqual([(block["block"], block["trips"][0]["trip"]) for block in parsed["blocks"]], [("B: 1", "T1: U"), ("B: 2", "V")])

    def test_names_that_the_feed_states(self) -> None:
        feed = two_trips(self.room / "named", {"desk.toml": 'block_names = "stated"\n',
                                               "trips.txt": 'service_id,trip_id,block_id\nW,T1: U,B: 7\nW,U2,\n'})
        parsed = texts.as_json("fixed", "B: 7: T1: U 06:00 06:30\nB1: U2 07:00 07:30\nfixed 2\n", feed)
        self.assertEqual([(block["block"], block["trips"][0]["trip"]) for block in parsed["blocks"]], [("B: 7", "T1: U"), ("B1", "U2")])
        self.refuse("fixed", "8: T1: U 06:00 06:30\nfixed 1\n", "0 ways", feed)
        hidden = two_trips(self.room / "hidden", {"desk.toml": 'block_names = "stated"\n',
                                                  "trips.txt": 'service_id,trip_id,block_id\nW,U1,"a; b"\nW,U2,\n'})
        self.refuse("fixed", "a; b: U1 06:00 06:30\nfixed 1\n", "trips.txt record 1: the name 'a; b' hides", hidden)

    def test_names_of_the_feed_that_hide_ends(self) -> None:
        hidden = "U1 06:00 06:10; U3"
        feed = two_trips(self.room / "feed", {
            "trips.txt": f'service_id,trip_id\nW,"{hidden}"\nW,U2\n',
            "stop_times.txt": "trip_id,arrival_time,departure_time,stop_id,stop_sequence\n"
                              f"{hidden},06:20:00,06:20:00,A,1\n{hidden},06:30:00,06:30:00,B,2\n"
                              "U2,07:00:00,07:00:00,C,1\nU2,07:30:00,07:30:00,A,2\n"})
        text = f"B1: out 10; {hidden} 06:20 06:30\nB2: out 7; U2 07:00 07:30; in 15\nfixed 2\n"
        self.assertEqual(len(texts.as_json("fixed", text)["blocks"][0]["trips"]), 2)
        self.refuse("fixed", text, "trips.txt record 1: the name .* hides", feed)
        self.refuse("blocks", "fixed 2, vehicles 2, minutes 0\n", "hides", feed)
        self.assertEqual(texts.as_json("shifts", "shifts 0, sum 2\n", feed)["sum"], 2)

    def test_places_planners_and_edits_that_hide_ends(self) -> None:
        one = two_trips(self.room / "one", {"terminals.csv": 'stop_id,terminal\nA,"A max 0 at 00:00\nX"\n'})
        self.refuse("deficits", "A max 0 at 00:00\nX max 0 at 00:00\nsum 0\n", "trips.txt record 1", one)
        self.assertEqual(texts.as_json("fixed", "fixed 0\n", one)["fixed"], 0)
        two = two_trips(self.room / "two", {"planner_edits.csv": '"bob\nc",cancel,U1\n'})
        self.refuse("planners", "planner 1: ok\nfixed 0, vehicles 0, minutes 0\n", "planner_edits.csv record 1", two)
        three = two_trips(self.room / "three", {"edits.csv": '"a note; no\nedit"\nshow\ncancel,"a\nb"\n'})
        self.refuse("check", "yes, vehicles 1, minutes 45\n", "edits.csv record 3", three)
        four = two_trips(self.room / "four", {"desk.toml": 'block_prefix = "B\\n"\n'})
        self.refuse("fixed", "fixed 0\n", "desk.toml", four)

    def test_any_bytes_are_read_or_refused_in_words(self) -> None:
        """What is read of a damaged text is all of it: it is written again byte for byte."""
        chance = random.Random(57)
        texts_of_cases = [(command, text.encode("utf-8", "surrogateescape")) for _, command, text in case_texts()]
        sources = [(command, text) for _, command, text in example_texts() if len(text) < 2000] + texts_of_cases
        for _ in range(20_000):
            command, text = chance.choice(sources)
            damaged = bytearray(text)
            for _ in range(chance.randint(1, 4)):
                at = chance.randrange(len(damaged))
                damaged[at:at + chance.randint(0, 3)] = chance.choice([b"", b"\n", b" ", b";", b": ", b"1", b'"', bytes([chance.randrange(256)])])
                damaged = damaged or bytearray(b"\n")
            try:
                parsed = texts.as_json(command, bytes(damaged))
            except DeskError:
                continue
            self.assertEqual(as_text(command, parsed).encode(), bytes(damaged))


@needs_program
class OfTheProgram(FolderTest):
    """Texts of the program as it is here, of a feed with classes, a depot, edits and planners."""

    def test_each_command(self) -> None:
        feed = two_trips(self.room / "feed", {
            "desk.toml": 'late = 5\nblock_prefix = "V: "\n[classes]\nR = "big, blue"\n',
            "edits.csv": 'show\nshift,U2,+1\nextra,"E, 1: x",A,B,9:00,9:30\nextra,"E, 1: x","A/big, blue","B/big, blue",9:00,9:30\nshow\ncancel,U9\n',
            "planner_edits.csv": '"ann: b",cancel,U1\nbob,undo\n'})
        for command in sorted(texts.READERS):
            outcome = program.run([command, feed])
            with self.subTest(command=command):
                self.assertEqual(as_text(command, texts.as_json(command, outcome.text, feed)).encode(), outcome.text)
        shown = texts.as_json("blocks", program.run(["blocks", feed]).text)["records"][4]["plan"]["blocks"]
        self.assertEqual([trip["trip"] for block in shown for trip in block["trips"]], ["U1", "U2", "E, 1: x"])


if __name__ == "__main__":
    unittest.main()
