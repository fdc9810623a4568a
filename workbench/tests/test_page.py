"""The static page: what stands in it, and that it needs no other file."""
from __future__ import annotations

import json
import re
import shutil
from pathlib import Path

from desk.page import IMPORT, STATIC, joined_script, static_page
from desk.page.view import as_text, as_view
from desk.plans import StatedBlock, read_blocks
from desk.policy import checksum
from desk.program import ROOT, run
from desk.proof import read_day
from desk.texts import Json
from desk.town import Town
from tests.feeds import FolderTest, needs_program
from tests.made_days import made_day


def day_in(page: str) -> Json:
    """The day that stands in a page."""
    found = re.search(r'<script type="application/json" id="day">(.*?)</script>', page, re.S)
    return json.loads(found[1]) if found else None


class StaticPageTest(FolderTest):
    """The page of a made day."""

    def test_nothing_from_elsewhere(self) -> None:
        """The page names no file and no address, and runs its own script alone."""
        page = static_page(as_text(as_view(made_day(40))))
        self.assertNotRegex(page, r'\bsrc=|<link rel="(?!icon)|@import|url\((?!#)|https?://(?!www\.w3\.org/2000/svg)')
        policy = re.search(r'<meta http-equiv="Content-Security-Policy" content="([^"]*)">', page)
        self.assertIsNotNone(policy)
        self.assertNotIn("unsafe", policy[1])
        styles = re.findall(r"<style>(.*?)</style>", page, re.S)
        scripts = re.findall(r'<script type="module">(.*?)</script>', page, re.S)
        sums = f"style-src {checksum(styles[0])}; script-src {checksum(scripts[0])}"
        self.assertEqual(policy[1], f"default-src 'none'; img-src data:; {sums}; base-uri 'none'; form-action 'none'")
        self.assertEqual((len(styles), len(scripts), page.count("<script")), (1, 1, 2))
        self.assertNotRegex(page, r'\son[a-z]+="|\sstyle="')

    def test_names_are_texts(self) -> None:
        """Names that look like markup stay names."""
        day = made_day(3)
        name = '</script><img src=x onerror="alert(1)">\u2028\udcff'
        view = as_view(day) | {"title": name}
        page = static_page(as_text(view))
        self.assertNotIn("<img", page)
        self.assertEqual(day_in(page)["title"], name.replace("\udcff", "?"))

    def test_modules(self) -> None:
        """Each module is in the script once, behind those that it imports, and none imports from elsewhere."""
        script = joined_script()
        names = [path.stem for path in STATIC.glob("*.js")]
        for name in names:
            text = (STATIC / f"{name}.js").read_text()
            self.assertEqual(len(IMPORT.findall(text)), len(re.findall(r"^import\b", text, re.M)), name)
            self.assertNotRegex(text, r"\bexport default\b|\bimport\(|\beval\b|innerHTML|insertAdjacentHTML|document\.write", name)
            self.assertEqual(script.count(f"const module_{name} = "), 1, name)
            for _, imported in IMPORT.findall(text):
                self.assertLess(script.index(f"const module_{imported} = "), script.index(f"const module_{name} = "))
        self.assertNotRegex(script, r"(?m)^(import|export) ")

    def test_many_trips(self) -> None:
        """The page of 4,096 trips has all of them, and stays of a size that can be sent."""
        page = static_page(as_text(as_view(made_day(4096))))
        view = day_in(page)
        self.assertEqual((len(view["trips"]), sum(len(block["rides"]) for block in view["blocks"])), (4096, 4096))
        self.assertLess(len(page), 2_000_000)


@needs_program
class PageTest(FolderTest):
    """The page of towns, beside what the program says."""

    def town(self, example: str) -> Path:
        """A copy of an example."""
        folder = self.room / example
        shutil.copytree(ROOT / "examples" / example, folder, ignore=shutil.ignore_patterns("expected", "blocks.csv", "prices.csv"))
        return folder

    def test_as_the_program_says(self) -> None:
        """Blocks, minutes, deficits and numbers of the page are those of the program's texts and files."""
        for example in ("three_terminals", "past_midnight", "deadheads", "depot", "two_classes", "small_town"):
            folder = self.town(example)
            view = as_view(read_day(Town(folder)))
            before = sorted(path.name for path in folder.iterdir())
            said = run(["blocks", folder]).text.decode()
            self.assertEqual(before, sorted(set(before) - {"blocks.csv", "prices.csv"}), "the page writes nothing into the town")
            self.assertEqual("fixed {fixed}, vehicles {vehicles}, minutes {minutes}\n".format(**view["numbers"]), said, example)
            self.assertEqual(view["proof"]["verdict"]["text"] + "\n", run(["check", folder]).text.decode())
            names = [trip["id"] for trip in view["trips"]]
            drawn = [StatedBlock(block["name"], tuple(names[number] for number, _ in block["rides"]),
                                 tuple(empty for _, empty in block["rides"])) for block in view["blocks"]]
            self.assertEqual(drawn, read_blocks(folder / "blocks.csv"), example)
            empty = sum(sum(block.deadheads) for block in drawn) + sum(block["home"] for block in view["blocks"])
            self.assertEqual(empty, view["numbers"]["minutes"])
            self.check_times(view, run(["fixed", folder]).text.decode())
            self.check_deficits(view, run(["deficits", folder]).text.decode())

    def check_times(self, view: Json, fixed: str) -> None:
        """The minutes of each trip stand in the text of `fixed`."""
        for trip in view["trips"]:
            line = "{id} {departs} {ends}".format(id=trip["id"], departs=self.clock(trip["departs"]), ends=self.clock(trip["ends"]))
            self.assertRegex(fixed, rf"(: |; ){re.escape(line)}(;|\n)")

    def check_deficits(self, view: Json, deficits: str) -> None:
        """The deficits of all places make the text of `deficits`."""
        lines = []
        for place in view["proof"]["places"]:
            lines.append(f"{place['name']} max {place['max']} at {self.clock(place['at'])}")
            lines += [f" {self.clock(minute)} {value}" for minute, value in place["steps"]]
        self.assertEqual("\n".join(lines), deficits.rpartition("\nsum ")[0])

    def clock(self, minute: int) -> str:
        return f"{minute // 60:02}:{minute % 60:02}"

    def test_after_a_script(self) -> None:
        """After a script the page has the shifts, the refused record, and which trips do not run; the status is 1."""
        folder = self.town("edits")
        status, page, errors = self.desk("page", folder)
        said, hint = errors.splitlines()
        self.assertEqual((status, said), (1, "desk: edits.csv: record 5: refused, U2: outside tolerance (+2)"))
        self.assertEqual(hint, self.desk("blocks", folder)[2].removesuffix("\n"))
        view = day_in(page)
        trips = [[trip[name] for name in ("id", "departs", "ends", "shift", "late", "runs")] for trip in view["trips"]]
        self.assertEqual(trips, [["U1", 360, 390, 0, 0, True], ["U2", 421, 451, 1, 1, True]])
        (folder / "edits.csv").write_text("cancel,U1\nextra,E1,A,B,7:00,7:20\nshow")
        view = as_view(read_day(Town(folder)))
        trips = [(trip["id"], trip["runs"], trip["extra"]) for trip in view["trips"]]
        self.assertEqual(trips, [("U1", False, False), ("U2", True, False), ("E1", True, True)])
        self.assertEqual((folder / "edits.csv").read_text(), "cancel,U1\nextra,E1,A,B,7:00,7:20\nshow")

    def test_files(self) -> None:
        """The page is not written over one that is there, and says where another plan stands in the town."""
        folder = self.town("deadheads")
        out = self.room / "day.html"
        self.assertEqual(self.desk("page", folder, "-o", out), (0, "", ""))
        written = out.read_bytes()
        self.assertEqual(self.desk("page", folder, "-o", out)[0], 1)
        self.assertEqual(out.read_bytes(), written)
        (folder / "blocks.csv").write_text("block_id,trip_id,deadhead\nX,U1,0\nY,U2,0\n")
        status, _, errors = self.desk("page", folder, "-o", out, "--replace")
        self.assertEqual((status, "of another plan" in errors, day_in(out.read_text())["written"]), (1, True, "other"))

    def test_refused_feeds(self) -> None:
        """A feed that the program refuses, and a folder without one, are named in its words and under the town's name."""
        folder = self.town("deadheads")
        (folder / "deadheads.csv").write_text("from,to,minutes\nA,A,5\n")
        nowhere = self.room / "nowhere"
        for town, refusal in ((folder, "deadheads.csv record 1: same terminal"), (nowhere, "trips.txt: missing")):
            status, _, errors = self.desk("page", town)
            said, *hints = errors.splitlines()
            self.assertEqual((status, said), (1, f"desk: {town}: feed refused: {refusal}"))
            self.assertEqual(hints, self.desk("blocks", town)[2].splitlines())

    def test_no_trips(self) -> None:
        """A day without trips is a page without blocks."""
        folder = self.town("deadheads")
        (folder / "desk.toml").write_text("services = []\n")
        view = as_view(read_day(Town(folder)))
        self.assertEqual((view["blocks"], view["trips"], view["numbers"]), ([], [], {"fixed": 0, "vehicles": 0, "minutes": 0}))
        verdict = view["proof"]["verdict"]
        self.assertEqual(verdict["words"], "No trip runs. desk.toml: `services` selects no trip. List services of trips.txt: \"W\".")
        self.assertIsNone(verdict["yes"])
        town = self.town("small_town")
        (town / "desk.toml").write_text('date = "20260831"\n')
        words = as_view(read_day(Town(town)))["proof"]["verdict"]["words"]
        self.assertIn("no trip is selected on 20260831, a Monday", words)
        self.assertIn("Trips run on 20260901 (Tuesday, 188 trips)", words)
        feed = self.town("three_terminals")
        (feed / "edits.csv").write_text("".join(f"cancel,{trip['id']}\n" for trip in as_view(read_day(Town(feed)))["trips"]))
        self.assertEqual(as_view(read_day(Town(feed)))["proof"]["verdict"]["words"], "No trip runs. The script cancels all of them.")

    def test_warnings(self) -> None:
        """A terminal without a record in `depot.csv` stands beside the numbers. Its one vehicle leaves from A and ends at A."""
        folder = self.town("depot")
        (folder / "depot.csv").write_text("terminal,pull_out,pull_in\nA,10,15\nB,1,1\nC,1,1\n")
        self.assertEqual(as_view(read_day(Town(folder)))["warnings"], [])
        (folder / "depot.csv").write_text("terminal,pull_out,pull_in\nB,1,1\nC,1,1\n")
        self.assertEqual(as_view(read_day(Town(folder)))["warnings"], [
            'depot.csv has no record of "A", so the ways out and home take 0 minutes: 1 pull-out ends and 1 pull-in begins there. '
            "Write one, if the depot does not lie there."])
