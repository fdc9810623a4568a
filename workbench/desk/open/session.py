"""What `desk open` does to a town: it reads the day, writes edits and wishes that the program follows, and asks for suggestions.

An edit is one run of the program. The page asks for the proof of the plan once it has drawn it.
"""
from __future__ import annotations

import threading
from collections.abc import Callable, Sequence
from dataclasses import replace
from functools import partial
from pathlib import Path
from typing import NamedTuple

from desk.day import Day, ask_in, plan_day
from desk.edits import Script, record_of, writing
from desk.errors import UsageError
from desk.files import write_whole
from desk.hints.scripts import script_hints
from desk.keeping import keep
from desk.open.exports import EXPORTS, export
from desk.open.marks import marks
from desk.open.suggestions import SUGGESTED, offers
from desk.open.wish_trials import cost_without, told, try_wish
from desk.page.view import as_view, change_of, proof_view
from desk.pair_rules import FILE, read_rules
from desk.pipes import refuse_pipes
from desk.proof import proved
from desk.rooms import FEED_FILES, room_of, scripts_of, state_of
from desk.scripts import Record, with_record
from desk.take import take
from desk.texts import Json
from desk.town import Town

MOST_SECONDS = 10.0
"""For how many seconds an edit is waited for when the page ends."""

CHANGED = "Another program has changed the folder. It is read again, and nothing was written: look, and then edit again."


class Attempt(NamedTuple):
    """The day after a change that was tried, what is said of it, and what writes it; None where it is refused, with hints."""

    day: Day
    said: str
    write: Callable[[], None] | None
    hints: Sequence[str] = ()


class Session:
    """A town that is open, by all planners at once or by the one who is named."""

    def __init__(self, folder: Path, planner: str | None = None, beside: Callable[[Json], Json] | None = None) -> None:
        """The session of a folder, for one planner where one is named. `beside` gives what else the page has beside a view."""
        self.folder = folder
        self.beside = beside
        self.planner = planner
        self.script_name = "edits.csv" if planner is None else "planner_edits.csv"
        self.guard = threading.Lock()
        self._town: tuple[str, Town] | None = None
        self._day: Day | None = None
        self._seen: tuple[Day, Json] | None = None

    def state(self) -> Json:
        """The state of the folder, which is another one when a file of it is written."""
        return {"state": state_of(Town(self.folder))}

    def day(self) -> Json:
        """The day as it stands, with its proof."""
        with self.guard:
            self._day = proved(self._read())
            return {"day": self._view(self._day)}

    def proof(self, asked: Json) -> Json:
        """The proof of the day of this state; None where another one stands. Edits are not kept waiting meanwhile."""
        with self.guard:
            day = self._read()
        if asked.get("state") != day.state:
            return {"proof": None}
        after = proved(day)
        with self.guard:
            if self._day is day:
                self._day, self._seen = after, (after, self._view(day) | {"proof": proof_view(after)})
        return {"proof": proof_view(after)}

    def edit(self, asked: Json) -> Json:
        """Writes an edit behind the script where the program accepts it, and says what that changes."""
        record = record_of(asked, self.planner)

        def attempt(before: Day, script: Script) -> Attempt:
            after = self._tried(before, script, record)
            told = self._records(after)[-1]
            if told.ok:
                return Attempt(after, told.said, partial(script.append, record))
            holder = after.planners.holder(told.said) if after.planners else ""
            hints = script_hints(before.town, told.said, {self.script_name: with_record(script.content, record)})
            return Attempt(after, told.said + (f" ({holder})" if holder else ""), None, hints)

        return self._change(asked, attempt)

    def wish(self, asked: Json) -> Json:
        """Says what a wish would do to the plan. Nothing is written."""
        self._refuse_planner()
        with self.guard:
            day = self._read()
            if asked.get("state") != day.state:
                return {"said": CHANGED, "day": self._view(day)}
        return {"wish": told(day, try_wish(day, asked))}

    def take_wish(self, asked: Json) -> Json:
        """Writes a wish into `pairs.csv` where the program follows it, and says what that changes."""
        self._refuse_planner()

        def attempt(before: Day, _: Script) -> Attempt:
            trial = try_wish(before, asked)
            write = partial(write_whole, self.folder / FILE, trial.content, replace=True)
            return Attempt(trial.day, trial.misfit or trial.wish.words, None if trial.misfit else write)

        return self._change(asked, attempt)

    def cost(self, asked: Json) -> Json:
        """What the plan of this state is without some records of `pairs.csv`; None where another one stands."""
        self._refuse_planner()
        with self.guard:
            day = self._read()
        found = cost_without(day, asked.get("without")) if asked.get("state") == day.state else None
        return {"plan": found if state_of(day.town) == day.state else None}

    def suggest(self, asked: Json) -> Json:
        """What the program suggests for the day and what helps it, or what it says of the blocks of today."""
        word = asked.get("word")
        if word not in (*SUGGESTED, "audit"):
            raise UsageError("this is no suggestion")
        with self.guard:
            day = self._read()
        with room_of(day.town, {"edits.csv": day.script}, of_today=word == "audit") as room:
            found = ask_in(room, day.town, word)
        return {"found": offers(day, word, found) if word in SUGGESTED else found}

    def keep(self, asked: Json) -> Json:
        """Keeps what is new of the script in the journal. With planners it takes the edits that stand into the script before."""
        if asked:
            raise UsageError("this cannot be kept")
        with self.guard, writing(self.folder / "edits.csv") as script:
            taken = take(self._read(), script) if self.planner is not None else ""
            said = taken + keep(Town(self.folder), self._read().records)
            return {"said": said} | ({"day": self._view(self._read())} if taken else {})

    def export(self, asked: Json) -> Json:
        """Writes files of the plan into the town: with planners, of the plan by the edits that stand."""
        what = asked.get("what")
        if not isinstance(what, str) or what not in EXPORTS:
            raise UsageError("this cannot be written")
        refuse_pipes(self.folder)
        with self.guard, writing(self.folder / "edits.csv"):
            if what == "blocks":
                self._day = None
            said = export(self.folder, what, None if self.planner is None else self._read())
            if what == "blocks":
                self._day = None
            return {"said": said, "day": self._view(self._read())}

    def close(self) -> None:
        """Waits for what is being written. Nothing is written behind it."""
        self.guard.acquire(timeout=MOST_SECONDS)

    def _change(self, asked: Json, attempt: Callable[[Day, Script], Attempt]) -> Json:
        """The one door to the folder: writes what was attempted, where the page has seen the folder as it stands, and says what changes."""
        with self.guard, writing(self.folder / self.script_name) as script:
            before = self._read()
            if asked.get("state") != before.state:
                return {"done": False, "said": CHANGED, "day": self._view(before)}
            after, said, write, hints = attempt(before, script)
            if state_of(before.town) != before.state:
                return {"done": False, "said": CHANGED, "day": self._view(self._read())}
            if write is None:
                return {"done": False, "said": said, "hints": hints}
            write()
            seen = self._view(before)
            self._day = replace(after, state=state_of(after.town))
            return {"done": True, "said": said, "marks": marks(before, after), "change": change_of(seen, self._view(self._day))}

    def _refuse_planner(self) -> None:
        """A UsageError where a planner edits: `pairs.csv` is of the town."""
        if self.planner is not None:
            raise UsageError("wishes are of the town, and not of one planner")

    def _read(self) -> Day:
        """The day, which is read again where the folder has changed."""
        town = self._current_town()
        if self._day is None or self._day.state != state_of(town):
            self._day = plan_day(town, with_planners=self.planner is not None)
        return self._day

    def _current_town(self) -> Town:
        """The town, whose feed is read again where it has changed."""
        refuse_pipes(self.folder)
        state = state_of(Town(self.folder), FEED_FILES)
        if self._town is None or self._town[0] != state:
            self._town = state, Town(self.folder)
        return self._town[1]

    def _tried(self, before: Day, script: Script, record: bytes) -> Day:
        """The day with a record behind the script, which is not written."""
        scripts = scripts_of(before.town) | {self.script_name: with_record(script.content, record)}
        return plan_day(before.town, scripts, self.planner is not None, before)

    def _records(self, day: Day) -> list[Record]:
        """The records of the script that is written."""
        return day.records if day.planners is None else day.planners.records

    def _view(self, day: Day) -> Json:
        """The day as the page reads it, with who edits."""
        if self._seen is None or self._seen[0] is not day:
            view = as_view(day, self._seen)
            wishes = [] if self.planner is not None else [rule._asdict() for rule in read_rules(day.town)]
            self._seen = day, view | {"planner": self.planner, "wishes": wishes} | (self.beside(view) if self.beside else {})
        return self._seen[1]
