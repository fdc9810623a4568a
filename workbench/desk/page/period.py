"""A period as the page reads it: the day types, each with its dates and its vehicles, beside the day that is shown."""
from __future__ import annotations

from collections.abc import Sequence

from desk.errors import DeskError
from desk.period import TownPeriod
from desk.plan_run import left_of
from desk.texts import Json
from desk.town import DAYS


class PeriodView:
    """The day types of a town, in the order of their tabs. The vehicles of each are those that the program has said last, or None."""

    def __init__(self, period: TownPeriod) -> None:
        if not period.planned:
            raise DeskError(f"no trip runs on the dates of the folders in {period.town.folder / DAYS}: `./desk days {period.town.folder}` "
                            "lists the day types")
        self.towns = [day.town for day in period.planned]
        self.days: list[Json] = [{"label": day.label, "folder": day.name, "dates": len(day.dates), "vehicles": None}
                                 for day in period.planned]

    def read_plans(self) -> None:
        """Takes the vehicles of the plans that `./desk plan` has left of the files as they stand."""
        for day, town in zip(self.days, self.towns):
            day["vehicles"] = left_of(town).get("least", {}).get("vehicles")

    def beside(self, at: int, view: Json) -> Json:
        """What the page has beside the view of the day type at this place."""
        self.days[at]["vehicles"] = view["numbers"]["vehicles"]
        return {"days": [dict(day) for day in self.days], "tab": at}

    def with_all(self, views: Sequence[Json]) -> Json:
        """The views of all day types, as a page that stands alone has them."""
        for at, view in enumerate(views):
            self.beside(at, view)
        return {"views": [view | self.beside(at, view) for at, view in enumerate(views)]}
