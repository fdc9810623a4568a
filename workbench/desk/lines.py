"""The lines of a town: what the routes of the agency are called to passengers, and their colours."""
from __future__ import annotations

from desk.records import open_records
from desk.town import DayTrip, Town


class LineNames:
    """The line of each trip: the short name of its route, else the long one, else the `route_id`.

    `colours` has the `route_color` of each line by its name: that of the first of its routes which has one.
    """

    def __init__(self, town: Town) -> None:
        self.names: dict[str, str] = {}
        self.colours: dict[str, str] = {}
        path = town.agency_path("routes.txt")
        if path.is_file():
            with open_records(path) as records:
                route, colour = records.column("route_id"), records.find("route_color")
                names = [place for column in ("route_short_name", "route_long_name")
                         if (place := records.find(column)) is not None]
                for _, fields in records:
                    name = next((fields[place] for place in names if fields[place]), fields[route])
                    self.names[fields[route]] = name
                    if colour is not None and fields[colour].strip(" "):
                        self.colours.setdefault(name, fields[colour].strip(" "))

    def of(self, trip: DayTrip | None) -> str:
        """The line of a trip. An extra trip of the script, which is None, has none, and its line is empty."""
        return "" if trip is None else self.names.get(trip.route_id, trip.route_id)
