"""What `trips.txt` has beside the trips of the day: services, routes, blocks of other days, and trips that do not run."""
from __future__ import annotations

import datetime
from collections import Counter
from collections.abc import Iterable
from functools import cached_property

from desk.calendars import format_date
from desk.hints.names import Finding, Known, advice, difference, folded, shown
from desk.records import open_records
from desk.town import Town


class TripFile:
    """`trips.txt`, read once. Of the trips that are not selected it keeps those with a name that is asked, or one alike."""

    def __init__(self, town: Town, asked: Iterable[str] = ()) -> None:
        self.town = town
        self.services: Counter[str] = Counter()
        self.routes: set[str] = set()
        self.selected: dict[str, int] = {}
        self.others: dict[str, tuple[int, str]] = {}
        self.has_blocks = False
        self.without_block: list[int] = []
        self.other_blocks: dict[str, int] = {}
        self._asked: dict[str, str | None] = {folded(name): None for name in asked}
        self._read()

    def _read(self) -> None:
        """Reads the file."""
        is_selected = self.town.selection()
        with open_records(self.town.path("trips.txt")) as records:
            service, trip = records.column("service_id"), records.column("trip_id")
            route, block = records.find("route_id"), records.find("block_id")
            self.has_blocks = block is not None
            for number, fields in records:
                of_service = fields[service]
                self.services[of_service] += 1
                if route is not None:
                    self.routes.add(fields[route])
                stated = "" if block is None else fields[block]
                if is_selected(of_service):
                    self._select(number, fields[trip], stated)
                else:
                    self._pass_over(number, fields[trip], of_service, stated)

    def _select(self, number: int, name: str, block: str) -> None:
        """Takes note of a selected trip."""
        self.selected[name] = number
        if not block:
            self.without_block.append(number)

    def _pass_over(self, number: int, name: str, service: str, block: str) -> None:
        """Takes note of a trip that is not selected."""
        if block:
            self.other_blocks.setdefault(block, number)
        plain = folded(name) if self._asked else ""
        if plain in self._asked:
            self.others.setdefault(name, (number, service))
            self._asked[plain] = self._asked[plain] or name

    @cached_property
    def _known(self) -> Known:
        """The names of the trips of the day."""
        return Known(self.selected)

    def about(self, name: str) -> Finding | None:
        """Why a name that was asked is no trip of the day; None where it is one or nothing is known."""
        if name in self.selected:
            return None
        if name in self.others:
            return self._other_day(name)
        other = self._asked.get(folded(name))
        if other is not None and self._known.alike(name) is None:
            record, service = self.others[other]
            return Finding(f"{shown(name)} differs from {shown(other)} {difference(name, other)} alone, and that trip of service "
                           f"{shown(service)}, record {record} of trips.txt, is not selected", f"Write {shown(other)} where it is meant")
        return advice(name, self._known)

    def exists(self, name: str) -> bool:
        """Whether a name that was asked is that of a trip of the feed, selected or not."""
        return name in self.selected or name in self.others

    def _other_day(self, name: str) -> Finding:
        """Why a trip of the feed is not selected."""
        record, service = self.others[name]
        listed, running = self.town.selects()
        trip = f"trip {shown(name)} stands in record {record} of trips.txt, with service {shown(service)}"
        if running is not None and service not in running:
            date = self.town.date or datetime.date.min
            return Finding(f"{trip}, which does not run on {format_date(date)}, a {date:%A}",
                           "Take the record out, or plan a date on which it runs")
        if listed is not None and service not in listed:
            return Finding(f"{trip}, which `services` of desk.toml does not list", f"List {shown(service)} there, or take the record out")
        return Finding(trip, "Take the record out")
