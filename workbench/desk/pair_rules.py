"""Rules of pairs of trips: those of `pairs.csv`, and the trips that the agency's `transfers.txt` links."""
from __future__ import annotations

from collections.abc import Collection, Iterable, Sequence
from typing import NamedTuple

from desk.errors import DeskError
from desk.neighbours import Pair
from desk.records import Records, open_records, record_text, records_of, with_rows, without_records
from desk.town import Town

FILE, COLUMNS = "pairs.csv", ("before", "after", "rule")
"""The file and its columns."""

KEEP, NEVER = "keep", "never"
"""The rules of two trips that a vehicle makes one straight after the other, and that none makes so."""

TRANSFERS, IN_SEAT = "transfers.txt", "4"
"""The agency's file of transfers, and the `transfer_type` of two trips that a rider makes without a change of vehicle."""


class Rule(NamedTuple):
    """A record of `pairs.csv`."""

    record: int
    before: str
    after: str
    rule: str

    @property
    def pair(self) -> Pair:
        """Its two trips."""
        return self.before, self.after

    @property
    def keeps(self) -> bool:
        """Whether it keeps the two together."""
        return self.rule == KEEP


def read_rules(town: Town) -> list[Rule]:
    """The records of `pairs.csv`; none where it is not there."""
    if not town.has(FILE):
        return []
    with open_records(town.path(FILE)) as records:
        return _rules_of(records)


def _rules_of(records: Records) -> list[Rule]:
    """The rules of records."""
    before, after, rule = (records.column(column) for column in COLUMNS)
    return [Rule(number, fields[before], fields[after], fields[rule].strip(" ")) for number, fields in records]


def in_the_way(rules: Iterable[Rule], fresh: Collection[Rule]) -> list[Rule]:
    """The rules beside which the program refuses one of these."""
    return [rule for rule in rules if any(_clash(rule, other) for other in fresh)]


def _clash(one: Rule, other: Rule) -> bool:
    """Whether two rules are of the same two trips, or keep one trip on the same side with two."""
    return one.pair == other.pair or one.keeps and other.keeps and (one.before == other.before or one.after == other.after)


def rewritten(content: bytes, taken: Collection[Rule], added: Sequence[Rule]) -> bytes:
    """The bytes of a `pairs.csv` without the records of some rules, and with other rules behind it. All other records stay as they are.

    A file that is empty, since it is not there, gets its header.
    """
    left = without_records(content or record_text(COLUMNS).encode(), {rule.record for rule in taken})
    written = with_rows(left, [dict(zip(COLUMNS, rule[1:])) for rule in added])
    was, now = (_rules_of(records_of(FILE, text.decode("utf-8", "surrogateescape"))) for text in (left, written))
    if [rule[1:] for rule in now] != [rule[1:] for rule in (*was, *added)]:
        raise DeskError(f"{FILE}: a quote is not closed, and takes in all that stands behind it")
    return written


def rules_text(rules: Iterable[Rule]) -> str:
    """A `pairs.csv` of these rules."""
    return record_text(COLUMNS) + "".join(record_text([rule.before, rule.after, rule.rule]) for rule in rules)


def linked_trips(town: Town) -> dict[Pair, int]:
    """The pairs of trips that `transfers.txt` links, each with its first record; none where it is not there or links none."""
    path = town.agency_path(TRANSFERS)
    found: dict[Pair, int] = {}
    if not path.is_file():
        return found
    with open_records(path) as records:
        places = [records.find(column) for column in ("transfer_type", "from_trip_id", "to_trip_id")]
        if None in places:
            return found
        for number, fields in records:
            kind, before, after = (fields[at] for at in places if at is not None)
            if kind.strip(" ") == IN_SEAT and before and after and before != after:
                found.setdefault((before, after), number)
    return found
