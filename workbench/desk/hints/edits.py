"""Which field of a record is wrong that is not an edit, and what its form is."""
from __future__ import annotations

import re
from collections.abc import Sequence

from desk.hints.names import Known, shown
from desk.records import is_utf8
from desk.times import parse_minute

FORMS = {
    "shift": "shift,TRIP,+5", "cancel": "cancel,TRIP", "restore": "restore,TRIP",
    "extra": "extra,TRIP,FROM,TO,07:05,07:40", "undo": "undo", "redo": "redo", "show": "show"}
"""The edits, each with its form."""

SHIFT = re.compile(r" *[+-]?([0-9]{1,3}) *")
MOST_SHIFT = 120
ALONE = ("redo", "show")
"""The edits that a planner's record may not have."""


def is_edit(fields: Sequence[str]) -> bool:
    """Whether the fields of a record, without empty ones at the end, are an edit."""
    return wrong(fields) is None


def wrong(fields: Sequence[str]) -> str | None:
    """What makes a record no edit, in words; None where it is one. Its last field is not empty."""
    word = fields[0].strip(" ")
    if word not in FORMS:
        return _wrong_word(word, fields)
    form = FORMS[word].split(",")
    if len(fields) != len(form):
        return _wrong_number(word, len(fields), len(form))
    for column, value in zip(form[1:], fields[1:]):
        why = _wrong_field(column, value)
        if why:
            return why
    return None


def wrong_of_planner(fields: Sequence[str]) -> str | None:
    """What makes a record of `planner_edits.csv` no edit of a planner; None where it is one."""
    if not fields[0]:
        return "the planner's name is missing in its first field, as in `ann,cancel,TRIP`"
    if not is_utf8(fields[0]):
        return "the planner's name is not UTF-8"
    if len(fields) == 1:
        return "an edit is missing behind the planner's name, as in `ann,cancel,TRIP`"
    word = fields[1].strip(" ")
    if word in ALONE:
        return f"`{word}` is no edit of a planner"
    if fields[0].strip(" ") in FORMS and word not in FORMS:
        return f"the planner's name is missing in front of `{fields[0].strip(' ')}`, as in `ann,cancel,TRIP`"
    return wrong(fields[1:])


def _wrong_word(word: str, fields: Sequence[str]) -> str:
    """What is wrong with the first word of a record."""
    if word.startswith(("#", "//")):
        return "a comment may not stand in a script; take it out"
    for letter, name in ((";", "semicolons"), ("\t", "tabs")):
        if len(fields) == 1 and letter in word:
            return f"{name} stand between its fields; write commas in their place"
    if not word:
        return "its first field is empty; write an edit there, as `cancel,TRIP`"
    known = Known(FORMS)
    meant = known.alike(word) or known.nearest(word)
    if meant:
        return f"{shown(word)} is no edit; write `{meant}` in small letters, as in `{FORMS[meant]}`"
    return f"{shown(word)} is no edit; the edits are {', '.join(f'`{form}`' for form in FORMS.values())}"


def _wrong_number(word: str, has: int, wants: int) -> str:
    """That a record has too many or too few fields."""
    form = f"`{word}` has the form `{FORMS[word]}`"
    if has > wants > 1:
        return f"{form}, and this record has {has} fields in place of {wants}; a name with a comma stands in double quotes"
    if has > wants:
        return f"`{word}` stands alone; take out what stands behind it"
    return f"{form}, and this record has {has} of its {wants} fields"


def _wrong_field(column: str, value: str) -> str | None:
    """What is wrong with a field by this form; None where nothing is."""
    if column == "+5":
        return _wrong_shift(value)
    if ":" in column:
        return _wrong_minute(value)
    if not is_utf8(value):
        return f"the field {column} is not UTF-8: {shown(value)}"
    return "the field TRIP is empty" if not value and column == "TRIP" else None


def _wrong_shift(value: str) -> str | None:
    """What is wrong with the minutes of a shift."""
    found = SHIFT.fullmatch(value)
    if found is None:
        return f"the shift {shown(value)} is no number of minutes; write `+5` or `-5`, a sign and digits alone"
    if int(found[1]) == 0:
        return "a shift of 0 minutes is none; take the record out"
    return None if int(found[1]) <= MOST_SHIFT else f"the shift {shown(value)} is above {MOST_SHIFT} minutes, the most of a shift"


def _wrong_minute(value: str) -> str | None:
    """What is wrong with a minute of an extra trip."""
    if parse_minute(value) is not None:
        return None
    if re.fullmatch(r" *[0-9]{1,2}:[0-9]{2}:[0-9]{2} *", value):
        return f"the time {shown(value)} has seconds; write hours and minutes alone, as `07:05`"
    return f"the time {shown(value)} is none; write hours and two digits of minutes, as `07:05`, or `24:05` after midnight"
