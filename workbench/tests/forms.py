"""Whether an answer as JSON is of the form that `json_forms` has for it."""
from __future__ import annotations

import types
from typing import Any, Literal, get_args, get_origin, get_type_hints, is_typeddict

from desk.json_forms import FORMS, FeedRefused


def is_of(value: Any, form: Any, met: set[str] | None = None) -> bool:
    """Whether a value has a form: of an object its keys and no others. The names of the objects that are met are put into `met`."""
    if is_typeddict(form):
        keys = get_type_hints(form)
        is_met = (isinstance(value, dict) and form.__required_keys__ <= set(value) <= set(keys)
                  and all(is_of(it, keys[key], met) for key, it in value.items()))
        if is_met and met is not None:
            met.add(form.__name__)
        return is_met
    if get_origin(form) is list:
        return isinstance(value, list) and all(is_of(it, get_args(form)[0], met) for it in value)
    if get_origin(form) is types.UnionType:
        return any(is_of(value, it, met) for it in get_args(form))
    if get_origin(form) is Literal:
        return any(value is it or (isinstance(it, str) and value == it) for it in get_args(form))
    return type(value) is form


def is_answer(command: str, value: Any, met: set[str] | None = None) -> bool:
    """Whether a value is of the form of a command's answer, or of a refused feed where the command may answer so."""
    form = FORMS[command] if command in ("notes", "compare", "days", "plan", "figures", "rules") else FORMS[command] | FeedRefused
    return is_of(value, form, met)


def objects_of(form: Any) -> set[str]:
    """The names of the objects in a form."""
    if is_typeddict(form):
        return {form.__name__}.union(*(objects_of(it) for it in get_type_hints(form).values()))
    return set().union(*(objects_of(it) for it in get_args(form) if not isinstance(it, (str, bool))))
