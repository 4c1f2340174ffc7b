"""Conditions of SQL: what `Filter.sql` returns, and how it asks the library for them."""
from __future__ import annotations

import ctypes
import json
import os
from typing import Any, Mapping, NamedTuple, Optional, Union

from ._errors import Error, MomentNeeded, NotAMoment, UnknownColumn, Unsayable
from ._library import MOMENT_NEEDED, NOT_A_MOMENT, OK, TOO_SMALL, UNKNOWN_COLUMN
from ._library import Library, _Answer, _borrowed_text, _buffer_of

# the forms of odfilter.h, by the dialect and whether one column has the row as JSON
_FORMS = {("postgresql", False): 0, ("postgresql", True): 1, ("sqlite", False): 2, ("sqlite", True): 3}


class Statement(NamedTuple):
    """An expression of SQL over a table `t`, and the values of its parameters, which are numbered from 1."""

    text: str
    parameters: list[Union[int, str]]


class Conditions(NamedTuple):
    """What a filter says of the rows of a table.

    `outcome` is a number: 0 for false, 1 for true, 2 for null, 3 for Overflow and 4 for DivideByZero. `keep` is true
    where the filter is, and `fault` where it has a fault; `fault` is None where no row can have one.
    """

    outcome: Statement
    keep: Statement
    fault: Optional[Statement]


def postgresql_functions() -> str:
    """The statements that make what conditions for PostgreSQL call, the functions of a schema `odf`.

    Run them once in each database, as a user who may create a schema there. Where its encoding is not UTF8 they are an
    error and make nothing. Conditions are asked with `SET LOCAL jit = off`, which no function can say for a query.
    """
    with open(os.path.join(os.path.dirname(os.path.realpath(__file__)), "postgresql.sql"), encoding="utf-8") as file:
        return file.read()


def form_of(dialect: str, document: Optional[str]) -> int:
    """The number of a form."""
    form = _FORMS.get((dialect, document is not None))
    if form is None:
        raise ValueError(f"a dialect is postgresql or sqlite, not {dialect!r}")
    return form


def conditions_of(library: Library, handle: Any, form: int, now: Optional[str], lines: list[str]) -> Conditions:
    """The conditions of the filter of a handle; the lines are those about columns."""
    if now is not None and _borrowed_text(now, "a moment") and (now == "" or "\n" in now):
        raise library._worded(NotAMoment(), NOT_A_MOMENT, _Answer(), now)
    how, size = _borrowed_text("\n".join([now or "", *lines]), "a name"), 4096
    while True:
        (room, text), answer = _buffer_of(size), _Answer()
        status = library._call("sql", handle, form, how, text, ctypes.byref(answer))
        if status != TOO_SMALL:
            break
        size = answer.length
    if status != OK:
        raise _unsaid(library, status, answer, now or "")
    found = json.loads(room[: answer.length])
    return Conditions(*(Statement(**found[it]) if it in found else None for it in Conditions._fields))


def columns_in(library: Library, columns: Mapping[str, str], document: Optional[str]) -> list[str]:
    """The lines about columns, or the name of the one."""
    if document is not None:
        return [document]
    if any("=" in name for name in columns):
        raise _unsaid(library, UNKNOWN_COLUMN, _Answer(), "")
    lines = [f"{name}={column}" for name, column in columns.items()]
    if any("\n" in line for line in lines):
        raise ValueError("the name of a column has a line feed")
    return lines


def _unsaid(library: Library, status: int, answer: _Answer, now: str) -> Error:
    """Why a filter has no conditions."""
    if status == MOMENT_NEEDED:
        return library._worded(MomentNeeded(), status, answer, "")
    if status == NOT_A_MOMENT:
        return library._worded(NotAMoment(), status, answer, now)
    error = UnknownColumn() if status == UNKNOWN_COLUMN else Unsayable(library._fault(status, answer.fault))
    return library._worded(error, status, answer, "")


# They are the module's own: so are they shown, and sent to other processes.
for _it in (Statement, Conditions, postgresql_functions):
    _it.__module__ = __package__
