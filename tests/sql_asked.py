"""What tests/sql asks of the library: filters of a type, their conditions, and their outcomes on rows."""
import ctypes
import functools
import json

import odfilter
from sql_tables import Document, columns_of

NOW = "2024-02-29T12:30:15.5+01:00"
CODES = {False: 0, True: 1, None: 2, "Overflow": 3, "DivideByZero": 4}
FORMS = ("columns", "document")


@functools.cache
def shape_of(document):
    return Document(json.loads(document))


@functools.cache
def type_of(document, name):
    return odfilter.Schema(document).type(name)


@functools.cache
def filter_of(document, name, text):
    """The checked filter; None for a text that is none."""
    try:
        return type_of(document, name).check(text)
    except odfilter.Refused:
        return None


@functools.cache
def conditions_of(document, name, text, dialect, form):
    """The conditions of a filter, each with its name and as it is written; or why there are none."""
    how = {"columns": columns_of(shape_of(document), name)} if form == "columns" else {"document": "doc"}
    try:
        found = filter_of(document, name, text).sql(dialect, NOW, **how)
    except odfilter.Unsayable as unsayable:
        return unsayable.name
    return {kind: it for kind, it in found._asdict().items() if it is not None}


def holds_literal(statement):
    """Whether a text has a literal of the client's; short ones may be there by chance."""
    return any(isinstance(it, str) and len(it) > 5 and it in statement.text for it in statement.parameters)


def outcomes_of(checked, rows):
    """The outcome of a filter on each row, by the library: as `Judge.verdict` calls it, but for the exceptions."""
    with checked.judge(NOW) as judge:
        owned, answer, codes = judge._open(), odfilter._Answer(), []
        call, library = functools.partial(owned.library._calls["judge_next"], owned.handle), owned.library
        for row in rows:
            status = call(row, ctypes.byref(answer))
            name = library._fault(status, answer.fault) if status != odfilter.OK else None
            codes.append(answer.verdict if name is None else CODES.get(name, name))
        return codes
