"""Texts that are stored under other collations than their bytes' order, or in another encoding: for tests/sql.

Two columns of texts, and those that SQLite has as texts too, are of a collation that passes over the case of letters or
spaces at the end, on either side; and so is the column of JSON.
"""
import itertools
import json
import re

from sql_engines import Libpq, Refused
from sql_tables import Document, columns_of
from sql_wrong import replaced

DOCUMENT = json.dumps({
    "$Version": "4.01",
    "C": {
        "Row": {
            "$Kind": "EntityType", "A": {}, "B": {"$Nullable": True}, "Texts": {"$Collection": True}, "Kind": {"$Type": "C.Kind"},
            "Day": {"$Type": "Edm.Date"}, "Id": {"$Type": "Edm.Guid"}, "At": {"$Type": "Edm.DateTimeOffset"},
        },
        "Kind": {"$Kind": "EnumType", "Red": 1, "RED": 2, "red": 3},
    },
}).encode()
NAME = "C.Row"
TEXTS = ["", " ", "hE", "He", "he", "HELLO", "Hello", "hello", "x", "x ", "X ", " x", "ello", "LLO", "lo ", None]
MOMENTS = ["2020-02-29T00:00:00Z", "2020-02-29t00:00z", "2020-02-29T01:00:00+01:00", "2020-02-28T23:59:59.5Z"]
DAY, GUID = "2020-02-29", "01234567-89ab-cdef-0123-456789abcdef"
KINDS = ["Red", "RED", "red"]
ROWS = [
    json.dumps({"A": a, "B": b, "Day": DAY, "Id": GUID, "Texts": [b or "HE", a], "Kind": kind, "At": at}).encode()
    for (a, b), kind, at in zip(itertools.product(TEXTS[:-1], TEXTS), itertools.cycle(KINDS), itertools.cycle(MOMENTS))
]
SIDES = [("A", "B"), ("B", "A"), ("A", "'hE'"), ("'hello '", "B"), ("A", "concat(B,'')"), ("tolower(A)", "B")]
SIDES += [("substring(A,1)", "substring(B,0,3)"), ("trim(A)", "B"), ("B", "tolower(B)"), ("trim(B)", "B"), ("A", "null")]
FILTERS = [
    *(f"{a} {operator} {b}" for a, b in SIDES for operator in ("eq", "ne", "gt", "ge", "lt", "le")),
    *(f"{function}({a},{b})" for a, b in SIDES for function in ("startswith", "endswith", "contains")),
    *(f"indexof({a},{b}) ge 0" for a, b in SIDES),
    *(f"{a} in ({b},'HELLO',null)" for a, b in SIDES if a != "null"),
    "A in ('hE','X','x')", "B in ('hE','X','x')", "A in Texts", "B in Texts", "Texts/any(t:t eq A)",
    "Texts/all(t:startswith(B,t))", "Kind eq 'Red'", "Kind in ('RED','red')", "second(At) eq 0", f"date(At) eq {DAY}",
    "substring(A,1 div length(B)) eq B", "startswith(substring(A,1 div length(B)),B)",
    f"Day eq {DAY}", f"Day in ({DAY})", f"Day lt {DAY}", f"Id eq {GUID.upper()}", f"Id in ({GUID})",
    f"At eq {MOMENTS[0]}", f"At lt {MOMENTS[1]}",
]
IN_TURN = ("A", "B", "Day", "Id", "At", "Texts")
COLLATED = {"sqlite": ("NOCASE", "RTRIM"), "postgresql": ("loose", "spaceless")}
# what a translator would get wrong: texts by the collation of a column
WRONG = {
    "sqlite": {
        "a comparison": lambda text: re.sub(r" COLLATE BINARY (=|<>|<=?|>=?) (?!b )", r" \1 ", text),
        "a part of a text": replaced(" COLLATE BINARY = b ", " = b "), "a list": replaced(" COLLATE BINARY IN ", " IN "),
        "sameness": replaced(" COLLATE BINARY IS ", " IS "),
    },
    "postgresql": {"a comparison": replaced(' COLLATE "C" OPERATOR', " OPERATOR"), "a list": replaced(' COLLATE "C" IN ', " IN ")},
}
# case and accents count for nothing, and spaces and punctuation count for nothing
LOOSE = [
    "CREATE COLLATION IF NOT EXISTS loose (provider = icu, locale = 'und-u-ks-level1', deterministic = false)",
    "CREATE COLLATION IF NOT EXISTS spaceless (provider = icu, locale = 'und-u-ka-shifted', deterministic = false)",
]


def collate(engine, dialect, turned):
    """Makes the group's tables anew, the columns of texts by one collation and the other in turn."""
    names = columns_of(Document(json.loads(DOCUMENT)), NAME)
    collations = dict(zip(IN_TURN, itertools.cycle(COLLATED[dialect][:: -1 if turned else 1])))
    if dialect == "postgresql":
        for statement in LOOSE:
            engine.rows(statement)
        for it in ("A", "B", "At"):
            engine.rows(f"ALTER TABLE rows_columns ALTER {names[it]} TYPE text COLLATE {collations[it]}")
        return
    columns = ", ".join(
        f"{name} TEXT COLLATE {collations[it]}" if it in collations else f"{name} INTEGER" for it, name in names.items()
    )
    for table, named in (("rows_columns", columns), ("rows_document", f"doc TEXT COLLATE {collations['A']}")):
        engine.rows(f"CREATE TABLE collated (id integer, {named})")
        engine.rows(f"INSERT INTO collated SELECT * FROM {table}")
        engine.rows(f"DROP TABLE {table}")
        engine.rows(f"ALTER TABLE collated RENAME TO {table}")


def ask_encodings(tally, postgres, made):
    """In a database of another encoding than UTF8 the functions are refused by its name, and nothing is made."""
    for encoding in ("SQL_ASCII", "LATIN1", "EUC_JP"):
        postgres.rows(f"CREATE DATABASE other TEMPLATE template0 LOCALE_PROVIDER libc LOCALE 'C' ENCODING '{encoding}'")
        other = Libpq(f"host={postgres.room} user=filters dbname=other")
        try:
            other.rows(made)
            said = "nothing"
        except Refused as refused:
            said = str(refused)
        there = other.rows("SELECT nspname FROM pg_namespace WHERE nspname = 'odf'")
        other.close()
        postgres.rows("DROP DATABASE other")
        tally.count["asked"] += 1
        if there or "UTF8" not in said or encoding not in said:
            tally.wrong("ENCODING", encoding, said, there)
