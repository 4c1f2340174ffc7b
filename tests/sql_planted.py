"""Operators and functions that another role plants in the first schema of a search path: for tests/sql, which sees that
conditions for PostgreSQL, and the functions that these call, are bound to none of them; and that docs/SQL.md lists what
the texts name.

Planted is each operator and each function that the texts name, over all pairs of the types that occur, and over types
that take any value. A view over a condition is recorded as depending on what PostgreSQL found for it, whether a row
reaches that or not. A call of what is planted is an error.
"""
import contextlib
import itertools
import re

from built_library import TOP
from sql_engines import Libpq, Refused
from sql_wrong import changed, replaced

TYPES = ["boolean", "smallint", "integer", "bigint", "numeric", "text", "date", "uuid", "jsonb", "text[]", "bigint[]"]
ANY = ["anyelement", "anycompatible"]
WORDS = {"AND", "AS", "CASE", "CAST", "COALESCE", "ELSE", "EXISTS", "FROM", "FUNCTION", "IN", "NOT", "NULLIF", "OPERATOR"}
WORDS |= {"OR", "RETURN", "SELECT", "THEN", "TYPE", "WHEN", "WHERE"}
TRUTH = {"=", "<>", "<", ">", "<=", ">=", "~"}
# what a translator would get wrong, each of which is to be bound to something planted
WRONG = {
    "an operator without its schema": changed(r"OPERATOR\(pg_catalog\.([<>=]+)\)", r"\1"),
    "a bound without its type": replaced("(-2147483648)::numeric", "-2147483648"),
    "whole numbers of two types": changed(
        r"\)::numeric IS NOT DISTINCT FROM \((.*?)\)::numeric", r") IS NOT DISTINCT FROM (\1)",
    ),
    "bits of two types": changed(r"\)::bigint & \((.*?)\)::bigint", r") & (\1)"),
    "a member's name without its type": changed(r"(->>? '\w+')::text", r"\1"),
    "no path, without its type": replaced("'{}'::text[]", "'{}'"),
}


def named_in(text):
    """The operators and the functions that a text of SQL names, outside quotes."""
    text = re.sub(r"--.*|'(?:[^']|'')*'|\"(?:[^\"]|\"\")*\"|::|:=", " ", text)
    functions = {name for name in re.findall(r"(\w+)\(", text) if not re.fullmatch(r"[ms]\d+", name)}
    return set(re.findall(r"[-+*/<>=~!@#%^&|`?]+", text)), functions - WORDS


def ask_listed(tally, dialect, texts):
    """The functions that texts of a dialect name are those that docs/SQL.md lists, beside those of `jsonb` and `odf`."""
    with open(f"{TOP}/docs/SQL.md", encoding="utf-8") as page:
        [row] = [line for line in page if line.startswith("| functions |")]
    listed = set(re.findall(r"`(\w+)`", row.split("|")[2 if dialect == "postgresql" else 3])) - {"jsonb", "odf"}
    # a table of the text itself has its columns in parentheses
    functions = named_in(re.sub(r"\b(odf\.|jsonb_)\w+\(|\bw\(n, i, a\)", "(", " ".join(texts)))[1]
    tally.count["asked"] += 1
    if functions != listed:
        tally.wrong("FUNCTIONS OF SQL.md", dialect, sorted(functions ^ listed))


def planting(operators, functions):
    """The statements that plant them in a schema `planted`."""
    body = "LANGUAGE plpgsql AS $$ BEGIN RAISE EXCEPTION 'planted'; END $$"

    def taking(name, gives, *types):
        return f"CREATE FUNCTION planted.{name}({', '.join(types)}) RETURNS {gives} {body}"

    for left, right in [*itertools.product(TYPES, TYPES), *((it, it) for it in ANY)]:
        gives = "boolean" if left in ANY else left
        yield from (taking("truth", "boolean", left, right), taking("value", gives, left, right))
        for operator in sorted(operators):
            call = "planted.truth" if operator in TRUTH else "planted.value"
            yield f"CREATE OPERATOR planted.{operator} (LEFTARG = {left}, RIGHTARG = {right}, FUNCTION = {call})"
        for function in sorted(functions):
            yield taking(function, gives, left, right)
            yield from (taking(function, gives, left, right, third) for third in sorted({right, "integer", "text"}))
    for only in TYPES:
        yield taking("alone", only, only)
        yield from (taking(function, only, only) for function in sorted(functions))
        for operator in sorted(operators & {"-", "~"}):
            yield f"CREATE OPERATOR planted.{operator} (RIGHTARG = {only}, FUNCTION = planted.alone)"


BOUND = """WITH planted AS (
    SELECT 'pg_operator'::regclass AS kind, oid FROM pg_operator WHERE oprnamespace = 'planted'::regnamespace UNION ALL
    SELECT 'pg_proc', oid FROM pg_proc WHERE pronamespace = 'planted'::regnamespace),
  bound AS (SELECT classid, objid FROM pg_depend JOIN planted ON refclassid = kind AND refobjid = oid)
  SELECT DISTINCT relname FROM bound JOIN pg_rewrite w ON classid = 'pg_rewrite'::regclass AND objid = w.oid
    JOIN pg_class c ON ev_class = c.oid
  UNION SELECT proname FROM bound JOIN pg_proc p ON classid = 'pg_proc'::regclass AND objid = p.oid
    WHERE pronamespace = 'odf'::regnamespace"""


class Planted:
    """What another role planted in a server, of all that some texts name; for a connection there."""

    def __init__(self, postgres, texts):
        self.postgres = postgres
        self.operators, self.functions = named_in(" ".join(texts))
        postgres.rows("CREATE ROLE gardener LOGIN; CREATE SCHEMA planted AUTHORIZATION gardener; CREATE SCHEMA probes")
        gardener = Libpq(f"host={postgres.room} user=gardener dbname=postgres")
        try:
            planting_all = list(planting(self.operators, self.functions))
            for at in range(0, len(planting_all), 500):
                gardener.rows("; ".join(planting_all[at : at + 500]))
        finally:
            gardener.close()

    @contextlib.contextmanager
    def first(self):
        """What is planted comes first, but for `pg_catalog`, until all that is done then is undone."""
        self.postgres.rows("BEGIN; SET LOCAL search_path = planted, public")
        try:
            yield
        finally:
            self.postgres.rows("ROLLBACK")

    def bound(self):
        self.postgres.rows("SET LOCAL search_path = pg_catalog")
        return [name for (name,) in self.postgres.rows(BOUND)]

    def conditions_bound(self, found):
        """Which of some conditions are bound to something planted, or refused for it."""
        return [it for at in range(0, len(found), 1000) for it in self.some_bound(found[at : at + 1000])]

    def some_bound(self, found):
        """The same of so few that one transaction holds their views."""
        refused = []
        with self.first():
            for number, (table, texts) in enumerate(found):
                shown = ", ".join(f"({re.sub(r'[$][0-9]+::', 'NULL::', it)}) AS v{at}" for at, it in enumerate(texts))
                self.postgres.rows("SAVEPOINT before")
                try:
                    self.postgres.rows(f"CREATE VIEW probes.v{number} AS SELECT {shown} FROM {table} AS t")
                except Refused:
                    self.postgres.rows("ROLLBACK TO before")
                    refused.append(number)
            return [found[number] for number in [*refused, *(int(name[1:]) for name in self.bound())]]

    def functions_bound(self, made):
        """Which functions of `odf` are, where its statements run with what is planted first."""
        with self.first():
            self.postgres.rows("DROP SCHEMA odf CASCADE")
            self.postgres.rows(made)
            return self.bound()


def ask_planted(tally, planted, found, made):
    """No condition, and no function, is bound to anything planted; the conditions of each wrong translator are.

    Of a condition there is its table, and its texts.
    """
    bound = [("CONDITION", *it) for it in planted.conditions_bound(found)]
    bound += [("FUNCTION", name) for name in planted.functions_bound(made)]
    for about in bound:
        tally.wrong("BOUND TO WHAT IS PLANTED", *about)
    tally.count["asked"] += len(found)
    for about, change in WRONG.items():
        changed_texts = [(table, [*map(change, texts)]) for table, texts in found]
        other = [new for new, old in zip(changed_texts, found) if new != old]
        if other and planted.conditions_bound(other[:60]):
            tally.count["wrong types seen"] += 1
            tally.count["asked"] += 1
        else:
            tally.wrong("NOT SEEN", about, len(other))
