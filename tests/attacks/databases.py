"""Conditions of SQL in databases as they come: what PostgreSQL compiles, operators that another role has planted,
encodings and collations.
"""
import json
import os
import re
import sqlite3
import subprocess
import time

import odfilter
from built_library import MODULE
from sql_engines import PROGRAMS, Libpq, Postgres, Refused

INNER = {"$Kind": "ComplexType", "n": {"$Type": "Edm.Int32"}}
ITEM = {"ID": {"$Type": "Edm.Int32"}, "A": {}, "B": {}, "At": {"$Type": "Edm.DateTimeOffset"}}
ITEM["c"] = {"$Type": "N.C", "$Collection": True}
SCHEMA = json.dumps({"$Version": "4.01", "N": {"C": INNER, "T": {"$Kind": "EntityType", **ITEM}}})
ROW = {"ID": 1, "A": "Hello", "B": "hE", "At": "2020-01-01T00:00:00Z", "c": [{"n": 1}, {"n": 2}]}
NOW = "2024-02-29T12:30:15Z"
# filters of less than a kilobyte, each of which PostgreSQL answers on one row in so many seconds, as SQL.md advises
SOON = 2
COMPILED = [
    " or ".join(["c/any(x:x/n div x/n eq 2)"] * 24), " or ".join(["c/any(x:x/n eq 1)"] * 48),
    f"At in ({','.join(['At'] * 300)})", f"now() in ({','.join(['At'] * 300)})", " and ".join(["ID div ID eq 1"] * 50),
    f"ID in ({','.join(['ID div ID'] * 90)})",
]
# operators that another role plants in the first schema of the search path, and a filter that would call each
PLANTED = [
    (">=", "numeric", "integer", "boolean", "ID add 1 gt 2"), ("<=", "numeric", "integer", "boolean", "ID add 1 gt 2"),
    ("<", "numeric", "integer", "boolean", "substring(A,ID sub 1) eq 'a'"),
    ("*", "bigint", "numeric", "numeric", "At gt 2019-06-01T00:00:00Z"),
    ("+", "numeric", "integer", "numeric", "At gt 2019-06-01T00:00:00Z"),
]
# filters with the least number of 64 bits, whose digits alone are none
LEAST = ["ID gt -9223372036854775808", "-9223372036854775808 lt ID", "ID in (-9223372036854775808,1)"]
# filters over two texts, of which a column's own collation would take another view
COLLATED = [
    "startswith(A,B)", "endswith(A,'LO')", "contains(A,'EL')", "A eq 'HELLO'", "A in ('HELLO','x')", "A lt 'hello'",
    "indexof(A,'L') eq 2", "concat(A,B) eq 'HELLOHE'", "tolower(A) eq 'HELLO'", "trim(A) eq 'hello'", "B eq 'HE '",
]


def condition(text, dialect, **how):
    return odfilter.Schema(SCHEMA).type("N.T").check(text).sql(dialect, NOW, **how).keep


def verdict(text):
    return odfilter.Schema(SCHEMA).type("N.T").check(text).judge(NOW).verdict(json.dumps(ROW)) is True


def checks_of_compiled(postgres):
    """As SQL.md advises: in a transaction with `jit` off, on a server that has it on."""
    postgres.rows("CREATE TABLE one (doc jsonb)")
    postgres.rows("INSERT INTO one VALUES ($1)", [json.dumps(ROW)])
    for text in COMPILED:
        keep = condition(text, "postgresql", document="doc")
        postgres.rows("SET jit = on; BEGIN; SET LOCAL jit = off")
        begun = time.monotonic()
        found = postgres.rows(f"SELECT count(*) FROM one AS t WHERE {keep.text}", keep.parameters)
        seconds = time.monotonic() - begun
        postgres.rows("COMMIT")
        is_well = found == [(str(int(verdict(text))),)] and seconds < SOON and len(text) < 1_024
        yield f"compiled: {text[:40]}", is_well, (found, seconds)


def checks_of_notice(postgres):
    """postgresql.sql says what to do where `jit` is on."""
    words = [f"{PROGRAMS}/psql", "-qX", "-v", "ON_ERROR_STOP=1", "-h", postgres.room, "-U", "filters", "-d", "postgres"]
    for jit in ("on", "off"):
        env = {**os.environ, "PGOPTIONS": f"-c client_min_messages=notice -c jit={jit}"}
        path = f"{MODULE}/odfilter/postgresql.sql"
        done = subprocess.run([*words, "-f", path], env=env, capture_output=True, text=True, timeout=60, check=False)
        is_said = "SET LOCAL jit = off" in done.stderr
        yield f"the functions are made with jit {jit}", done.returncode == 0 and is_said == (jit == "on"), done


def checks_of_planted(postgres):
    """What is planted writes what its caller may read; none is called."""
    postgres.rows("CREATE ROLE eve; GRANT CREATE, USAGE ON SCHEMA public TO eve; CREATE TABLE loot (who text)")
    postgres.rows("GRANT INSERT ON loot TO public")
    postgres.rows('CREATE TABLE items ("ID" integer, "A" text, "B" text, "At" text)')
    postgres.rows("INSERT INTO items VALUES ($1, $2, $3, $4)", [ROW[it] for it in ("ID", "A", "B", "At")])
    for number, (operator, left, right, result, text) in enumerate(PLANTED):
        postgres.rows("SET SESSION AUTHORIZATION eve")
        postgres.rows(f"CREATE FUNCTION planted{number}(a {left}, b {right}) RETURNS {result} LANGUAGE plpgsql AS "
                      "$$ BEGIN INSERT INTO loot VALUES (current_user); RETURN NULL; END $$")
        of = f"LEFTARG = {left}, RIGHTARG = {right}, FUNCTION = planted{number}"
        postgres.rows(f"CREATE OPERATOR public.{operator} ({of})")
        postgres.rows("RESET SESSION AUTHORIZATION; SET search_path = public")
        keep = condition(text, "postgresql")
        found = postgres.rows(f"SELECT count(*) FROM items AS t WHERE {keep.text}", keep.parameters)
        loot = postgres.rows("SELECT * FROM loot")
        postgres.rows(f"TRUNCATE loot; RESET search_path; DROP OPERATOR public.{operator} ({left}, {right})")
        is_well = found == [(str(int(verdict(text))),)] and loot == []
        yield f"planted: {operator} of {left} and {right}", is_well, (found, loot)


def checks_of_written_values(postgres):
    """Values that a driver writes into the text, in parentheses, as docs/PYTHON.md says."""
    for text in LEAST:
        keep = condition(text, "postgresql")
        written = re.sub(r"\$(\d+)", lambda found, values=keep.parameters: f"({values[int(found[1]) - 1]})", keep.text)
        found = postgres.rows(f"SELECT count(*) FROM items AS t WHERE {written}")
        yield f"written into the text: {text}", found == [("1",)] and verdict(text), (written, found)


def checks_of_encodings(postgres):
    """postgresql.sql makes nothing in a database of another encoding."""
    for encoding in ("SQL_ASCII", "LATIN1", "EUC_JP"):
        how = f"ENCODING '{encoding}' LOCALE_PROVIDER libc LOCALE 'C' TEMPLATE template0"
        postgres.rows(f"CREATE DATABASE {encoding} {how}")
        client = Libpq(f"host={postgres.room} user=filters dbname={encoding.lower()}")
        try:
            client.rows(odfilter.postgresql_functions())
            said = "no error"
        except Refused as refused:
            said = str(refused)
        made = client.rows("SELECT nspname FROM pg_namespace WHERE nspname = 'odf'")
        client.close()
        yield f"a database in {encoding}", "UTF8" in said and made == [], (said, made)


def checks_of_collations():
    """SQLite's comparisons are those of bytes, whatever the collation of a column."""
    for first in ("NOCASE", "RTRIM", "BINARY"):
        for second in ("NOCASE", "RTRIM"):
            with sqlite3.connect(":memory:") as database:
                database.execute(f'CREATE TABLE t ("A" TEXT COLLATE {first}, "B" TEXT COLLATE {second})')
                database.execute("INSERT INTO t VALUES (?, ?)", (ROW["A"], ROW["B"]))
                for text in COLLATED:
                    keep = condition(text, "sqlite")
                    ((found,),) = database.execute(f"SELECT count(*) FROM t WHERE {keep.text}", keep.parameters)
                    yield f"{first} and {second}: {text}", found == int(verdict(text)), found


def attacks(_):
    yield from checks_of_collations()
    postgres = Postgres()
    try:
        postgres.rows(odfilter.postgresql_functions())
        yield from checks_of_compiled(postgres)
        yield from checks_of_notice(postgres)
        yield from checks_of_planted(postgres)
        yield from checks_of_written_values(postgres)
        yield from checks_of_encodings(postgres)
    finally:
        postgres.close()
