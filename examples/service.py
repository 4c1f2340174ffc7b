#!/usr/bin/env python3
"""A service of OData over a table: `service.py SCHEMA TYPE SET DATABASE [PORT]`.

DATABASE is a file of SQLite, or the URL (postgresql://..) of a PostgreSQL database in which postgresql.sql has run. Its
table `entities` has each entity's number in `id` and its JSON in `doc`. `GET /SET` returns what $filter keeps, by $skip
and $top, and how many by $count. A refused query, over 200 nodes and a fault get 400 and the standard's error body.
"""
import contextlib
import json
import re
import sqlite3
import sys
import time
from http.server import BaseHTTPRequestHandler, ThreadingHTTPServer
from urllib import parse

import odfilter

OPTIONS = {"filter": "(?s:.*)", "top": "[0-9]{1,18}", "skip": "[0-9]{1,18}", "count": "true|false"}
FAULTS = {3: "Overflow", 4: "DivideByZero"}


class Refusal(Exception):
    def __init__(self, code, message, status=400, **more):
        self.status, self.body = status, json.dumps({"error": {"code": code, "message": message, **more}})


@contextlib.contextmanager
def sqlite(path):
    """Yields a call that returns the rows of a query; all its queries see one state of the database."""
    with contextlib.closing(sqlite3.connect(f"file:{parse.quote(path)}?mode=ro", uri=True)) as connection:
        connection.execute("BEGIN")
        yield lambda text, values=(): connection.execute(text, values).fetchall()


@contextlib.contextmanager
def postgresql(url):
    """The same of PostgreSQL, whose driver writes parameters into the text: `-1::bigint` would negate `1::bigint`."""
    import psycopg2
    with contextlib.closing(psycopg2.connect(url)) as connection, connection.cursor() as cursor:
        cursor.execute("SET TRANSACTION ISOLATION LEVEL REPEATABLE READ READ ONLY; SET LOCAL jit = off")
        marked = lambda text: re.sub(r"\$\d+", "(%s)", text.replace("%", "%%"))
        yield lambda text, values=(): cursor.execute(marked(text), values) or cursor.fetchall()


def refuse_fault(rows, outcome, fault):
    """Refuses a filter that has a fault on some entity; `keep` leaves these out."""
    for (entity,) in rows(f"SELECT id FROM entities AS t WHERE {fault.text} ORDER BY id LIMIT 1", fault.parameters):
        ((code,),) = rows(f"SELECT {outcome.text} FROM entities AS t WHERE id = {entity}", outcome.parameters)
        raise Refusal(FAULTS[code], f"{FAULTS[code]} on the entity with the number {entity}.", target="$filter")


class Service(BaseHTTPRequestHandler):
    def page(self, query):
        options = {}
        for name, value in parse.parse_qsl(query, keep_blank_values=True):
            option = name.lower().removeprefix("$")
            if option in options or not re.fullmatch(OPTIONS.get(option, "(?!)"), value):
                raise Refusal("BadOption", f"'{name}={value}' is unknown, repeated or malformed.", target=name)
            options[option] = value
        now = time.strftime("%Y-%m-%dT%H:%M:%SZ", time.gmtime())
        checked = self.of_type.check_url(query if "filter" in options else "$filter=true")
        if checked.node_count > 200:
            raise Refusal("TooLarge", f"The filter has {checked.node_count} nodes, of at most 200.", target="$filter")
        outcome, keep, fault = checked.sql(self.snapshot.__name__, now, document="doc")
        kept = f"FROM entities AS t WHERE {keep.text}"
        with self.snapshot(self.database) as rows:
            if fault:
                refuse_fault(rows, outcome, fault)
            part = f"ORDER BY id LIMIT {options.get('top', 2**63 - 1)} OFFSET {options.get('skip', 0)}"
            texts = ",".join(text for (text,) in rows(f"SELECT CAST(doc AS text) {kept} {part}", keep.parameters))
            count = rows(f"SELECT count(*) {kept}", keep.parameters) if options.get("count") == "true" else []
        return "{" + "".join(f'"@odata.count":{number},' for (number,) in count) + f'"value":[{texts}]}}'

    def do_GET(self):
        path, _, query = self.path.partition("?")
        try:
            if path != f"/{self.entity_set}":
                raise Refusal("NotFound", f"There is nothing at {path}.", 404)
            status, body = 200, self.page(query)
        except (odfilter.Refused, odfilter.QueryRefused, odfilter.Unsayable) as refused:
            inner = {"innererror": {"pointer": refused.pointed()}} if isinstance(refused, odfilter.Refused) else {}
            status, body = 400, Refusal(refused.name, str(refused), target="$filter", **inner).body
        except Refusal as refusal:
            status, body = refusal.status, refusal.body
        self.send_response(status)
        self.send_header("Content-Type", "application/json;odata.metadata=none")
        self.send_header("OData-Version", "4.0")
        self.end_headers()
        self.wfile.write(body.encode())


if __name__ == "__main__":
    schema, name, Service.entity_set, Service.database, *port = sys.argv[1:]
    with open(schema, "rb") as document:
        Service.of_type = odfilter.Schema(document.read()).type(name)
    Service.snapshot = staticmethod(postgresql if Service.database.startswith("postgresql:") else sqlite)
    with ThreadingHTTPServer(("127.0.0.1", int((port or [8080])[0])), Service) as server:
        print(f"http://127.0.0.1:{server.server_port}", flush=True)
        server.serve_forever()
