#!/usr/bin/env python3
"""A page on which filters are tried: `try_page.py [PORT]`, then open the address that it prints.

It serves one page on loopback, try_page.html, which takes nothing from elsewhere: a schema, a type, a filter and rows,
and as one types the answer. The module odfilter is installed, or on PYTHONPATH. State is in the page's URL, after the
`#`, which no browser sends: a link shows a colleague the same, on a page of their own.
"""
import functools
import json
import re
import secrets
import sys
import time
from http.server import BaseHTTPRequestHandler, ThreadingHTTPServer
from os.path import dirname, join, realpath

import odfilter
from try_page_data import START

BODY_LIMIT = 1 << 24  # bytes of one question
LINE_LIMIT = 1 << 20  # bytes of a row, as `odfilter filter` has it
BOUND = 1_000_000  # what the filter may cost on a row, times its nodes, so that this bounds the time
SECONDS = 5  # in which the rows of one question are judged; those that are left then have no verdict
HOSTS = ("127.0.0.1", "localhost")
POLICY = "default-src 'none'; script-src 'nonce-{0}'; style-src 'nonce-{0}'; connect-src 'self'; img-src data:; "
POLICY += "base-uri 'none'; form-action 'none'; frame-ancestors 'none'; require-trusted-types-for 'script'"


@functools.lru_cache(maxsize=4)
def schema_of(text):
    """A schema, and the names of its entity types."""
    schema, names = odfilter.Schema(text), []
    for namespace, types in json.loads(text).items():
        if not namespace.startswith("$") and "@" not in namespace:
            made = [(name, it) for name, it in types.items() if isinstance(it, dict) and not name.startswith("$")]
            names += [f"{namespace}.{name}" for name, it in made if it.get("$Kind") == "EntityType"]
    return schema, names


def shown_fault(fault):
    """A fault as the page shows it: its sentence, and the program's line for it where that says something else."""
    sentence, line = str(fault), getattr(fault, "program_line", "")
    return {"sentence": sentence, "line": "" if line == sentence else line}


def offsets(text):
    """The offset in UTF-16, as a script counts, of each byte at which a character begins, and of the end."""
    found, bytes_before, units_before = {}, 0, 0
    for character in text:
        found[bytes_before] = units_before
        bytes_before += len(character.encode("utf-8", "surrogatepass"))
        units_before += 1 + (ord(character) > 0xFFFF)
    return {**found, bytes_before: units_before}


def tree_of(explanation, places):
    """The nodes of an explanation: of each its depth, start, stop, label, type, and its span in bytes."""
    for line in explanation.splitlines():
        inner = line.lstrip(" ")
        span, _, rest = inner.partition(" ")
        start, stop = map(int, span.split(".."))
        label, _, kind = rest.rpartition(" ")
        yield [(len(line) - len(inner)) // 2, places[start], places[stop], label, kind, span]


def units_before(text, offset):
    """How many units of UTF-16 stand before a byte of a text."""
    return len(text.encode()[:offset].decode().encode("utf-16-le")) // 2


def verdict_of(judge, line, ends):
    if len(line) > LINE_LIMIT:
        return {"fault": "LineTooLong", "path": "", "sentence": "LineTooLong"}
    if time.monotonic() > ends:
        return {"fault": "NotJudged", "path": "", "sentence": f"The rows before this one took {SECONDS} seconds."}
    try:
        return {True: "true", False: "false", None: "null"}[judge.verdict(line)]
    except odfilter.TooCostly:
        return {"fault": "TooCostly", "path": "", "sentence": "On this row the filter costs more than the page allows."}
    except odfilter.RowFault as fault:
        return {"fault": fault.name, "path": fault.path, "sentence": str(fault)}


def judged(accepted, asked):
    """Of each line with a row its number, from 0, and its verdict; nothing where the moment is at fault."""
    try:
        judge = accepted.judge(asked["now"] if accepted.needs_moment else None, BOUND // accepted.node_count)
        ends = time.monotonic() + SECONDS
        lines = enumerate(asked["rows"].encode("utf-8", "surrogatepass").split(b"\n"))
        return {"rows": [[number, verdict_of(judge, line, ends)] for number, line in lines if line.strip(b" \t\r")]}
    except (odfilter.NotAMoment, odfilter.NotUtf8) as fault:
        return {"moment": shown_fault(fault)}


def answer(asked):
    """What the page shows of a question."""
    try:
        schema, names = schema_of(asked["schema"])
    except (odfilter.SchemaFault, odfilter.NotUtf8) as fault:
        is_xml = asked["schema"].lstrip("\ufeff \t\r\n").startswith("<")
        hint = "This is XML: recipes/csdl_json.py makes a schema of it." if is_xml else ""
        return {"schema": {**shown_fault(fault), "hint": hint}}
    shown = {"types": names}
    try:
        of_type = schema.type(asked["type"] or (names or [""])[0])
    except odfilter.Error as fault:
        return {**shown, "type": shown_fault(fault)}
    try:
        accepted, places = of_type.check(asked["filter"]), offsets(asked["filter"])
    except odfilter.Refused as fault:
        start, stop = (units_before(asked["filter"], it) for it in (fault.start, fault.stop))
        span = {"name": fault.name, "start": start, "stop": stop}
        return {**shown, "refused": {**shown_fault(fault), **span}}
    except odfilter.Error as fault:
        return {**shown, "refused": {**shown_fault(fault), "name": type(fault).__name__, "start": 0, "stop": 0}}
    tree = list(tree_of(accepted.explanation, places))
    return {**shown, "canonical": accepted.canonical, "tree": tree, **judged(accepted, asked)}


class Page(BaseHTTPRequestHandler):
    protocol_version = "HTTP/1.1"

    def is_ours(self):
        """Whether the page itself asks: another site's would name another host, or may not send JSON unasked."""
        return self.headers.get("Host", "").rpartition(":")[0] in HOSTS

    def do_GET(self):  # pylint: disable=invalid-name
        if not self.is_ours() or self.path.partition("?")[0] != "/":
            return self.send(404, "text/plain", b"not here\n")
        nonce = secrets.token_urlsafe(16)
        with open(join(dirname(realpath(__file__)), "try_page.html"), encoding="utf-8") as file:
            page = file.read().replace("NONCE", nonce)
        page = page.replace("EXAMPLES", json.dumps(START).replace("<", "\\u003c"))
        return self.send(200, "text/html; charset=utf-8", page.encode(), POLICY.format(nonce))

    def do_POST(self):  # pylint: disable=invalid-name
        size = self.headers.get("Content-Length", "")
        is_json = self.headers.get("Content-Type", "") == "application/json"
        is_bounded = re.fullmatch("[0-9]{1,8}", size) is not None and int(size) <= BODY_LIMIT
        if not (self.is_ours() and is_json and self.path == "/try" and is_bounded):
            self.close_connection = True
            return self.send(400, "text/plain", b"no question\n")
        try:
            asked = json.loads(self.rfile.read(int(size)))
            body = json.dumps(answer({name: str(asked[name]) for name in ("schema", "type", "filter", "rows", "now")}))
        except (ValueError, TypeError, KeyError, RecursionError):
            return self.send(400, "text/plain", b"no question\n")
        return self.send(200, "application/json", body.encode())

    def send(self, status, kind, body, policy="default-src 'none'"):
        self.send_response(status)
        for name, value in [("Content-Type", kind), ("Content-Length", str(len(body))), ("Cache-Control", "no-store"),
                            ("Content-Security-Policy", policy), ("X-Content-Type-Options", "nosniff"),
                            ("Referrer-Policy", "no-referrer")]:
            self.send_header(name, value)
        self.end_headers()
        self.wfile.write(body)

    def log_message(self, *_):  # pylint: disable=arguments-differ
        pass


if __name__ == "__main__":
    with ThreadingHTTPServer(("127.0.0.1", int((sys.argv[1:] or [8765])[0])), Page) as server:
        print(f"http://127.0.0.1:{server.server_port}", flush=True)
        try:
            server.serve_forever()
        except KeyboardInterrupt:
            pass
