#!/usr/bin/env python3
"""A gateway before a service of OData: `gateway.py SCHEMA TYPE BACKEND [PORT [OPTION ..]]`.

It takes GET for entities of one type. A query goes on to BACKEND (as http://localhost:8000) if its filter is accepted
and its other options are the standard's or one of OPTION; its canonical text replaces the filter's value, and
all else stays. Any other query is answered by 400 and the standard's error body, with a caret under the fault; so is a
path that holds a filter. Nothing else of a request goes on, no header and no body.
The module odfilter is installed, or on PYTHONPATH.
"""
import json
import re
import sys
from http.server import BaseHTTPRequestHandler, ThreadingHTTPServer
from urllib import error, parse, request

import odfilter

# the options of the standard, which may be written without their `$` and in any case
SYSTEM_OPTIONS = frozenset(
    "apply compute count deltatoken expand filter format id index orderby schemaversion search select skip skiptoken "
    "top".split()
)


def fault_of_path(target):
    """What a request is refused for: a path that is still escaped after it was decoded twice may hold a filter."""
    path = target.partition("?")[0]
    if path[:1] != "/" or "#" in target or not all("!" <= it <= "~" for it in target):
        return "The path of a request begins with '/' and is ASCII."
    decoded = parse.unquote(parse.unquote(path, "latin-1"), "latin-1")
    if min(decoded) < " " or re.search("%(?![0-9A-Fa-f]{2})", path):
        return "A path has no control characters, and two digits after each '%'."
    if "$filter" in decoded.lower() or re.search("%[0-9A-Fa-f]{2}", decoded):
        return "A filter in a path is not checked here: write it as the option $filter."
    return None


def body_of(code, message, **more):
    """The standard's error body."""
    return json.dumps({"error": {"code": code, "message": message, **more}}, ensure_ascii=False).encode()


def body_of_refusal(refused):
    """That of a refused filter or query, with where the fault is as its inner error."""
    if isinstance(refused, odfilter.Refused):
        inner = {"span": [refused.start, refused.stop], "pointer": refused.pointed()}
    else:
        inner = {"byte" if refused.name == "BadEscape" else "option": refused.number}
    return body_of(refused.name, str(refused), target="$filter", innererror=inner)


class Gateway(BaseHTTPRequestHandler):
    of_type = backend = None
    options = frozenset()

    def do_GET(self):  # pylint: disable=invalid-name
        fault = fault_of_path(self.path)
        if fault is not None:
            return self.answer(400, body_of("BadPath", fault))
        path, mark, query = self.path.partition("?")
        try:
            with self.of_type.check_url(query) as checked:
                value = checked.value
                query = query[: value.start] + parse.quote(checked.canonical) + query[value.stop :]
        except odfilter.NoFilter:
            pass
        except (odfilter.Refused, odfilter.QueryRefused) as refused:
            return self.answer(400, body_of_refusal(refused))
        unknown = next((name for name in map(self.unknown_name, query.split("&")) if name is not None), None)
        if unknown is not None:
            message = f"The query option '{unknown}' is not known here."
            return self.answer(400, body_of("UnknownOption", message, target=unknown))
        return self.pass_on(path + mark + query)

    def unknown_name(self, piece):
        """The name of an option that is neither the standard's nor the owner's; an empty piece is no option."""
        name = parse.unquote(piece.partition("=")[0])
        is_system = name.isascii() and name.lower().removeprefix("$") in SYSTEM_OPTIONS
        return None if not piece or is_system or name in self.options else name

    def pass_on(self, target):
        try:
            got = request.urlopen(self.backend + target, timeout=30)
        except error.HTTPError as refused:
            got = refused
        except OSError:
            return self.answer(502, body_of("NoBackend", "The backend does not answer."))
        with got:
            return self.answer(got.status, got.read(), got.headers.get("Content-Type", "application/json"))

    def answer(self, status, body, kind="application/json"):
        self.send_response(status)
        self.send_header("Content-Type", kind)
        self.send_header("Content-Length", str(len(body)))
        self.end_headers()
        self.wfile.write(body)


if __name__ == "__main__":
    with open(sys.argv[1], "rb") as document:
        Gateway.of_type = odfilter.Schema(document.read()).type(sys.argv[2])
    Gateway.backend, port = sys.argv[3].rstrip("/"), int((sys.argv[4:] or [8080])[0])
    Gateway.options = frozenset(sys.argv[5:])
    with ThreadingHTTPServer(("127.0.0.1", port), Gateway) as server:
        print(f"http://127.0.0.1:{server.server_port}", flush=True)
        server.serve_forever()
