"""What tests/gateway_example and tests/nginx_example stand before and ask: a backend that keeps what it is asked, and a
client; both over loopback.
"""
import contextlib
import ctypes
import http.client
import json
import signal
import socket
import threading
from http.server import BaseHTTPRequestHandler, ThreadingHTTPServer
from urllib.parse import unquote_to_bytes

LIMIT = 20  # seconds that only a hang takes


def end_with_parent():
    """For a process that is started: it is ended when this one is, however that ends."""
    ctypes.CDLL(None).prctl(1, signal.SIGTERM)  # PR_SET_PDEATHSIG


class Backend(BaseHTTPRequestHandler):
    """It answers each request by what was asked; one below /Missing is not found."""

    protocol_version = "HTTP/1.1"
    asked = []
    headers_seen = []

    def do_GET(self):  # pylint: disable=invalid-name
        self.asked.append(self.path)
        self.headers_seen.append({name.lower() for name in self.headers})
        body = f"asked {self.path}".encode()
        head = f"HTTP/1.1 {404 if self.path.startswith('/Missing') else 200} reported\r\nContent-Type: text/x-asked\r\n"
        self.wfile.write(f"{head}Content-Length: {len(body)}\r\n\r\n".encode() + body)

    def log_message(self, *_):  # pylint: disable=arguments-differ
        pass


@contextlib.contextmanager
def backend():
    """The URL of a backend."""
    with ThreadingHTTPServer(("127.0.0.1", 0), Backend) as server:
        server.daemon_threads = True
        threading.Thread(target=server.serve_forever, daemon=True).start()
        yield f"http://127.0.0.1:{server.server_port}"
        server.shutdown()


def ask(address, target, method=b"GET", after=b"\r\n"):
    """The answer of a server to a request of any bytes: its status, the kind of its body, and that.

    `after` is what follows the first headers: further ones, an empty line and a body.
    """
    host, port = address.split(":")
    line = target if isinstance(target, bytes) else target.encode()
    with socket.create_connection((host, int(port)), LIMIT) as connection:
        head = b"%b %b HTTP/1.1\r\nHost: %b\r\nConnection: close\r\n%b"
        connection.sendall(head % (method, line, address.encode(), after))
        got = http.client.HTTPResponse(connection)
        got.begin()
        return got.status, got.headers["Content-Type"], got.read().decode()


def is_passed(said, seen, wanted):
    """Whether the backend alone was asked that, once, and its answer came back."""
    return said == (200, "text/x-asked", f"asked {wanted}") and seen == [wanted]


# paths that hold a filter, or may
FILTERS_IN_PATHS = [
    "/All/$filter(Foo%20eq%201)", "/All/%24filter(Foo%20eq%201)", "/All/%2524filter(Foo)", "/All/%252524filter(Foo)",
    "/All/%24%46ILTER(Foo)/$count", "/All%2F$filter(Foo)", "/All/$filter(@f)?@f=Foo", "/All/$filter(@f)/$count?@f=Foo",
    "/All/%u0024filter(Foo)", "/All/$fil%00ter(Foo)", "/All/$filter=@f?$filter=Active&@f=Foo",
]
# headers that would make of a GET another request, by both spellings of their names; and a body that is one
_NAMES = "HTTP-Method HTTP-Method-Override Method-Override Original-URL Rewrite-URL".split()
OTHERS = [f"X-{it}: {'/All?$filter=Foo' if 'URL' in it else 'POST'}\r\n".encode() for it in _NAMES]
OTHERS += [it.replace(b"-", b"_") for it in OTHERS]
_BODY = b"GET /All?$filter=Foo HTTP/1.1\r\nHost: other\r\n\r\n"
_LENGTH, _CHUNK = b"Content-Length: %d\r\n" % len(_BODY), b"%x\r\n%b\r\n0\r\n\r\n" % (len(_BODY), _BODY)
BODIES = [
    _LENGTH + b"\r\n" + _BODY, b"Transfer-Encoding: chunked\r\n\r\n" + _CHUNK,
    b"Content-Type: text/plain\r\nExpect: 100-continue\r\n" + _LENGTH + b"\r\n" + _BODY,
]
# what follows the first headers of a request
AFTER = [header + b"\r\n" for header in OTHERS] + BODIES + [OTHERS[1] + body for body in BODIES]
# what no request has that reaches the backend
DROPPED = {it.partition(b":")[0].decode().lower() for it in OTHERS}
DROPPED |= {"content-length", "transfer-encoding", "expect", "upgrade"}


def checks_of_other_requests(address):
    """What a GET might hide: a filter in its path is refused; the backend sees no body, and no header of OTHERS."""
    for target in FILTERS_IN_PATHS:
        Backend.asked.clear()
        said = ask(address, target)
        yield f"refused: {target}", said[0] == 400 and not Backend.asked, said
    for target in ("/All", "/$batch", "/All/$query"):
        for after in AFTER:
            Backend.asked.clear()
            Backend.headers_seen.clear()
            said = ask(address, target, after=after)
            seen, headers = list(Backend.asked), list(Backend.headers_seen)
            is_alone = is_passed(said, seen, target) and not headers[0] & DROPPED
            yield f"{target} alone: {after}", is_alone, (said, seen, headers)


def is_refused(said, seen, code, inner):
    """Whether that is the standard's error body with some code and inner error, and the backend was not asked."""
    status, kind, body = said
    try:
        error = json.loads(body)["error"]
    except (ValueError, KeyError):
        return False
    has = error["code"] == code and error["message"] != "" and error.get("innererror") == inner
    return status == 400 and kind == "application/json" and not seen and has


def pointer_of(text, start, stop):
    """The text, and below it a caret under each character of a span of its bytes, one at least."""
    before, within = (len(text.encode()[a:b].decode()) for a, b in ((0, start), (start, stop)))
    shown = "".join("\N{REPLACEMENT CHARACTER}" if ord(it) < 32 else it for it in text)
    return f"{shown}\n{' ' * before}{'^' * max(within, 1)}"


def inner_of(case):
    """The inner error of a refusal, from what a case of tests/url_cases.py wants."""
    if "refused" in case:
        start, stop = map(int, case["refused"].split(" ")[1].split(".."))
        return {"span": [start, stop], "pointer": pointer_of(case["text"], start, stop)}
    name, number = case["query_refused"].split(" ")
    return {"byte" if name == "BadEscape" else "option": int(number)}


def is_as_the_case(case, path, said, seen):
    """Whether a server before a backend answers a case as it should: what it passes on, and what it refuses."""
    if "refused" in case or "query_refused" in case:
        code = case.get("refused", case.get("query_refused")).split(" ")[0]
        return is_refused(said, seen, code, inner_of(case))
    query = case["query"].decode("latin-1")
    if "canonical" not in case:
        return len(seen) == 1 and is_passed(said, seen, f"{path}?{query}" if seen[0] != path or query else path)
    start, stop = case["value"]
    after = query[stop:]
    if len(seen) != 1 or not seen[0].startswith(f"{path}?{query[:start]}") or not seen[0].endswith(after):
        return False
    value = seen[0][len(path) + 1 + start : len(seen[0]) - len(after)]
    is_escaped = all(it.isalnum() or it in "-_.~%/!*'()" for it in value)
    return is_passed(said, seen, seen[0]) and is_escaped and unquote_to_bytes(value).decode() == case["canonical"]
