"""Requests through the gateways, each as documented: filters in paths, bodies, and headers that change a request."""
import contextlib
import os
import subprocess
import sys

from built_library import MODULE, TOP
from loopback import LIMIT, Backend, ask, backend, checks_of_other_requests, end_with_parent
from nginx_server import configuration, free_port, nginx
from suite_cases import DATA

SHOP = f"{DATA}/schemas/shop_makers.json"
METHODS = [b"POST", b"PUT", b"PATCH", b"DELETE", b"OPTIONS", b"TRACE", b"QUERY", b"PROPFIND", b"get"]
# targets that reach no backend, by either gateway
REFUSED = [
    b"/All?$filter=Foo", b"/All?%24FILTER=Foo", b"/All?%2524filter=Foo", b"/All?filter=Foo", b"/All?+$filter=Foo",
    b"/All?x=1;$filter=Foo", b"/All?x=1&amp;$filter=Foo", b"/All??$filter=Foo", b"/All?$filter=Active&$filter=Foo",
    b"/All#?$filter=Foo", b"/All?x=1#&$filter=Foo", b"/All?$filter=Active eq true", b"/All?x=\x01&$filter=Active",
    b"*?$filter=Foo", b"All?$filter=Foo", b"/All?$expand=x(;$filter=Foo",
]


@contextlib.contextmanager
def gateway(url, room):
    line = [sys.executable, f"{TOP}/examples/gateway.py", SHOP, "Shop.Product", url, "0"]
    env = {**os.environ, "PYTHONPATH": MODULE, "PYTHONDONTWRITEBYTECODE": "1", "no_proxy": "*"}
    with open(f"{room}/gateway", "wb") as said:
        streams = {"stdin": subprocess.DEVNULL, "stdout": subprocess.PIPE, "stderr": said}
        process = subprocess.Popen(line, env=env, preexec_fn=end_with_parent, **streams)
    try:
        yield process.stdout.readline().decode().strip().removeprefix("http://")
    finally:
        process.kill()
        process.communicate(timeout=LIMIT)


def checks_of(name, address):
    for target in REFUSED:
        Backend.asked.clear()
        status, _, _ = said = ask(address, target)
        yield f"{name}: {target}", 400 <= status < 500 and not Backend.asked, said
    for method in METHODS:
        Backend.asked.clear()
        status, _, _ = said = ask(address, "/All/$query", method, b"Content-Length: 11\r\n\r\n$filter=Foo")
        yield f"{name}: {method}", status >= 400 and not Backend.asked, said
    for about, is_well, said in checks_of_other_requests(address):
        yield f"{name}: {about}", is_well, said


def attacks(room):
    with backend() as url:
        with gateway(url, room) as address:
            yield from checks_of("gateway.py", address)
        port = free_port()
        text = configuration(f"{room}/nginx", port, int(url.rpartition(":")[2]), SHOP, "Shop.Product")
        with nginx(f"{room}/nginx", text, port) as server:
            yield from checks_of("nginx", server.address)
