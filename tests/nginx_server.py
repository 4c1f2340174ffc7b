"""nginx by the example examples/nginx, in a folder and on ports of its own: for tests/nginx_example and bench/nginx.
"""
import contextlib
import os
import socket
import subprocess
import time

from built_library import TOP
from loopback import LIMIT, end_with_parent

# a backend that answers at once, for what is asked many times
QUICK_BACKEND = """worker_processes 2;
pid %(room)s/pid;
error_log %(room)s/error.log;
events {}
http {
  access_log off;
%(temporary)s  server {
    listen 127.0.0.1:%(port)d;
    keepalive_requests 1000000;
    large_client_header_buffers 4 64k;
    location / { return 200 "asked"; }
  }
}
"""


def free_port():
    with socket.create_server(("127.0.0.1", 0)) as taken:
        return taken.getsockname()[1]


def temporary_paths(room):
    return "".join(f"  {of}_temp_path {room}/{of};\n" for of in ("client_body", "proxy", "fastcgi", "uwsgi", "scgi"))


def replaced(text, old, new):
    """A text with what stands there once in it replaced."""
    if text.count(old) != 1:
        raise ValueError(f"{old!r} stands {text.count(old)} times in the configuration")
    return text.replace(old, new)


def configuration(room, port, backend_port, schema, of_type):
    """The example's configuration with its paths, ports and type replaced; all that it writes stands in the folder."""
    with open(f"{TOP}/examples/nginx/nginx.conf", encoding="utf-8") as file:
        text = file.read()
    modules = f"{TOP}/bindings/lua/?.lua;{TOP}/examples/nginx/?.lua"
    for old, new in [
        ("worker_processes auto", "worker_processes 2"), ("/run/odfilter-nginx.pid", f"{room}/pid"),
        ("/var/log/nginx/error.log", f"{room}/error.log notice"), ("/opt/odfilter/lua/?.lua", modules),
        ("/opt/odfilter/lib/libodfilter.so", os.environ["ODFILTER_LIBRARY"]), ("/etc/odfilter/schema.json", schema),
        ("Shop.Product", of_type), ("server 127.0.0.1:8000;", f"server 127.0.0.1:{backend_port};"),
        ("listen 127.0.0.1:8080;", f"listen 127.0.0.1:{port};\n    keepalive_requests 1000000;"),
        ("  access_log off;\n", f"  access_log off;\n{temporary_paths(room)}"),
    ]:
        text = replaced(text, old, new)
    return text


def process_tree(parent):
    """The processes that a process has started and that still run."""
    with open(f"/proc/{parent}/task/{parent}/children", encoding="utf-8") as file:
        return [int(child) for child in file.read().split()]


class Nginx:
    """A running nginx: its port, its folder and its processes."""

    def __init__(self, room, port, process):
        self.room, self.port, self.process = room, port, process
        self.address = f"127.0.0.1:{port}"

    def workers(self):
        return process_tree(self.process.pid)

    def memory(self):
        """The bytes of its workers that are theirs alone and in memory."""
        total = 0
        for worker in self.workers():
            with open(f"/proc/{worker}/smaps_rollup", encoding="utf-8") as file:
                total += sum(int(line.split()[1]) << 10 for line in file if line.startswith("Private_Dirty:"))
        return total

    def log(self):
        with open(f"{self.room}/error.log", encoding="utf-8", errors="replace") as file:
            return file.read()


@contextlib.contextmanager
def nginx(room, text, port):
    """Runs nginx by a configuration, in the foreground, and ends it."""
    os.makedirs(room, exist_ok=True)
    path = f"{room}/nginx.conf"
    with open(path, "w", encoding="utf-8") as out:
        out.write(text)
    line = ["nginx", "-e", f"{room}/error.log", "-c", path, "-g", "daemon off;"]
    with open(f"{room}/said", "wb") as said:
        streams = {"stdin": subprocess.DEVNULL, "stdout": said, "stderr": said}
        process = subprocess.Popen(line, preexec_fn=end_with_parent, **streams)
    try:
        wait_for(port, process)
        yield Nginx(room, port, process)
    finally:
        process.terminate()
        try:
            process.wait(LIMIT)
        except subprocess.TimeoutExpired:
            children = process_tree(process.pid)
            process.kill()
            process.wait()
            for child in children:
                with contextlib.suppress(ProcessLookupError):
                    os.kill(child, 9)


def wait_for(port, process):
    """Waits until a port is listened at, or the process has ended."""
    ends = time.monotonic() + LIMIT
    while process.poll() is None and time.monotonic() < ends:
        with contextlib.suppress(OSError), socket.create_connection(("127.0.0.1", port), 1):
            return
        time.sleep(0.05)
    raise RuntimeError(f"nginx does not listen, status {process.poll()}")


def quick_backend(room):
    """Runs the quick backend."""
    port = free_port()
    return nginx(room, QUICK_BACKEND % {"room": room, "port": port, "temporary": temporary_paths(room)}, port)


def build_load(room):
    """The program that asks a server from many clients at once."""
    path = f"{room}/load"
    subprocess.run(["cc", "-std=gnu11", "-O2", "-pthread", "-o", path, f"{TOP}/tests/load.c"], check=True)
    return path


def write_kinds(path, kinds):
    with open(path, "w", encoding="ascii") as out:
        out.writelines(f"{status} {target}\n" for status, target in kinds)
    return path
