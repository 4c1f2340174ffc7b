#!/usr/bin/env python3
"""The page of try_page.py as one file that needs no server: `try_page_file.py odfilter.wasm TO.html`.

The file has the module of WebAssembly (bindings/wasm/build makes it) and answers in a worker of its own, as one types.
It takes nothing from elsewhere and sends nothing: its policy lets it load only what is in it. Open it from a folder, or
put it on any web server.
"""
import base64
import hashlib
import json
import re
import sys
from os.path import dirname, exists, join, realpath

from try_page_data import START

HERE = dirname(realpath(__file__))
ENGINE = ("numbers.js", "calls.js", "page_engine.js")
POLICY = "default-src 'none'; script-src 'sha256-{script}' 'wasm-unsafe-eval'; style-src 'sha256-{style}'; "
POLICY += "worker-src blob:; img-src data:; base-uri 'none'; form-action 'none'"


def text_of(path):
    with open(path, encoding="utf-8") as file:
        return file.read()


def data(value):
    """JSON that may stand in a script of a page."""
    return json.dumps(value).replace("<", "\\u003c")


def page(module):
    """The page with a module in it."""
    folders = (HERE, join(HERE, "..", "bindings", "wasm"))
    sources = [next(join(it, name) for it in folders if exists(join(it, name))) for name in ENGINE]
    engine = {"source": "".join(map(text_of, sources)), "module": base64.b64encode(module).decode()}
    made = text_of(join(HERE, "try_page.html")).replace(' nonce="NONCE"', "")
    made = made.replace("const START = EXAMPLES;", f"const START = {data(START)};")
    made = made.replace("const ENGINE = null;", f"const ENGINE = {data(engine)};")
    sums = {name: sum_of(re.search(f"<{name}>(.*?)</{name}>", made, re.DOTALL)[1]) for name in ("script", "style")}
    head = f'<meta http-equiv="Content-Security-Policy" content="{POLICY.format(**sums)}">\n<meta charset="utf-8">'
    return made.replace('<meta charset="utf-8">', head, 1)


def sum_of(text):
    return base64.b64encode(hashlib.sha256(text.encode()).digest()).decode()


def main(source, to):
    with open(source, "rb") as file:
        made = page(file.read())
    with open(to, "w", encoding="utf-8") as out:
        out.write(made)


if __name__ == "__main__":
    if len(sys.argv) != 3:
        sys.exit("usage: try_page_file.py odfilter.wasm TO.html")
    main(*sys.argv[1:])
