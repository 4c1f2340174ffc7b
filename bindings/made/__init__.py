"""What the bindings have of the header of the C library, made of include/odfilter.json: for bindings/make.

Each language has the numbers of statuses, verdicts, forms, statements and kinds of values by their names, the names of faults by status and number,
and how many names each fault of a schema carries. Those that cannot read the header itself have the declarations of
calls and structs too.
"""
import json
import os

from . import csharp, go, java, node, rust, wasm, windows
from .header import Header

__all__ = ["TOP", "files"]
TOP = os.path.dirname(os.path.dirname(os.path.dirname(os.path.realpath(__file__))))


def files():
    """The text of each file, by its path."""
    with open(f"{TOP}/include/odfilter.json", encoding="utf-8") as file:
        header = Header(json.load(file))
    made = {}
    for language in (go, node, java, csharp, rust, wasm, windows):
        made |= {f"bindings/{path}": text for path, text in language.files(header).items()}
    return made
