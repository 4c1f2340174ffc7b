"""The header of the C library, and what the Python module has of it, for tests/python_module."""
import ctypes
import re
import sys

from built_library import MODULE, TOP

sys.path.insert(0, MODULE)
from odfilter import _library as library


def splits_struct(kinds):
    """Whether a struct by value stands half in the last of a call's six registers, where C has it whole in memory."""
    words = 0
    for kind in kinds:
        size = 2 if kind in (library._Bytes, library._Buffer) else 1
        if words < 6 < words + size:
            return True
        words += size
    return False


def checks_of_header(_):
    """The module has the numbers, calls and structures of the header."""
    with open(f"{TOP}/include/odfilter.h", encoding="utf-8") as file:
        header = re.sub(r"/\*.*?\*/", "", file.read(), flags=re.DOTALL)
    numbers = {name: int(number) for name, number in re.findall(r"#define ODFILTER_(\w+) (\d+)u", header)}
    yield "the header has numbers", len(numbers) > 40, numbers
    for name, number in vars(library).items():
        if re.fullmatch(r"[A-Z][A-Z0-9_]+", name) and isinstance(number, int):
            yield f"{name} is that of the header", numbers.get(name) == number, numbers.get(name)
    places = {"odfilter_handle **": "_PLACE", "odfilter_answer *": "_ANSWER", "odfilter_handle *": "_HANDLE"}
    places.update({"odfilter_bytes ": "_Bytes", "odfilter_buffer ": "_Buffer"})
    places.update({"uint32_t ": "_NUMBER", "uint64_t ": "_COUNT"})
    calls = {}
    for name, given in re.findall(r"^uint32_t odfilter_(?!flat_)(\w+)\(([^)]*)\);", header, re.MULTILINE):
        kinds = [re.sub(r"\w+$", "", it.strip().removeprefix("const ")) for it in given.split(",")]
        calls[name] = [getattr(library, places[kind]) for kind in kinds]
    yield "the calls of the header", calls == library._CALLS, calls
    split = [name for name, kinds in calls.items() if splits_struct(kinds)]
    yield "no call splits a struct between registers and memory", split == [], split
    sizes = {"uint32_t": ctypes.c_uint32, "uint64_t": ctypes.c_uint64, "size_t": ctypes.c_size_t}
    members = re.search(r"typedef struct odfilter_answer \{(.*?)\}", header, re.DOTALL)[1]
    wanted = [(name, sizes[kind]) for kind, name in re.findall(r"(\w+) (\w+);", members)]
    yield "the members of an answer", wanted == library._Answer._fields_ and len(wanted) > 5, wanted
