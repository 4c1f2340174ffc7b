"""The calls of C that take a struct, over the flat ones: for Windows, whose ABI passes a struct by its address."""
from .header import FROM, shown

HEAD = f"""/* {FROM}
 * On Windows a struct is passed by its address, and the library's code takes its fields: there the calls of the header
 * that take structs are these, over the flat ones. */
#include "odfilter.h"
"""
STRUCTS = ("odfilter_bytes", "odfilter_buffer")


def declared(kind, name):
    return f"{kind}{'' if kind.endswith('*') else ' '}{name}"


def files(header):
    made = [HEAD]
    for name, given in header.plain_calls():
        if name in header.flat:
            taken = [declared(kind, it) for it, kind in given]
            passed = [f"{it}.at, {it}.length" if kind in STRUCTS else it for it, kind in given]
            head = shown(f"uint32_t {name}(", taken, ")", "    ")
            body = shown(f"    return {header.flat[name]}(", passed, ");", "        ")
            made.append(f"{head}{{\n{body}}}\n")
    return {"c/structs.c": "\n".join(made)}
