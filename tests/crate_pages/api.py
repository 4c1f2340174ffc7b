"""docs/api.md: the docs of the public items of each crate, as the sources have them."""
import re

from .markdown import MADE, dedented, fenced, index_of, page_of, paragraph, plain, reexports
from .sources import order_of, text_of

HEAD = f"""# Public items by crate

{MADE}

The docs of each crate's public types, calls and laws, whole, from the sources. The lowest crate comes first.
[clauses.md](clauses.md) has the contracts of the calls.
"""


def root_doc(crate):
    """What the root of a crate says of it."""
    root = crate.root or f"crates/{crate.name}/src/main.rt"
    return [line.removeprefix("//!").removeprefix(" ") for line in text_of(root).splitlines() if line.startswith("//!")]


def declaration(kind):
    """A type's declaration with its public fields, its variants or its associated types, and their docs."""
    hides = {"struct": r"    (?!pub )\S", "trait": r"    (?!type |ghost )\S"}.get(kind.lines[0].split()[1], r"(?!)")
    inner = [line for line in kind.lines[1:-1] if line and not line.lstrip().startswith("#[")]
    lines, waiting, is_shown = [], [], True
    for line in inner:
        if line.lstrip().startswith("//"):
            waiting.append(line)
            continue
        if re.match(r"    \S", line):
            is_shown = not re.match(hides, line)
        lines += [*waiting, line] if is_shown else []
        waiting = []
    if kind.lines[0].startswith("pub struct") and len(lines) < len(inner):
        lines.append("    // private fields")
    return [*kind.derived, kind.lines[0], *lines, *kind.lines[1:][-1:]]


def section_of(function, title):
    doc = plain("\n".join(function.doc))
    return [f"#### {title}", "", *fenced(dedented(function.signature)), *paragraph(doc)]


def section_of_type(crate, kind):
    name = crate.public_name(kind)
    other = f"The sources call it `{kind.name}`." if not name.endswith(kind.name) else ""
    lines = [f"### {name}", "", *fenced(declaration(kind)), *paragraph(plain("\n".join(kind.doc))), *paragraph(other)]
    return lines + [line for it in crate.methods(kind.name) if it.doc for line in section_of(it, f"{name}::{it.name}")]


def section_of_crate(crate):
    lines = [f"## `{crate.name}`", "", *paragraph(plain("\n".join(root_doc(crate)))), *reexports(crate)]
    for kind in crate.types():
        lines += section_of_type(crate, kind)
    free = [it for it in crate.calls() if it.owner is None]
    for title, is_law in (("Calls", False), ("Laws", True)):
        some = [it for it in free if it.is_law() == is_law]
        lines += [f"### {title} of {crate.name}", ""] if some else []
        lines += [line for function in some for line in section_of(function, crate.public_name(function))]
    return lines


def page(crates):
    """The page, as the sources are."""
    shown = [crates[name] for name in order_of(crates)]
    return page_of([HEAD, index_of(shown), "", *(line for crate in shown for line in section_of_crate(crate))])
