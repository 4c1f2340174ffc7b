"""Files of lemmas with holes for their proofs.

A definition of antt is abstract, also in its own file, unless it is marked or an `unfolding` line names it: what cites
it goes by its type alone. So a check of functions is the same over lemmas that have a hole for a proof, which `rt ci`
checks. The definitions of a `mutual` block stand as they are: without their clauses they are none.
"""
import itertools
import re

HEAD = re.compile(r"( *)(?:pub )?([^\s:]+) :(?:\s|$)")
UNFOLDING = re.compile(r"^\s*unfolding (.*)", re.MULTILINE)
# how an item begins that stands as it is, with all that is further in
MARKED = re.compile(r"( *)(?:pub )?(?:abbrev|unfoldable|record|data|ruleset|mutual)\b")


def unfolded_in(texts):
    """The names that a line of one of the texts unfolds."""
    lines = itertools.chain.from_iterable(map(UNFOLDING.findall, texts))
    return {name.rpartition(".")[2] for line in lines for name in line.split()}


def indent_of(line):
    return len(line) - len(line.lstrip())


def end_of(lines, start, indent, name):
    """The line after the last one of an item's clauses, the first of which is at the start."""
    at = start
    while at < len(lines):
        following = next((it for it in lines[at:] if it.strip()), "")
        is_of_it = indent_of(following) > indent or following.lstrip().startswith((f"{name} ", "}", ")", "]"))
        if not is_of_it or not lines[at].strip() and indent_of(following) <= indent:
            break
        at += 1
    return at


def with_holes(text, unfolded):
    """A file of lemmas with a hole for each proof, but for what is marked or unfolded."""
    lines, made, at, marked = text.split("\n"), [], 0, None
    while at < len(lines):
        head, line = HEAD.match(lines[at]), lines[at]
        if line.strip() and marked is not None and indent_of(line) <= marked:
            marked = None
        if marked is None and MARKED.match(line):
            marked = indent_of(line)
        made.append(line)
        at += 1
        if not head or marked is not None or head[2] in unfolded:
            continue
        indent, name = len(head[1]), head[2]
        while at < len(lines) and lines[at].strip() and indent_of(lines[at]) > indent:
            made.append(lines[at])
            at += 1
        body = at + 1 if at < len(lines) and lines[at].lstrip().startswith("unfolding ") else at
        if body < len(lines) and lines[body].startswith(f"{head[1]}{name} "):
            made.append(f"{head[1]}{name} = ?")
            at = end_of(lines, body, indent, name)
    return "\n".join(made)
