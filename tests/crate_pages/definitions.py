"""The definitions that clauses cite: in which file of `specs/` each stands, and what its comment says."""
import functools
import itertools
import os
import re

from .sources import TOP, text_of

IMPORT = re.compile(r"use Rattle\.(\w+)\.specs\.([\w.]+?)(?:\.\{([^}]*)\})?;?$")
DEFINITION = re.compile(r"( *)(?:(?:abbrev|unfoldable) )?pub (?:(?:record|data) )?(?!use |mod )([^\W\d][^\s:]*)")
WORD = re.compile(r"[^\W\d](?:[\w'₀-₉]|-(?=\w))*")


def imports_of(path, start):
    """What a file imports of specifications: of each name the crate, the module and the name there."""
    for line in text_of(path).splitlines():
        found = IMPORT.match(line.strip().removeprefix(start))
        if found and line.strip().startswith(start):
            crate, module, names = found.groups()
            for name in filter(None, map(str.strip, (names or module).split(","))):
                name, _, alias = name.partition(" as ")
                yield alias or name, (crate, module, name)


@functools.lru_cache(maxsize=None)
def imported(path, start):
    return dict(imports_of(path, start))


@functools.lru_cache(maxsize=None)
def passed_on(crate):
    """The modules that a crate's root of specifications passes on, with the crate and the module that each is."""
    path, modules = f"crates/{crate}/specs/Lib.antt", {}
    for line in text_of(path).splitlines() if os.path.exists(f"{TOP}/{path}") else ():
        found = re.match(r"pub use Rattle\.(\w+)\.specs\.(\w+)(?: as (\w+))?$", line)
        if found:
            modules[found[3] or found[2]] = found[1], found[2]
    return modules


def file_of(crate, module, name):
    """The file of a crate in which a definition stands, or none where the toolchain has it."""
    path = f"crates/{crate}/specs/{module.replace('.', '/')}.antt"
    if not os.path.exists(f"{TOP}/{path}"):
        there = passed_on(crate).get(module)
        return file_of(*there, name) if there else None
    there = imported(path, "pub ").get(name)
    return (file_of(*there) if there and name not in defined_in(path) else None) or path


@functools.lru_cache(maxsize=None)
def defined_in(path):
    """The public definitions of a file, each with its comment in one line. Those of a mutual block are indented."""
    words, comment, margin = {}, [], ""
    for line in text_of(path).splitlines():
        if line.lstrip().startswith("-- "):
            comment.append(line.strip()[3:])
            continue
        if line in ("mutual", "abbrev mutual"):
            margin = "  "
            continue
        if re.match(r"\S", line):
            margin = ""
        found = DEFINITION.match(line)
        if found and found[1] == margin:
            words.setdefault(found[2], " ".join(comment))
        comment = []
    return words


def head_of(path):
    """The comment with which a file begins."""
    lines = itertools.takewhile(lambda line: line.startswith("-- "), text_of(path).splitlines())
    return " ".join(line[3:] for line in lines)


def cited(path, clauses):
    """The definitions that clauses of a source file cite, each with its file, in the order in which they stand."""
    known, found = imported(path, "ghost "), {}
    for clause in clauses:
        for word in WORD.findall(re.sub(r'"[^"]*"|(?<=[\w.])\.\w+', "", "\n".join(clause.lines))):
            if word in known and word not in found and "declared." not in known[word][1]:
                file = file_of(*known[word])
                if file:
                    found[word] = (known[word][2], file)
    return list(dict.fromkeys(found.values()))
