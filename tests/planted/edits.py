"""Planted bugs: edits of a crate's code that the prover must refuse.

An edit is a file with a line `file: src/PATH.rt` and pairs of lines `old: TEXT` and `new: TEXT`, where each old text
stands exactly once in that file, or after a line `in: FUNCTION` once in that function. It changes the bodies of
functions, or a constant.
"""
import os
import re

from .sources import constants_in, text_of

# the folders of a crate that hold edits; `rt ci` tries those of the first by itself
FOLDERS = ("must-fail", "planted-bugs")


class FaultyEdit(Exception):
    """An edit that does not fit the sources, and why."""


class Pair:
    """A pair of an edit: a text of a file, or of a function in it, and the text that stands there after the edit."""

    def __init__(self, file, within, old, new):
        self.file, self.within, self.old, self.new = file, within, old, new
        # the lines of the function, if it names one
        self.lines = None

    def offset(self, text):
        """The offset at which the old text stands, once."""
        ends = [0, *(it.end() for it in re.finditer("\n|$", text))]
        first, last = self.lines or (1, len(ends) - 1)
        count = text.count(self.old, ends[first - 1], ends[last])
        if count != 1:
            where = f"{self.within} of {self.file}" if self.within else self.file
            raise FaultyEdit(f"an old text stands in {where} {count} times, and not once")
        return text.index(self.old, ends[first - 1])

    def applied(self, text):
        at = self.offset(text)
        return text[:at] + self.new + text[at + len(self.old) :]


def pairs_in(text):
    """The pairs of an edit."""
    file = within = old = None
    pairs = []
    for line in text.splitlines():
        kind, _, rest = line.partition(":")
        rest = rest.removeprefix(" ")
        if kind == "file":
            file, within = rest, None
        elif kind == "in":
            within = rest
        elif kind == "old":
            old = rest
        elif kind == "new" and file and old:
            pairs.append(Pair(file, within, old, rest))
            old = None
        elif line:
            raise FaultyEdit(f"its line `{line}` is no `file:`, `in:` or `old:`, nor a `new:` after these")
    if not pairs or old is not None:
        raise FaultyEdit("it has no pair of `old:` and `new:`, or one without its `new:`")
    return pairs


class Edit:
    """An edit of a crate: its name, its pairs, and the functions one of which must be refused."""

    def __init__(self, path, sources):
        self.name = os.path.basename(path).removesuffix(".edit")
        self.pairs, self.functions = pairs_in(text_of(path)), []
        for pair in self.pairs:
            self.find(sources, pair)
        if not self.functions:
            raise FaultyEdit("the function in which it stands is not found")
        self.texts = self.applied(sources.texts)

    def applied(self, texts):
        """The texts after the edit."""
        texts = dict(texts)
        for pair in self.pairs:
            texts[pair.file] = pair.applied(texts[pair.file])
        return texts

    def find(self, sources, pair):
        """Adds the functions that a pair changes: with a constant all that it goes into, with an import none."""
        if pair.file not in sources.texts:
            raise FaultyEdit(f"there is no file {pair.file} of the code")
        text, functions = sources.texts[pair.file], sources.functions[pair.file]
        if pair.within:
            named = [it for it in functions if it.name == pair.within or it.name.endswith(f"::{pair.within}")]
            if len(named) != 1:
                raise FaultyEdit(f"{len(named)} functions of {pair.file} are named {pair.within}")
            pair.lines = named[0].lines
        line = text.count("\n", 0, pair.offset(text)) + 1
        inside = [it for it in functions if it.lines[0] <= line <= it.lines[1]]
        constant = next((it for it, lines in constants_in(text) if lines[0] <= line <= lines[1]), None)
        if inside and line < inside[0].body[0]:
            raise FaultyEdit(f"it changes the contract of {inside[0].name}, and not its code")
        if not inside and constant:
            inside = sources.users_of(constant)
        elif not inside and not re.match(r"(pub(\(\w+\))? )?use ", text.split("\n")[line - 1]):
            raise FaultyEdit(f"line {line} of {pair.file} is neither in a function nor in a constant")
        self.functions += [it for it in inside if it not in self.functions]

    def keys(self):
        return {it.key() for it in self.functions}


def files_of(folder):
    """The edits of a crate by their paths, in the order of their names."""
    for part in FOLDERS:
        if os.path.isdir(f"{folder}/{part}"):
            names = sorted(it for it in os.listdir(f"{folder}/{part}") if it.endswith(".edit"))
            yield from (f"{folder}/{part}/{it}" for it in names)


def batches_of(edits, sources):
    """The edits in batches, each of which one check can judge: no two change one function or share a proof."""
    batches = []
    for edit in edits:
        fitting = next((it for it in batches if it.takes(edit, sources)), None)
        if fitting is None:
            batches.append(fitting := Batch())
        fitting.add(edit)
    return batches


class Batch:
    """Edits that are in one copy of their crate."""

    def __init__(self, edits=()):
        self.edits, self.texts = [], None
        for edit in edits:
            self.add(edit)

    def takes(self, edit, sources):
        """Whether an edit fits beside those that are there."""
        if any(it.keys() & edit.keys() for it in self.edits):
            return False
        pairs = [(one, two) for it in self.edits for one in it.functions for two in edit.functions]
        if any(sources.leans(one, two) or sources.leans(two, one) for one, two in pairs):
            return False
        try:
            edit.applied(self.texts)
        except FaultyEdit:
            return False
        return True

    def add(self, edit):
        self.texts = edit.applied(self.texts) if self.edits else edit.texts
        self.edits.append(edit)

    def functions(self):
        return [function for edit in self.edits for function in edit.functions]
