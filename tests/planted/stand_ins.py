"""Stand-ins: functions that no edit of a check changes, each as a call of itself under its own contract.

A function is proved by the contracts of what it calls, and by what lemmas state. So whether an edit of it is refused
has nothing to do with the bodies of its callees, nor with the proofs of lemmas, all of which `rt ci` proves. As calls
of themselves, with a hole for their proof, they cost a check little, and so do lemmas with holes. A function stands as
it is where this would not do: one of a trait or of tests, one that is computed for a constant, one whose parameters are
patterns or have its name, and one whose proof a proof in the check names.

Of a cycle as few functions stand as they are as are a cycle with those that are edited, and the answers and measures of
these alone: what these call of the others is outside their cycle then, so that nothing is asked of its measure. An edit
that only breaks a measure there is not refused so, and is tried with all as it is.
"""
import os
import re

from .lemmas import unfolded_in, with_holes
from .sources import BLOCK, HEAD, PARTS, listed, parameters_of

PARAMETER = re.compile(r"(?:mut )?(?!_:)(\w+): ")
RECEIVER = re.compile(r"(?:&(?:'\w+ )?)?(?:mut )?self\b")
HOLE = """-- what the contract says is proved where the function stands whole
use {module}.{{statement}}

pub {name}_spec : {{M : Type 1}} → statement M
{name}_spec = ?
"""


def parenthesized(text):
    """What stands in the parentheses with which a text begins."""
    depth = 0
    for at, letter in enumerate(text):
        depth += (letter == "(") - (letter == ")")
        if depth == 0:
            return text[1:at]
    return text[1:]


def block_above(lines, number):
    """The `impl` or the trait in which a line stands, as its word and what follows that, or `None`."""
    for at in reversed(range(number)):
        block = BLOCK.match(lines[at])
        if block:
            last = next(it for it in range(at, number) if lines[it].endswith(("{", "}")))
            return block[1], " ".join([block[2], *(it.strip() for it in lines[at + 1 : last + 1])])
        if lines[at] == "}":
            return None
    return None


def call_of(lines, function):
    """A function's call of itself, or `None` where it stands as it is."""
    header = "\n".join(lines[function.lines[0] - 1 : function.body[0]])
    before, _, after = header.partition(f"fn {function.short}")
    block = block_above(lines, function.lines[0] + before.count("\n"))
    is_of_trait = block and (block[0] == "trait" or " for " in parameters_of(block[1])[1])
    if is_of_trait or re.search(r"#\[cfg\b|\bconst $|\bextern ", before):
        return None
    # the derived methods of types are in its cycle
    if function.cycle and not function.beside:
        return None
    types, rest = parameters_of(after)
    given = listed(parenthesized(rest.strip()))
    names = ["self" if RECEIVER.match(it) else (PARAMETER.match(it) or [None, None])[1] for it in given]
    # a parameter of its name would be what the call calls
    if None in names or function.short in names:
        return None
    types = f"::<{', '.join(types)}>" if types else ""
    call = f"{'Self::' if block else ''}{function.short}{types}({', '.join(names)})"
    return f"unsafe {{ {call} }}" if before.endswith("unsafe ") else call


class StandIns:
    """What takes the place of the functions of a crate beside some that stand as they are."""

    def __init__(self, name, sources, functions):
        self.name, self.sources = name, sources
        self.named = sources.proofs_below([one for it in functions for one in (it, *it.beside)])
        self.whole = {it.key() for it in functions}
        for cycle in sources.cycles():
            self.whole.update(it.key() for it in self.whole_of(cycle))

    def whole_of(self, cycle):
        """The functions of a cycle that stand as they are: with those that are edited a ring of it, or all of it where
        one of the others has no stand-in."""
        edited = [it for it in cycle if it.key() in self.whole]
        ring = self.sources.ring(edited) if edited else []
        return ring if all(it in ring or self.call(self.sources.texts, it) for it in cycle) else cycle

    def call(self, texts, function):
        """What stands for a function's body, or `None` where it stands as it is."""
        is_whole = function.key() in self.whole or self.is_named(function)
        return None if is_whole else call_of(texts[function.path].split("\n"), function)

    def texts(self, texts):
        """The texts of the crate with stand-ins, and those of the proofs: none where a file goes."""
        made, gone = {}, []
        for path, text in texts.items():
            lines = text.split("\n")
            for function in reversed(self.sources.functions[path]):
                call = self.call(texts, function)
                if call and (function.beside or function.body[1] - function.body[0] > 1):
                    self.replace(lines, function, call)
                    made.update(self.proof(function))
                    gone += [function] * bool(function.beside)
            made[path] = "\n".join(lines)
        return {**self.lemmas(), **made, **dict(self.proofs_without(gone))}

    def lemmas(self):
        """The files of lemmas, with holes for their proofs."""
        unfolded = unfolded_in(self.sources.proofs.values())
        files = {path: text for path, text in self.sources.proofs.items() if os.path.basename(path) not in PARTS}
        return {path: with_holes(text, unfolded) for path, text in files.items()}

    def is_named(self, function):
        return any(f"proofs/{it}/".startswith(f"{folder}/") for it in self.named for folder in function.proof_folders())

    def proofs_without(self, gone):
        """The proofs of cycles without what they have of functions that are not in them any more."""
        for path, text in self.sources.proofs.items():
            without = [it for it in gone if it.is_answer(path)]
            if without:
                parts = [(HEAD.search(it), it) for it in text.split("\n\n")]
                left = [it for head, it in parts if not head or not any(one.has_part(head[1]) for one in without)]
                yield path, None if len(without) > len(without[0].beside) else "\n\n".join(left)

    @staticmethod
    def replace(lines, function, call):
        # the lines keep their numbers, by which a check names them
        first, last = function.body
        indent = " " * (len(lines[last - 1]) - len(lines[last - 1].lstrip()))
        lines[first : last - 1] = [f"{indent}    {call}", *[""] * (last - first - 2)]
        for at in range(function.lines[0] - 1, first):
            if lines[at].lstrip().startswith(("#[tactic", "#[cycle")):
                lines[at] = ""

    def proof(self, function):
        """The files of its proof: a hole, and none of those that it has."""
        for folder in function.proof_folders():
            for part in PARTS:
                if f"{folder}/{part}" in self.sources.proofs:
                    yield f"{folder}/{part}", None
        folder = function.proof_folders()[1]
        module = ".".join(["Rattle", self.name, *folder.split("/")])
        yield f"{folder}/Proof.antt", HOLE.format(module=module, name=os.path.basename(folder))
