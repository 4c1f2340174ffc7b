"""Great filters as conditions of SQL, asked of the library on a thread of 256 KiB: for tests/great_texts."""
import itertools
import json
import os
import random
import subprocess
import sys

from built_library import MODULE, has_library
from built_program import write

__all__ = ["conditions"]
TOKENS, OPEN = 4_096, 64
# so many levels of operators, functions and lists have conditions
LEVELS = 100
TYPE = '"T":{"$Kind":"EntityType","B":{"$Type":"Edm.Boolean"},"On":{"$Type":"Edm.Boolean","$Nullable":true},"ID":'
TYPE += '{"$Type":"Edm.Int32"},"Flags":{"$Type":"Edm.Boolean","$Collection":true},"Name":{}}'
DOCUMENT = '{"$Version":"4.01","N":{' + TYPE + "}}"
INNERMOST = [("B ne B ge B", 2), ("ID div ID eq 1", 2), ("- - - ID gt 1", 4), ("indexof(Name,Name) sub length(Name) le ID", 3)]
# what adds levels around a truth value; no `and`, `or` or `not` of it goes on with one within
AROUND = [
    ("B and {}", 1),
    ("false or {}", 1),
    ("{} ne On", 1),
    ("On ge {}", 1),
    ("B in ({},On)", 1),
    ("{} in Flags", 1),
    ("ID div ID eq 1 or {}", 1),
    ("(ID mod ID eq 1) in (B,{})", 1),
    ("B and not {}", 2),
    ("On ge B in (On,{})", 2),
    ("{} eq On eq B ne (ID div ID gt ID)", 3),
    ("B or On and B eq {} ge On", 4),
    ("false or B and On eq true ge {} in (B)", 5),
]
# prints what comes of each filter of a file, in the order in which they stand there; the interpreter has its part of the
# stack
ON_THREAD = """
import json, sys, threading
sys.path.insert(0, sys.argv[1])
import odfilter

def said(checked):
    try:
        checked.sql(sys.argv[3], document="doc" if sys.argv[4] == "document" else None)
        return "OK"
    except odfilter.Unsayable as unsayable:
        return unsayable.name

def ask():
    with open(sys.argv[2], encoding="utf-8") as file:
        for document, name, text, _ in json.load(file):
            print(said(odfilter.Schema(document.encode()).type(name).check(text)), flush=True)

threading.stack_size(256 << 10)
thread = threading.Thread(target=ask)
thread.start()
thread.join()
"""


def deepest(text):
    """How many parentheses are open at a time."""
    return max(itertools.accumulate({"(": 1, ")": -1}.get(letter, 0) for letter in text))


def mixture(draw):
    """A filter of drawn levels in one another, and how many these are: often as many as have conditions."""
    (text, levels), wanted = draw.choice(INNERMOST), draw.choice((60, LEVELS, LEVELS, LEVELS + 1))
    while levels < wanted:
        around, more = draw.choice(AROUND)
        wider = around.format(f"({text})")
        if levels + more > wanted or deepest(wider) > OPEN - 1:
            return f"({text})" + " ne On" * (wanted - levels), wanted
        text, levels = wider, levels + more
    return text, levels


def of_known_levels():
    """Filters with the levels that they have."""
    for times in (LEVELS - 1, LEVELS, TOKENS - 4):
        yield "- " * times + "ID eq 1", times + 1
    for word, name in (("add", "ID"), ("mod", "ID"), ("add", "indexof(Name,'a')")):
        for times in (LEVELS - 2, LEVELS + 1, (TOKENS - 8) // (2 if name == "ID" else 7) - 1):
            yield f" {word} ".join([name] * times) + " eq 1", times + (name != "ID")
    for word, name in itertools.product(("eq", "ne", "ge"), ("B", "On")):
        for times in (LEVELS + 1, LEVELS + 2, TOKENS // 2):
            yield f" {word} ".join([name] * times), times - 1
    draw = random.Random("conditions")
    for _ in range(200):
        yield mixture(draw)


def conditions(room, filters):
    """Each filter, given with its schema and type, has conditions or nests too deeply, for each engine and storage; as
    do others whose levels are known."""
    asked = [(*given, None) for given in filters] + [(DOCUMENT, "N.T", *given) for given in of_known_levels()]
    path = write(f"{room}/asked.json", json.dumps(asked))
    env = {**os.environ, "ODFILTER_LIBRARY": has_library(room)}
    for dialect, storage in itertools.product(("postgresql", "sqlite"), ("columns", "document")):
        words = [sys.executable, "-c", ON_THREAD, MODULE, path, dialect, storage]
        done = subprocess.run(words, capture_output=True, text=True, timeout=600, env=env, check=False)
        said = done.stdout.split()
        yield f"SQL for {dialect}, {storage}", (len(said), done.returncode) == (len(asked), 0), (done, asked[len(said) :][:1])
        for found, (_, _, text, levels) in zip(said, asked):
            wanted = {"OK", "TooDeep"}
            if levels is not None:
                wanted -= {"OK"} if levels > LEVELS else {"TooDeep"} if dialect == "postgresql" else set()
            yield f"SQL for {dialect}, {storage}: {levels} levels", found in wanted, (found, text[:200])
