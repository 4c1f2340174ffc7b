"""Filters that nest deeply, or are long, on a thread of 256 KiB, of which the interpreter takes some: each call answers
or refuses.
"""
import itertools
import json
import os
import random
import subprocess
import sys

from built_library import MODULE
from built_program import write

KIB = 256
TYPE = '{"$Version":"4.01","N":{"T":{"$Kind":"EntityType","n":{"$Type":"Edm.Int32"},"s":{},"b":{"$Type":"Edm.Boolean"},'
TYPE += '"o":{"$Type":"Edm.Boolean","$Nullable":true},"t":{"$Collection":true}}}}'
# a name, and a filter as long or as deep as the limits allow
FILTERS = [
    ("minus", "- " * 4_090 + "n eq 1"), ("not", "not " * 4_090 + "b"), ("ne", " ne ".join(["b"] * 2_047)),
    ("eq of what may be null", " eq ".join(["o"] * 2_047)), ("add", " add ".join(["n"] * 2_046) + " eq 1"),
    ("div", " div ".join(["n"] * 2_046) + " eq 1"), ("and", " and ".join(["b"] * 2_047)),
    ("or of comparisons", " or ".join(["n eq 1"] * 1_000)), ("items", f"n in ({'1,' * 2_040}1)"),
    ("indexof", " add ".join(["indexof(s,'a')"] * 580) + " eq 1"),
    ("div in parentheses", " eq ".join(["(n div n eq 1)"] * 511)),
    ("concat", "concat(s," * 63 + "s" + ")" * 63 + " eq 'a'"),
    ("lists in lists", "b in (true,false or true and true eq " * 64 + "b" + ")" * 64),
    ("arithmetic in parentheses", "(1 add 2 mul - " * 64 + "n" + ")" * 64 + " eq 1"),
    ("any in any", "".join(f"t/any(x{n}:" for n in range(64)) + "x0 eq s" + ")" * 64),
    ("all after operators", "".join(f"false or b and b eq b ge not t/all(x{n}:" for n in range(64)) + "b" + ")" * 64),
    ("lists after operators", "false or b and b eq b ge not b in (" * 64 + "b" + ")" * 64),
    ("all in not", "".join(f"not t/all(x{n}:b ne " for n in range(63)) + "b" + ")" * 63),
]
# what stands around a truth value when filters are drawn, where # is a number of its own
AROUND = ["({} ne o)", "not ({})", "({} and b or o)", "(b in ({},o))", "(n div n eq 1 eq {})"]
AROUND += ["t/any(x#:x# eq s and {})", "({} eq (n add n mul - n gt 1))", "(length(concat(s,s)) gt n or {})"]
ON_THREAD = """
import json, sys, threading
sys.path.insert(0, sys.argv[1])
import odfilter

def ask():
    of_type = odfilter.Schema(open(sys.argv[2]).read()).type("N.T")
    for text in json.load(open(sys.argv[3])):
        checked = of_type.check(text)
        for dialect, document in (("postgresql", None), ("postgresql", "d"), ("sqlite", None), ("sqlite", "d")):
            try:
                checked.sql(dialect, document=document)
            except odfilter.Unsayable as unsayable:
                assert unsayable.name == "TooDeep"
        of_type.check(checked.canonical), len(checked.explanation), checked.property_paths
        try:
            checked.judge(bound=10_000).verdict(b'{"n":0,"s":"a","b":true,"o":null,"t":["a","b"]}')
        except (odfilter.RowFault, odfilter.TooCostly):
            pass
        print("done", flush=True)

threading.stack_size(int(sys.argv[4]) << 10)
thread = threading.Thread(target=ask)
thread.start()
thread.join()
"""


def drawn(count):
    draw = random.Random("stack")
    for number in range(count):
        text = draw.choice(["b", "o", " ne ".join(["o"] * 400), "- " * 800 + "n gt 1"])
        while text.count("(") < 60 and len(text) < 12_000:
            text = draw.choice(AROUND).replace("#", str(len(text))).format(text)
        yield f"drawn {number}", text


def attacks(room):
    asked = [*FILTERS, *drawn(60)]
    schema, path = write(f"{room}/stack.json", TYPE), write(f"{room}/stack", json.dumps([text for _, text in asked]))
    words = [sys.executable, "-c", ON_THREAD, MODULE, schema, path, str(KIB)]
    done = subprocess.run(words, capture_output=True, text=True, timeout=120, env=os.environ, check=False)
    said = done.stdout.split()
    for (name, text), found in itertools.zip_longest(asked, said):
        yield f"on {KIB} KiB of stack: {name}", found == "done", (text[:80], done.returncode, done.stderr[-500:])
