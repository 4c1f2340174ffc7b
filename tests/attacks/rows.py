"""The memory of a row: at most so many times its bytes as docs/CLI.md says, whatever its type has."""
import json
import os
import subprocess
import sys

from built_library import MODULE
from built_program import write

SLACK = 2 << 20  # bytes that no row accounts for: pages, and what the interpreter takes meanwhile
WIDE = 1_000
ROW = 300_000  # bytes of a row
LONG_ROW = 8_000_000  # those of one whose texts take none
MOST = 36  # how many times its bytes a row takes
MOST_UNASKED = 0.5  # where the filter has none of the names in it, and the judge has had a row as long


def schema(name):
    """A type with one property of that name; records and entities have many properties."""
    texts = {f"s{number}": {"$Nullable": True} for number in range(WIDE)}
    inner = {"c": {"$Type": "N.C", "$Collection": True}, "one": {"$Type": "N.C", "$Nullable": True}}
    own = {"c": inner["c"], "d": {"$Type": "N.D", "$Collection": True}, "x": {"$Collection": True}}
    own["n"] = {"$Type": "Edm.Int32", "$Collection": True}
    own["to"] = {"$Kind": "NavigationProperty", "$Type": "N.E", "$Collection": True}
    types = {"C": {"$Kind": "ComplexType", **texts}, "E": {"$Kind": "EntityType", **texts}}
    types |= {"D": {"$Kind": "ComplexType", **inner, **texts}, "T": {"$Kind": "EntityType", name: own[name]}}
    return {"$Version": "4.01", "N": types}


def filled(begin, each, end, size=ROW):
    return begin + ",".join([each] * ((size - len(begin) - len(end)) // (len(each) + 1))) + end


UNASKED = "texts that nobody asks"
# a name, the filter, and the row; of a wide type the filter asks one property or two
ROWS = [
    ("empty members", "c/any(v:v/s1 eq 'a')", filled('{"c":[', "{}", "]}")),
    ("members with another property", "c/any(v:v/s1 eq 'a')", filled('{"c":[', '{"s2":""}', "]}")),
    ("members with the last property", "c/any(v:v/s999 eq 'a')", filled('{"c":[', '{"s999":""}', "]}")),
    ("two properties", "c/any(v:v/s1 eq v/s999)", filled('{"c":[', '{"s1":"","s999":""}', "]}")),
    ("entities", "to/any(v:v/s1 eq 'a')", filled('{"to":[', "{}", "]}")),
    ("records in records", "d/any(v:v/c/any(w:w/s1 eq 'a'))", filled('{"d":[', '{"c":[{}]}', "]}")),
    ("one record in each", "d/any(v:v/one/s1 eq 'a')", filled('{"d":[', '{"c":[],"one":{}}', "]}")),
    ("numbers", "n/any(v:v eq 1)", filled('{"n":[', "0", "]}")),
    ("texts", "x/any(v:v eq 'a')", filled('{"x":[', '""', "]}")),
    ("escaped texts", "x/any(v:v eq 'a')", filled('{"x":[', '"\\u0061"', "]}")),
    ("what nobody asks", "n/any(v:v eq 1)", filled('{"n":[],"z":[', "[]", "]}")),
    (UNASKED, "c/any(v:v/s1 eq 'a')", filled('{"c":[', '{"s2":"' + "a" * 200 + '"}', "]}", LONG_ROW)),
    ("a fault at the end", "c/any(v:v/s1 eq 'a')", filled('{"c":[', "{}", ",5]}")),
    ("no JSON at the end", "c/any(v:v/s1 eq 'a')", filled('{"c":[', "{}", "]")),
]
# what a row takes, of a judge that has judged before and of a new one: the difference in the most bytes of memory; none
# is left then that was given back
MEASURED = """
import ctypes, json, sys
sys.path.insert(0, sys.argv[1])
import odfilter

def figure(name):
    with open("/proc/self/status") as status:
        return next(int(line.split()[1]) << 10 for line in status if line.startswith(name))

def verdict(judge, row):
    try:
        return judge.verdict(row)
    except odfilter.RowFault as fault:
        return fault.name

asked = json.load(open(sys.argv[2]))
judge = odfilter.Schema(json.dumps(asked["schema"])).type("N.T").check(asked["filter"]).judge()
row = asked["row"].encode()
for before in asked["before"]:
    verdict(judge, before.encode())
ctypes.CDLL(None).malloc_trim(0)
with open("/proc/self/clear_refs", "w") as out:
    out.write("5")
start = figure("VmRSS:")
said = verdict(judge, row)
print(figure("VmHWM:") - start, said)
"""


def rows_before(name, owned):
    """What a judge has judged before a row: nothing, or two rows; two as long before a long one, for its buffer."""
    if name == UNASKED:
        return [[f'{{"{owned}":[],"z":"{"a" * LONG_ROW}"}}'] * 2]
    return [[], [f'{{"{owned}":[]}}'] * 2]


def attacks(room):
    for name, text, row in ROWS:
        owned = text.partition("/")[0]
        for before in rows_before(name, owned):
            asked = {"schema": schema(owned), "filter": text, "row": row, "before": before}
            words = [sys.executable, "-c", MEASURED, MODULE, write(f"{room}/row.json", json.dumps(asked))]
            done = subprocess.run(words, capture_output=True, text=True, timeout=120, env=os.environ, check=False)
            taken = int(done.stdout.split()[0]) if done.returncode == 0 else -1
            most = MOST_UNASKED if name == UNASKED else MOST
            is_well = 0 <= taken < most * len(row) + SLACK
            yield f"{name}, after {len(before)} rows", is_well, (taken / len(row), done.stdout, done.stderr)
