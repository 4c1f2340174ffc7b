"""What a row takes within a bound: filters that do the most on it, each by one call (bench/costs prints figures)."""
import json
import os
import subprocess
import sys

from built_library import MODULE, TOP
from built_program import write

sys.path.insert(0, f"{TOP}/bench")
from cost_shapes import PLAIN, SCHEMA, long_bodies, shapes

BOUND = 1_000_000
SECONDS, MIB = 1, 64  # of one call: of a processor, and beyond what a filter takes that compares nothing
OF_LONG_BODIES = 3  # the seconds of these: half a second on an idle machine, and more beside the gate's other steps
# the seconds of a call, by how many KiB the most memory grew for it, and what came of the row; the bound of some is
# divided by the filter's nodes
MEASURED = """
import json, resource, sys, time
sys.path.insert(0, sys.argv[1])
import odfilter

def most():
    return resource.getrusage(resource.RUSAGE_SELF).ru_maxrss

asked = json.load(open(sys.argv[2]))
row, of_type = asked["row"].encode(), odfilter.Schema(asked["schema"]).type("N.T")
with of_type.check(asked["plain"]).judge() as plain:
    plain.verdict(row)
checked = of_type.check(asked["filter"])
judge = checked.judge(bound=asked["bound"] // (checked.node_count if asked["is_divided"] else 1))
before, begun = most(), time.process_time()
try:
    said = judge.verdict(row)
except odfilter.TooCostly:
    said = "TooCostly"
print(time.process_time() - begun, most() - before, said)
"""


def asked_rows():
    for kind in (shapes, long_bodies):
        for name, text, row in kind():
            asked = {"schema": SCHEMA, "plain": PLAIN, "filter": text, "row": row}
            yield name, {**asked, "bound": BOUND, "is_divided": kind is long_bodies}


def attacks(room):
    for name, asked in asked_rows():
        words = [sys.executable, "-c", MEASURED, MODULE, write(f"{room}/costs.json", json.dumps(asked))]
        done = subprocess.run(words, capture_output=True, text=True, timeout=120, env=os.environ, check=False)
        seconds, kib, said = (*done.stdout.split(), "-1", "-1", "nothing")[:3]
        most = OF_LONG_BODIES if asked["is_divided"] else SECONDS
        is_well = 0 <= float(seconds) < most and 0 <= int(kib) < MIB << 10
        yield f"cost: {name}", is_well, (seconds, kib, said, done.stderr)
