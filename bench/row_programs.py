"""The program over rows, and what else keeps the same rows: how each is made, its command line, and what a run of it
takes. For bench/rows and bench/peers.

The programs of rust/ are made with Debian's librust-serde-json-dev and librust-serde-derive-dev, that of simdjson/ with
g++ and libsimdjson-dev for this processor.
"""
import fcntl
import importlib.util
import json
import os
import shutil
import statistics
import struct
import subprocess
import sys
import tempfile
import termios
import time

TOP = os.path.dirname(os.path.dirname(os.path.realpath(__file__)))
PROGRAM = os.environ.get("PROGRAM", f"{TOP}/crates/odfilter/out/odfilter")
MINI = """{"$Version":"4.01","Mini":{"Item":{"$Kind":"EntityType",
"ID":{"$Type":"Edm.Int32"},"Name":{},"Active":{"$Type":"Edm.Boolean"}}}}"""
SHOP = """{"$Version":"4.01","Shop":{"$Alias":"S",
"Color":{"$Kind":"EnumType","$IsFlags":true,"Red":1,"Green":2,"Blue":4},
"Line":{"$Kind":"ComplexType","Qty":{"$Type":"Edm.Int32"}},
"Address":{"$Kind":"ComplexType","City":{},"Lines":{"$Type":"Shop.Line","$Collection":true}},
"Part":{"$Kind":"ComplexType","Name":{},"Qty":{"$Type":"Edm.Int32"},"Sub":{"$Type":"Shop.Part","$Collection":true}},
"Product":{"$Kind":"EntityType","$Key":["ID"],"ID":{"$Type":"Edm.Int32"},"Name":{},
"Rating":{"$Type":"Edm.Int16","$Nullable":true},"Stock":{"$Type":"Edm.Int64"},
"Active":{"$Type":"Edm.Boolean","$Nullable":true},"Released":{"$Type":"Edm.Date","$Nullable":true},
"Changed":{"$Type":"Edm.DateTimeOffset"},"Color":{"$Type":"S.Color"},"Code":{"$Type":"Edm.Guid"},
"Tags":{"$Collection":true},"Price":{"$Type":"Edm.Decimal"},
"Home":{"$Type":"Shop.Address","$Nullable":true},"Parts":{"$Type":"Shop.Part","$Collection":true}}}}"""
SCHEMAS = {"Mini.Item": MINI, "Shop.Product": SHOP}
# what is kept, as a filter, as members that are tested, as jq selects, and as miller does
KEPT = "Active and ID eq 1 and Name eq 'a'"
TESTED = {"Active": True, "ID": 1, "Name": "a"}
SELECTED = '.Active and .ID == 1 and .Name == "a"'
SELECTED_BY_MILLER = '$Active == true && $ID == 1 && $Name == "a"'
BY_JSON = f"{TOP}/bench/rows_by_json"
SCRIPTS = {
    "jq": ["jq", "-c", f"select({SELECTED})"],
    "gojq": ["gojq", "-c", f"select({SELECTED})"],
    "miller": ["mlr", "--ijsonl", "--ojsonl", "filter", SELECTED_BY_MILLER],
    "python json": [sys.executable, f"{BY_JSON}.py", "json"],
    "python orjson": [sys.executable, f"{BY_JSON}.py", "orjson"],
    "node": ["node", f"{BY_JSON}.js"],
}
# these lay out anew what they write
LAID_OUT_ANEW = ("gojq", "miller")


def timed(words):
    """Processor seconds, wall seconds, and what was written."""
    with tempfile.TemporaryFile() as out:
        began = time.monotonic()
        child = subprocess.Popen(words, stdin=subprocess.DEVNULL, stdout=out)
        _, status, used = os.wait4(child.pid, 0)
        wall = time.monotonic() - began
        if status:
            sys.exit(f"{words[0]} failed: status {status}")
        out.seek(0)
        return used.ru_utime + used.ru_stime, wall, out.read()


def median(runs, at):
    return statistics.median(run[at] for run in runs)


def peak(words, path):
    """The most memory in MiB of a run over rows from a pipe, looked at once all were read and before their end, and the
    run's processor seconds."""
    before = os.times()
    with subprocess.Popen(words, stdin=subprocess.PIPE, stdout=subprocess.DEVNULL) as child:
        with open(path, "rb") as rows:
            shutil.copyfileobj(rows, child.stdin)
        child.stdin.flush()
        while struct.unpack("i", fcntl.ioctl(child.stdin, termios.FIONREAD, b"\0" * 4))[0]:
            time.sleep(0.01)
        time.sleep(0.1)
        with open(f"/proc/{child.pid}/status", encoding="utf-8") as lines:
            fields = dict(line.split(":", 1) for line in lines)
    if child.returncode:
        sys.exit(f"{words[0]} failed: status {child.returncode}")
    after = os.times()
    used = after.children_user + after.children_system - before.children_user - before.children_system
    return int(fields["VmHWM"].split()[0]) / 1024, used


def words_of(program, room, kind, text=KEPT, schema=None):
    """The command line of a run over rows from standard input."""
    path = f"{room}/{kind}.schema.json"
    with open(path, "w", encoding="utf-8") as out:
        out.write(schema or SCHEMAS[kind])
    return [program, "filter", "--schema", path, "--type", kind, "--filter", text]


def rust_programs():
    """The folder of the programs in Rust, made anew; None where they cannot be made."""
    room = f"{TOP}/out/bench/rust"
    shutil.rmtree(f"{room}/src", ignore_errors=True)
    shutil.copytree(f"{TOP}/bench/rust", room, dirs_exist_ok=True)
    try:
        subprocess.run(["cargo", "build", "--release", "--offline", "--quiet"], cwd=room, check=True)
    except (OSError, subprocess.CalledProcessError):
        print("the programs in Rust are left out: cargo, librust-serde-json-dev and -derive-dev make them")
        return None
    return f"{room}/target/release"


def simdjson_programs():
    """The folder of the programs over simdjson, made anew; None where they cannot be made."""
    room = f"{TOP}/out/bench/simdjson"
    os.makedirs(room, exist_ok=True)
    build = ["g++", "-O3", "-std=c++17", "-DNDEBUG", f"{TOP}/bench/simdjson/rows_by_simdjson.cpp"]
    try:
        for name, machine in (("rows_by_simdjson", "native"), ("counted", "x86-64-v3")):
            subprocess.run([*build, f"-march={machine}", "-o", f"{room}/{name}", "-lsimdjson"], check=True)
    except (OSError, subprocess.CalledProcessError):
        print("the program over simdjson is left out: g++ and libsimdjson-dev make it")
        return None
    return room


def words_of_others(others, kind, rows, of_simdjson="rows_by_simdjson"):
    """The command lines of the programs in Rust and of the one over simdjson, over a file of rows."""
    in_rust, over_simdjson = others
    words = {}
    if in_rust is not None:
        tests = [word for name, value in TESTED.items() for word in (name, json.dumps(value))]
        words["rows_by_value"] = [f"{in_rust}/rows_by_value", rows, *tests]
        words |= {name: [f"{in_rust}/{name}", kind, rows] for name in ("rows_by_struct", "rows_by_struct_of_text")}
    if over_simdjson is not None:
        words["rows_by_simdjson"] = [f"{over_simdjson}/{of_simdjson}", kind, rows]
    return words


def words_of_scripts(rows):
    """The command lines of programs in other languages, of those that are there, over a file of rows."""
    lines = {name: [*words, rows] for name, words in SCRIPTS.items()}
    missing = {"python orjson"} if importlib.util.find_spec("orjson") is None else set()
    return {name: line for name, line in lines.items() if name not in missing and shutil.which(line[0])}


def are_same_rows(seen, count):
    """Whether all wrote one in ten rows, and the same: gojq sorts names and miller puts spaces, so of their rows the
    values count."""
    written = {name: {run[2] for run in runs} for name, runs in seen.items()}
    texts = [text for name, one in written.items() if name not in LAID_OUT_ANEW for text in one]
    lines = texts[0].splitlines()
    if any(text != texts[0] for text in texts) or len(lines) != count // 10:
        return False
    values = [json.loads(line) for line in lines]
    anew = [text for name in LAID_OUT_ANEW for text in written.get(name, ())]
    return all(values == [json.loads(line) for line in text.splitlines()] for text in anew)
