"""The example of each language: a server on loopback that checks the filter of each query, asked the same requests."""
import contextlib
import json
import subprocess
import threading
import urllib.parse

from built_program import TOP
from loopback import ask, end_with_parent

from .common import environment_with

__all__ = ["checks_of_server"]
SCHEMA = f"{TOP}/crates/odfilter/data/schema.json"
START = 120  # seconds in which a server says where it listens
# what is asked, and the query, the paths and the filter with which a handler answers
PASSED = [
    ("$top=5&$filter=(Active)%20AND%20ID%20eq%20+01&x=1", "$top=5&$filter=Active and ID eq 1&x=1", "Active ID",
     "Active and ID eq 1"),
    ("%24FILTER=Name%20eq%20%27%C3%A9%26%2B%25%27", "%24FILTER=Name eq '\u00e9&+%'", "Name", "Name eq '\u00e9&+%'"),
    ("$filter=Name%20eq%20%27a+b%27", "$filter=Name eq 'a+b'", "Name", "Name eq 'a+b'"),
    ("$top=5", "$top=5", "", ""),
    ("", "", "", ""),
]
# what is asked, the code of the answer, and of its inner error the filter and the span
REFUSED = [
    ("$filter=Active%20and%20Foo%20eq%201", "UnknownProperty", ("Active and Foo eq 1", {"start": 11, "end": 14})),
    ("$top=5&$filter=Name%20eq", "Unexpected", ("Name eq", {"start": 7, "end": 7})),
    ("$filter=Name%20eq%20%22%C3%A9%22", "BadCharacter", ('Name eq "\u00e9"', {"start": 8, "end": 9})),
    ("x=1;$filter=Foo&$top=5", "Disguised", (None, None)),
    ("$filter=Active&$filter=Active", "Repeated", (None, None)),
    ("$filter=Name%2", "BadEscape", (None, None)),
    ("$filter=" + "%20or%20".join(["Active"] * 60), "TooComplex", None),
]


@contextlib.contextmanager
def server(words, room, **how):
    """A server that prints its address: that."""
    env = environment_with(how.pop("more", {}))
    with open(f"{room}/server.errors", "wb") as said:
        streams = {"stdin": subprocess.DEVNULL, "stdout": subprocess.PIPE, "stderr": said}
        process = subprocess.Popen(words, env=env, preexec_fn=end_with_parent, **streams, **how)
    ended = threading.Timer(START, process.kill)
    ended.start()
    try:
        yield process.stdout.readline().decode().strip().removeprefix("http://")
    finally:
        ended.cancel()
        process.kill()
        process.communicate()


def is_refused(said, code, at):
    """Whether that is the standard's error body, with the fault whole as its inner error."""
    status, kind, body = said
    if status != 400 or not kind.startswith("application/json"):
        return False
    error = json.loads(body)["error"]
    is_well = error["code"] == code and error["message"].endswith(".") and error["target"] == "$filter"
    inner = error.get("innererror")
    if at is None or inner is None:
        return is_well and inner is at
    is_well = is_well and inner["name"] == code and inner["sentence"] == error["message"]
    return is_well and (inner["text"], inner["span"]) == at


def checks_of_server(name, words, room, **how):
    """What a server passes on to its handler, and what it refuses."""
    with server([*words, SCHEMA, "Mini.Item", "0"], room, **how) as address:
        yield f"{name} listens", ":" in address, open(f"{room}/server.errors", "rb").read()[-2_000:]
        if ":" not in address:
            return
        for query, wanted, paths, read in PASSED:
            said = ask(address, f"/Items?{query}" if query else "/Items")
            got, found, *parsed = said[2].split("\n")
            is_well = said[0] == 200 and urllib.parse.unquote(got) == urllib.parse.unquote(wanted)
            # the value stands alone in the query: none of its characters is one of the query's
            is_well = is_well and got.count("&") == query.count("&") and found.strip() == paths
            # where the framework reads queries before the filter is checked, what it has read is the checked text
            is_well = is_well and parsed in ([], [""], [read, ""])
            yield f"{name} passes on {query}", is_well, said
        for query, code, at in REFUSED:
            said = ask(address, f"/Items?{query}")
            yield f"{name} refuses {query[:60]}", is_refused(said, code, at), said
