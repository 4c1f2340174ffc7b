"""The program suite_driver, as both compilers make it, and the ways to ask it: for tests/suite_calls, tests/calls,
tests/devices, tests/bad_cases, tests/refused and tests/great_texts.

A question is a word and at most three texts. `schema`, `type` and `filter` also keep what they are given for the
questions after them. An answer is a text; `memory` where an allocation failed, and otherwise as in WORDS.
"""
import subprocess
import sys

from built_program import TOP
from library_cases import netstring, netstrings

PROGRAM = f"{TOP}/crates/suite_driver/out/suite_driver"
SECONDS = 600
# each word with what it is given, and what is answered
WORDS = {
    "schema": "a document: `accepted`, or the fault",
    "type": "a name: `found`, or `no such type`",
    "filter": "a text: `accepted`, or `refused OperandTypes 0..9`",
    "canonical": "nothing: the filter's canonical text",
    "explanation": "nothing: its explanation",
    "nodes": "nothing: `0..7 Edm.Boolean, 0..2 Edm.Int32 slot 1`",
    "depth": "nothing: how deep its lambda operators nest",
    "outcome": "a row, a moment or nothing, how often it is evaluated: four lines (call_cases.outcome_of)",
    "expanded": "a row, a moment or nothing, a path that is expanded too: the outcome of an evaluation",
    "cost": "a row, a moment or nothing: the least bound, then what is reported within it (call_cases.cost_of)",
    "lines": "lines, and more that come after them: what a run ends with, of memory with the line; then the text",
    "collection": "a collection: the same",
    "devices": "lines, more after them, the manners of devices (tests/devices): what a run ends with, reads, writes, text",
    "logged": "the same by devices that log their calls: what a run ends with, and both logs",
    "unfailing": "lines: what a run ends with over devices that cannot fail",
    "run_filter": "the same of the program's work, over what is held: the status, the order of calls, both streams; also "
    "`run_check`, `run_explain`, `run_collection` and, from standard input, `run_input`",
    "lines_of": "the same of a reader of lines: its memory, so many lines, its memory, the reads",
    "row": "a line: `fits` with its values, or the fault; on a last line `read` if its bytes say so, or `unread`",
    "slots": "nothing: the type's slots",
    "slot": "a name: its slot, or `null`",
    "piece": "a slot: how many properties stand from there on; the first's name and whether it is that slot's",
    "named": "a name: the type and the enumeration that go by it, or `none`, and whether it is an entity type",
    "number": "an enumeration and a text: its number, or `null`",
    "tokens": "a text: `Word 0..2, Int 3..4`, or the refusal",
    "tree": "a text: its nodes in pre-order, or the refusal",
    "text": "a text: its canonical text, or the refusal",
    "expression": "a text: `accepted`, or the refusal",
    "query": "a query: `filter` and its filter, `no filter`, or the refusal",
    "identifier": "a text: `true` or `false`",
    "literal": "a text, a kind, what stands before: that and the canonical spelling of the value, or `null`",
    "instant": "a moment: its nanoseconds from 1970 on, or `null`",
    "order": "two moments: how they stand, whether they are equal, whether the first is less",
    "parts": "a year and an offset in minutes: whether the moment has them, or `null`",
    "paths": "paths with commas between them: how many are in a set of them, and in a copy, and whether it is the same",
    "concat": "two texts: both as one",
    "lower": "a text: the same in lower case",
    "upper": "a text: the same in upper case",
}


def drivers():
    """The program of both compilers, with `--first` the first alone, or the one that stands after `--driver`."""
    if "--driver" in sys.argv:
        return [sys.argv[sys.argv.index("--driver") + 1]]
    return [PROGRAM] if "--first" in sys.argv else [PROGRAM, f"{PROGRAM}.by-rattle"]


def in_bytes(text):
    return text.encode() if isinstance(text, str) else text


def wire(questions):
    """The questions as the program reads them."""
    padded = ([*question, "", "", ""][:4] for question in questions)
    return b"".join(netstring(in_bytes(text)) for question in padded for text in question)


def asked(program, questions, room, **how):
    """The answers of a program to questions, or what it said instead."""
    path = f"{room}/questions"
    with open(path, "wb") as out:
        out.write(wire(questions))
    done = subprocess.run([program, path], capture_output=True, timeout=SECONDS, check=False, **how)
    answers = [text.decode("utf-8", "surrogateescape") for text in netstrings(done.stdout)]
    if done.returncode or done.stderr or len(answers) != len(questions):
        counts = f"{len(answers)} of {len(questions)} answers"
        raise RuntimeError(f"status {done.returncode}, {counts}, {done.stderr[:400]!r}")
    return answers
