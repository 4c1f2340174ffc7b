"""What tests/terminal and tests/row_sentences share: a run whose standard error is a pseudo-terminal, the schema and the
cases of filter_sentences.jsonl, a row of its type, and sentences.
"""
import json
import os
import pty
import subprocess

from built_program import TOP, in_utf8, write

with open(f"{TOP}/tests/filter_sentences.jsonl", encoding="utf-8") as file:
    DECLARED, *CASES = [json.loads(line) for line in file]

# a row of the type
ROW = {"ID": 1, "Name": "a", "Stock": 1, "Active": True, "ReleasedOn": "2024-01-01"}
ROW |= {"ChangedAt": "2024-01-01T00:00:00Z", "Key": "01234567-89ab-cdef-0123-456789abcdef", "Color": "Red"}
ROW |= {"Tags": ["t"], "Parts": [{"Name": "n", "Qty": 1}], "Address": {"City": "c", "Zip": "z"}}
WITHOUT_KEY = {name: value for name, value in ROW.items() if name != "Key"}
KIND = "The value of '{}' is not of the kind of JSON that its type wants."
COMPRESSED = " The file is compressed: gzip -dc reads it."


def at_terminal(program, words):
    """The answer of a run whose standard error is a terminal."""
    ours, theirs = pty.openpty()
    how = {"stdin": subprocess.DEVNULL, "stdout": subprocess.PIPE, "stderr": theirs}
    with subprocess.Popen(in_utf8([program, *words]), **how) as it:
        os.close(theirs)
        said = b""
        try:
            while block := os.read(ours, 1 << 16):
                said += block
        except OSError:  # the other end is closed
            pass
        finally:
            os.close(ours)
        out = it.stdout.read()
    return out.decode(), said.decode().replace("\r\n", "\n"), it.returncode


def words_of(room, verb, *more):
    schema = f"{room}/schema.json"
    if not os.path.exists(schema):
        write(schema, json.dumps(DECLARED["schema"]))
    return [verb, "--schema", schema, "--type", DECLARED["type"], *more]
