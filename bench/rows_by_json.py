"""What `bench/peers` measures the program against: each line is read by Python's json or by orjson, and written where
its members are those that are kept. Nothing of a row is checked beyond that.

`rows_by_json.py json|orjson ROWS`
"""
import importlib
import sys


def main():
    loads = importlib.import_module(sys.argv[1]).loads
    with open(sys.argv[2], "rb") as rows:
        for line in rows:
            row = loads(line)
            if row["Active"] and row["ID"] == 1 and row["Name"] == "a":
                sys.stdout.buffer.write(line)


main()
