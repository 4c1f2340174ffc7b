"""The rows of the benches, in the styles that people write: for bench/rows and bench/peers.

Of each kind as many different rows are drawn as DRAWN says (drawn_rows.py), and written again and again.
"""
import json
import random

import drawn_rows

DRAWN = 20_000


def escaped(value):
    """The JSON with every character of a text, but not of a name, written as an escape."""
    if isinstance(value, str):
        return '"' + "".join(f"\\u{ord(character):04x}" for character in value) + '"'
    if isinstance(value, list):
        return "[" + ",".join(map(escaped, value)) + "]"
    if isinstance(value, dict):
        return "{" + ",".join(f"{json.dumps(name)}:{escaped(part)}" for name, part in value.items()) + "}"
    return json.dumps(value)


def turned(row, by):
    names = list(row)
    by %= len(names)
    return {name: row[name] for name in names[by:] + names[:by]}


def shuffled(row, number):
    """The row with its members in an order that is drawn for its number."""
    names = random.Random(f"order {number}").sample(list(row), len(row))
    return {name: row[name] for name in names}


def tagged(row, number):
    """The row after its entity tag, whose quotes are escaped."""
    return {"@odata.etag": f'W/"{number * 7919 % 100_000_007:08d}"', **row}


def with_undeclared(row, number):
    """The row with a text and a number after it that no type declares."""
    return {**row, "Supplier": f"supplier {number % 97}", "Weight": number % 400 + 0.25}


# of each variant, what it is, and a row's text from its JSON and its number
VARIANTS = {
    "plain": ("as a service writes it", lambda row, n: drawn_rows.compact(row)),
    "dumped": ("a space after each comma and colon", lambda row, n: json.dumps(row, ensure_ascii=False)),
    "tagged": ("@odata.etag first", lambda row, n: drawn_rows.compact(tagged(row, n))),
    "undeclared": ("two undeclared members last", lambda row, n: drawn_rows.compact(with_undeclared(row, n))),
    "shuffled": ("members in a random order", lambda row, n: drawn_rows.compact(shuffled(row, n))),
    "escaped": ("every text escaped", lambda row, n: escaped(row)),
    "turned": ("members in turned orders", lambda row, n: drawn_rows.compact(turned(row, n))),
    "further": (
        "a further member",
        lambda row, n: drawn_rows.compact({"more": {"a": [1, {"b": "text"}, None], "c": 2.5}, **row}),
    ),
    "spaces": (
        "spaces between tokens",
        lambda row, n: json.dumps(row, separators=(" , ", " : "), ensure_ascii=False),
    ),
}


def make(path, kind, variant, count):
    """So many rows of the variant: as many different ones as are drawn, in turn."""
    drawn = enumerate(drawn_rows.rows(kind, min(count, DRAWN)))
    texts = [f"{VARIANTS[variant][1](row, n)}\n" for n, row in drawn]
    with open(path, "w", encoding="utf-8") as out:
        for n in range(count):
            out.write(texts[n % len(texts)])
