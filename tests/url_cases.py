"""The cases of tests/url_cases.jsonl: whole queries, and which filter each has.

Each line is a case: `name`, [`client`, whose queries look so,] `schema` and `type` of tests/suite, and
`query`, where a lone surrogate stands for a byte that is no UTF-8, as Python's surrogateescape has it. Then one of:

- `text`, `piece`, `value`: the filter's text, decoded, and the bytes of the query where its option and its value stand;
  with `canonical`, and perhaps `paths`, `nodes` and `depth`, where it is accepted, or with `refused`
- `query_refused`: the fault, as `Disguised 0`
- `none`: true where there is no filter

`says` lists words of the fault's sentence. `unknown` is the first option that is neither the standard's nor in OPTIONS.
"""
import json

from built_library import TOP
from suite_cases import stored

__all__ = ["OPTIONS", "answer_wanted", "cases", "document_of", "is_carried"]
# options of the backends in the cases, which a gateway's owner lists
OPTIONS = ["x", "y", "_", "pageName", "sap-client", "sap-statistics", "ConsistencyLevel", "api-version"]


def cases():
    with open(f"{TOP}/tests/url_cases.jsonl", encoding="utf-8") as file:
        for line in file:
            case = json.loads(line)
            yield {**case, "query": case["query"].encode("utf-8", "surrogateescape")}


def document_of(case):
    return stored("schemas", case["schema"])


def answer_wanted(case):
    """A case's answer: the outcome, and on two further lines where the piece and the value stand, and the text."""
    if "query_refused" in case:
        return f"refused query {case['query_refused']}"
    if "none" in case:
        return "no filter"
    outcome = f"refused {case['refused']}" if "refused" in case else "accepted"
    return "\n".join([outcome, " ".join(map(str, case["piece"] + case["value"])), case["text"]])


def is_carried(query):
    """Whether a query can stand in a request as it is."""
    return all(33 <= byte <= 126 and byte != ord("#") for byte in query)
