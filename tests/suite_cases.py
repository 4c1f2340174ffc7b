"""The suite of cases (tests/suite), read for whoever is asked: tests/conformance asks a command line, tests/c_library
the clients of the C library, tests/suite_calls the public calls (call_cases.py).

`answers(asked, case)` yields of a case what is asked, the wanted answer and that of `asked`, an object with these
methods. Texts and documents are as cases have them (`bytes_of` and `document_of` make bytes of one), rows are bytes.

- `take(case)`: the next questions are of its `schema` and `type`, where it has them
- `outcome(text, row)`: True, False, None, the name of a fault (`"Overflow"`, `"Missing Parts/0"`), or `"refused .."`
- `refusal(text)`: `"OperandTypes 0..9"`, or None where the filter is accepted
- `checked(text)`: the canonical text, or `"refused .."`
- `by_query(query)`: the same, or `"refused query .."`, or `"no filter"`
- `explained(text)`: the lines of the explanation
- `fits(row, named)`: True, or the name of the row's fault; of the case's type, or of the named one
- `fault(document)`: `"accepted"`, or the name of the fault with the names that it carries
- `is_entity(document, name)`: whether the schema has an entity type of that name
- `of_words(case)`: as `answers`, of a case of a command line

Each may answer UNASKED, or something of its own that stands for an answer which is still to come.
"""
import json
import os

DATA = os.path.join(os.path.dirname(os.path.realpath(__file__)), "suite")
LETTERS = {"T": True, "F": False, "N": None, "O": "Overflow", "Z": "DivideByZero"}
FAULTS = {".": True, "M": "Missing", "W": "WrongKind", "N": "NullNotAllowed", "O": "OutOfRange", "B": "BadText"}
# the answer where nothing can be asked, and what is wanted where any fault will do
UNASKED, ANY_FAULT = object(), object()


class LeftOut(Exception):
    """A case of which nothing can be asked."""


def bytes_of(text):
    """A text: a JSON text, or the pieces of a list."""
    return text.encode() if isinstance(text, str) else b"".join(map(piece_of, text))


def piece_of(piece):
    if isinstance(piece, int):
        return bytes([piece])
    if isinstance(piece, str):
        return piece.encode()
    if isinstance(piece, dict):
        return row_of(piece, piece["row"])
    if len(piece) == 2:
        return (piece[0] * piece[1]).encode()
    numbers = range(piece[1], piece[2])
    return "".join(piece[0].replace("##", str(n - 1)).replace("#", str(n)) for n in numbers).encode()


def compact(value):
    return json.dumps(value, ensure_ascii=False, separators=(",", ":")).encode()


def stored(folder, name):
    with open(f"{DATA}/{folder}/{name}.json", "rb") as file:
        return file.read().strip()


def row_of(case, row):
    """The bytes of a row: that of a name, or a given one, with the case's changes."""
    row = json.loads(stored("rows", row)) if isinstance(row, str) else row
    if "with" in case or "without" in case:
        lost = case.get("without", [])
        row = {name: value for name, value in {**row, **case.get("with", {})}.items() if name not in lost}
    return compact(row)


def document_of(document):
    """The bytes of a schema document: an object, or its text."""
    return compact(document) if isinstance(document, dict) else bytes_of(document)


def changed(case, members):
    return compact({**json.loads(row_of({}, case["row"])), **members})


def of_filters(asked, case):
    """Filters of a type, on rows and without."""
    if "filters" in case:
        row = row_of(case, case["row"])
        yield from ((text, wanted, asked.outcome(text, row)) for text, wanted in case["filters"])
    elif "refusals" in case:
        yield from ((text, wanted, asked.refusal(text)) for text, wanted in case["refusals"])
    elif "canonicals" in case:
        yield from ((text, bytes_of(wanted).decode(), asked.checked(text)) for text, wanted in case["canonicals"])
    elif "untypable" in case:
        yield from at_places(asked, case)
    elif "answers" in case:
        yield from of_matrix(asked, case)
    elif "filter" in case:
        yield from of_one_filter(asked, case, case["filter"])
    else:
        raise LeftOut


def of_one_filter(asked, case, text):
    if "outcome" in case:
        yield text, case["outcome"], asked.outcome(text, row_of(case, case["row"]))
    elif "rows" in case:
        yield from ((row, wanted, asked.outcome(text, row_of({}, row))) for row, wanted in case["rows"])
    elif "changes" in case:
        yield from ((with_, wanted, asked.outcome(text, changed(case, with_))) for with_, wanted in case["changes"])
    elif "refused" in case:
        yield text, case["refused"], asked.refusal(text)
    elif "explained" in case:
        yield text, "".join(f"{line}\n" for line in case["explained"]), asked.explained(text)
    elif "canonical" in case:
        for same in [text, *case.get("same_as", [])]:
            yield same, bytes_of(case["canonical"]).decode(), asked.checked(same)
    else:
        raise LeftOut


def at_places(asked, case):
    for text, reason in case["untypable"]:
        for before, after in case["places"]:
            start = len(before.encode())
            wanted = f"{reason} {start}..{start + len(text.encode())}"
            yield before + text + after, wanted, asked.refusal(before + text + after)


def of_matrix(asked, case):
    row = row_of({}, case["row"])
    for operator, rows in zip(case["operators"], case["answers"], strict=True):
        for left, letters in zip(case["left"], rows, strict=True):
            for right, letter in zip(case["right"], letters, strict=True):
                text = f"{case.get('before', '')}{left} {operator} {right}{case.get('behind', '')}"
                if letter == "R":
                    yield text, f"OperandTypes 0..{len(text.encode())}", asked.refusal(text)
                else:
                    yield text, LETTERS[letter], asked.outcome(text, row)


def of_rows(asked, case):
    """Rows and lines of a type: whether they fit, or their fault."""
    if "letters" in case:
        for named, letters in zip(case["types"], case["letters"], strict=True):
            for line, letter in zip(case["lines"], letters, strict=True):
                wanted = True if letter == "." else f"{FAULTS[letter]} P"
                yield f"{named} {line}", wanted, asked.fits(line.encode(), named)
    elif "beginnings" in case:
        row = row_of({}, case["row"])
        yield from ((n, case["beginnings"], asked.fits(row[:n])) for n in range(1, len(row)))
    elif "fits" in case or "fault" in case:
        row = bytes_of(case["line"]) if "line" in case else row_of(case, case["row"])
        yield case.get("row"), case.get("fits", case.get("fault")), asked.fits(row)
    elif "rows" in case:
        yield from ((row, wanted, asked.fits(row_of({}, row))) for row, wanted in case["rows"])
    elif "changes" in case:
        yield from ((with_, wanted, asked.fits(changed(case, with_))) for with_, wanted in case["changes"])
    elif "lines" in case:
        yield from ((line, wanted, asked.fits(bytes_of(line))) for line, wanted in case["lines"])
    elif "conforming" in case:
        pairs = ((line, True if fits else ANY_FAULT) for line, fits in case["conforming"])
        yield from ((line, wanted, asked.fits(bytes_of(line))) for line, wanted in pairs)
    else:
        raise LeftOut


def of_documents(asked, case):
    if "beginnings" in case:
        text = stored("schemas", case["schema"]).decode()
        yield from ((n, case["beginnings"], asked.fault(text[:n])) for n in range(len(text)))
    elif "fault" in case:
        yield case["document"], case["fault"], asked.fault(case["document"])
    elif "documents" in case:
        yield from ((document, wanted, asked.fault(document)) for document, wanted in case["documents"])
    elif "accepted" in case:
        yield from of_names(asked, case)
    else:
        raise LeftOut


def of_names(asked, case):
    """The names of entity types among a schema's look-ups."""
    document = case["document"] if "document" in case else stored("schemas", case["schema"]).decode()
    yield document, "accepted", asked.fault(document)
    unknown = [[name, False] for name, whole in case["accepted"].get("types", []) if whole is None]
    for name, wanted in case["accepted"].get("entities", []) + unknown:
        yield name, wanted, asked.is_entity(document, name)


def of_queries(asked, case):
    """A query's filter is what the same text is by itself."""
    asked.take({"schema": "mini", "type": "Mini.Item"})
    pairs = case.get("queries") or ([(case["query"], case["filter"])] if "filter" in case else [])
    for query, text in pairs:
        yield query, "no filter" if text is None else asked.checked(text), asked.by_query(query)
    refusals = case.get("query_refusals") or ([(case["query"], case["refused"])] if "refused" in case else [])
    yield from ((query, f"refused query {wanted}", asked.by_query(query)) for query, wanted in refusals)


def answers(asked, case):
    """What is asked, the wanted answer and the answer."""
    asked.take(case)
    if "words" in case:
        return asked.of_words(case)
    if {"query", "queries", "query_refusals"} & case.keys():
        return of_queries(asked, case)
    if {"document", "documents", "accepted"} & case.keys() or "beginnings" in case and "type" not in case:
        return of_documents(asked, case)
    if {"filter", "filters", "refusals", "canonicals", "untypable", "answers"} & case.keys() and "schema" in case:
        return of_filters(asked, case)
    if {"row", "rows", "line", "lines", "conforming", "letters"} & case.keys():
        return of_rows(asked, case)
    raise LeftOut


def differs(wanted, got):
    """Whether an answer is another one than the wanted one."""
    if wanted is ANY_FAULT:
        return not isinstance(got, str)
    return wanted != got or isinstance(wanted, bool) != isinstance(got, bool)


def cases(path=None):
    """The cases of the suite, or of one file, each with its file and line."""
    files = [(f"cases/{name}", f"{DATA}/cases/{name}") for name in sorted(os.listdir(f"{DATA}/cases"))]
    for name, at in [(os.path.basename(path), path)] if path else files:
        with open(at, encoding="utf-8") as file:
            yield from ((f"{name}:{number}", json.loads(line)) for number, line in enumerate(file, 1))
