"""The suite of cases as questions to the program suite_driver, which answers by the public calls: all forms of cases
but runs, which are asked of the program (tests/conformance).

`asked_of(case)` yields of a case what is given, the wanted answer as a text, and how it is read of the answers to all
questions. Trouble is a case that cannot be asked.
"""
import json

from library_cases import Later
from suite_cases import bytes_of, changed, document_of, row_of, stored

STANDARDS = ("URL ", "ABNF", "CSDL ", "JSON ", "RFC ", "profile")
CHANGES, NOW = ["with", "without"], ["now"]
OF_TYPE = ["schema", "type"]
MATRIX = [*OF_TYPE, "operators", "left", "right"]
# the forms of cases, each what it asks, the members that it needs, and those that it may have
FORMS = [
    ("outcome", [*OF_TYPE, "filter", "row", "outcome"], [*CHANGES, *NOW]),
    ("outcomes", [*OF_TYPE, "row", "filters"], [*CHANGES, *NOW]),
    ("outcomes_on_rows", [*OF_TYPE, "filter", "rows"], NOW),
    ("outcomes_on_changed", [*OF_TYPE, "filter", "row", "changes"], NOW),
    ("refusal", [*OF_TYPE, "filter", "refused"], []),
    ("refusals", [*OF_TYPE, "refusals"], []),
    ("canonical", [*OF_TYPE, "filter", "canonical"], ["same_as", "row"]),
    ("canonicals", [*OF_TYPE, "canonicals"], ["row"]),
    ("nodes", [*OF_TYPE, "filter", "nodes"], []),
    ("explanation", [*OF_TYPE, "filter", "explained"], []),
    ("depth", [*OF_TYPE, "filter", "lambda_depth"], []),
    ("depths", [*OF_TYPE, "lambda_depths"], []),
    ("cost", [*OF_TYPE, "filter", "row", "cost"], [*CHANGES, *NOW]),
    ("costs", [*OF_TYPE, "row", "costs"], [*CHANGES, *NOW]),
    ("answers", [*MATRIX, "row", "answers"], ["before", "behind"]),
    ("types", [*MATRIX, "types"], ["before", "behind"]),
    ("places", [*OF_TYPE, "untypable", "places"], []),
    ("tokens", ["text", "tokens"], []),
    ("texts", ["texts"], []),
    ("token_count", ["text", "token_count"], []),
    ("tree", ["text", "tree"], []),
    ("trees", ["trees"], []),
    ("text_refusal", ["text", "refused"], []),
    ("text_refusals", ["refusals"], []),
    ("text_canonical", ["text", "canonical"], []),
    ("text_canonicals", ["canonicals"], []),
    ("identifiers", ["identifiers"], []),
    ("query", ["query", "filter"], []),
    ("queries", ["queries"], []),
    ("query_refusal", ["query", "refused"], []),
    ("query_refusals", ["query_refusals"], []),
    ("literal", ["literal", "text", "value"], []),
    ("literals", ["literal", "values"], []),
    ("instants", ["instants"], []),
    ("document", ["document", "fault"], []),
    ("documents", ["documents"], []),
    ("schema_beginnings", ["schema", "beginnings"], []),
    ("look_ups", ["document", "accepted"], []),
    ("look_ups", ["schema", "accepted"], []),
    ("row_fits", [*OF_TYPE, "row", "fits"], CHANGES),
    ("row_fault", [*OF_TYPE, "row", "fault"], CHANGES),
    ("rows", [*OF_TYPE, "rows"], []),
    ("changed_rows", [*OF_TYPE, "row", "changes"], []),
    ("values", [*OF_TYPE, "row", "values"], CHANGES),
    ("line_fits", [*OF_TYPE, "line", "fits"], []),
    ("line_fault", [*OF_TYPE, "line", "fault"], []),
    ("lines", [*OF_TYPE, "lines"], []),
    ("conforming", [*OF_TYPE, "conforming"], []),
    ("letters", ["schema", "types", "lines", "letters"], []),
    ("row_beginnings", [*OF_TYPE, "row", "beginnings"], []),
    ("run", ["words", "status"], ["files", "input", "output", "errors"]),
]
LETTERS = {"true": "T", "false": "F", "null": "N", "Overflow": "O", "DivideByZero": "Z", "Edm.Boolean": "b"}
LETTERS |= {"Edm.Int16": "2", "Edm.Int32": "4", "Edm.Int64": "8", "Null": "n"}
LETTERS_OF_ROWS = {f"{name} P": name[0] for name in ("Missing", "WrongKind", "NullNotAllowed", "OutOfRange", "BadText")}
KINDS = {"types": 0, "enumerations": 1, "entities": 2}


class Trouble(Exception):
    """Why a case cannot be asked."""


def form_of(case):
    """What a case asks, by its members."""
    for form, needed, allowed in FORMS:
        if {*needed} <= case.keys() <= {*needed, *allowed, "name", "from"}:
            return form
    raise Trouble("no form of a case has just these members")


def note(case, names):
    """Notes the name of a further case of a file, and holds what each case has to that."""
    if not isinstance(case, dict):
        raise Trouble("a line is one JSON object")
    if "name" not in case or "from" not in case:
        raise Trouble("a member is missing")
    if case["name"] in names:
        raise Trouble("another case of the file has its name")
    names.add(case["name"])
    if not str(case["from"]).startswith(STANDARDS):
        raise Trouble("from is no section of a standard")


def pairs_of(pairs):
    if not all(isinstance(pair, list) and len(pair) == 2 for pair in pairs):
        raise Trouble("a pair is wanted")
    return pairs


def plain(wanted):
    """A wanted answer as a text: a truth value, null, a number, or a text."""
    if wanted is None or isinstance(wanted, (bool, int)):
        return json.dumps(wanted)
    return bytes_of(wanted).decode()


def marked(word, wanted, null):
    return null if wanted is None else f"{word} {plain(wanted)}"


def listed(wanted):
    """A list of texts, or the refusal that a text is."""
    return ", ".join(wanted) if isinstance(wanted, list) else marked("refused", wanted, "null")


def outcome_of(answer):
    """The one outcome on a row, or its fault: of evaluations, of a run over it, of the row by itself, and by what is
    kept from row to row, there again too."""
    parts = answer.split("\n")
    found = parts[0]
    of_run = {"true": "1 of 1, it", "false": "0 of 1, nothing", "null": "0 of 1, nothing"}
    again = found if found in (*of_run, "Overflow", "DivideByZero") else "a fault"
    wanted = [found, of_run.get(found, f"row 1 {found}, nothing"), found, f"{found}, {again}"]
    return found if parts == wanted else f"ways that differ: {parts}"


def cost_of(answer, outcome):
    """The least bound within which a row has an answer, where that is the outcome by all ways and one less has none."""
    most, *said = answer.split(", ")
    reported = {"true": "True", "false": "False", "null": "Null"}.get(outcome, outcome)
    wanted = [reported] * 3 + (["none"] * 2 if most != "0" else [])
    return most if said == wanted else f"ways that differ: {answer}, {outcome}"


def row_of_ways(answer, judged):
    """What a line is, where it is that through a tree, by its bytes, and as a row that a true filter judges."""
    of_tree, way = answer.rsplit("\n", 1)
    found = "true" if of_tree.startswith("fits ") else of_tree
    evaluated, *_, by_itself, by_rows = judged.split("\n")
    again = f"{found}, {'true' if found == 'true' else 'a fault'}"
    is_one = way in ("read", "unread") and (evaluated, by_itself, by_rows) == (found, found, again)
    return of_tree if is_one else f"ways that differ: {answer}, {judged}"


class Calls:
    """Takes down what is asked. A question is held that was asked last of its kind, so it is asked once."""

    def __init__(self, times=1):
        self.questions, self.held, self.times = [], {}, times
        self.case = {}

    def ask(self, word, *given):
        self.questions.append((word, *given))
        return len(self.questions) - 1

    def hold(self, word, given):
        """Has a document, a type or a filter be what the next questions are of."""
        if self.held.get(word, (None, 0))[0] != given:
            for other in {"schema": ["type", "filter"], "type": ["filter"]}.get(word, []):
                self.held.pop(other, None)
            self.held[word] = (given, self.ask(word, given))
        return self.held[word][1]

    def hold_document(self, document):
        return self.hold("schema", document)

    def hold_schema(self):
        return self.hold_document(stored("schemas", self.case["schema"]))

    def hold_type(self, named=None):
        self.hold_schema()
        return self.hold("type", named or self.case["type"])

    def of_filter(self, text, word, *given, read=lambda answer: answer):
        """What is answered of a filter, or its refusal."""
        found = self.hold_type()
        held = self.hold("filter", bytes_of(text))
        asked = self.ask(word, *given) if word != "filter" else held
        return Later(lambda got: typed(got[found], lambda: accepted(got[held], lambda: read(got[asked]))))

    def outcome(self, text, row):
        given = (row, self.case.get("now", ""), str(self.times))
        return self.of_filter(text, "outcome", *given, read=outcome_of)

    def cost(self, text, row):
        outcome = self.outcome(text, row)
        by_cost = self.of_filter(text, "cost", row, self.case.get("now", ""))
        return Later(lambda got: cost_of(by_cost.read(got), outcome.read(got)))

    def row(self, line, named=None):
        found = self.hold_type(named)
        self.hold("filter", "true")
        asked, judged = self.ask("row", line), self.ask("outcome", line, "", "1")
        return Later(lambda got: typed(got[found], lambda: row_of_ways(got[asked], got[judged])))

    def fits(self, line):
        by_row = self.row(line)
        return Later(lambda got: "true" if by_row.read(got).startswith("fits ") else by_row.read(got))

    def simply(self, word, *given):
        asked = self.ask(word, *given)
        return Later(lambda got: got[asked])


def typed(found, read):
    if found == "no such type":
        raise Trouble("a type of that name is not there")
    return read()


def accepted(held, read):
    return read() if held == "accepted" else held


def of_outcomes(calls, form, case):
    """What is asked of filters on rows."""
    if form == "outcome":
        yield case["filter"], plain(case["outcome"]), calls.outcome(case["filter"], row_of(case, case["row"]))
    elif form == "outcomes":
        row = row_of(case, case["row"])
        yield from ((text, plain(wanted), calls.outcome(text, row)) for text, wanted in pairs_of(case["filters"]))
    elif form == "outcomes_on_rows":
        for row, wanted in pairs_of(case["rows"]):
            yield row, plain(wanted), calls.outcome(case["filter"], row_of({}, row))
    elif form == "outcomes_on_changed":
        for with_, wanted in pairs_of(case["changes"]):
            yield with_, plain(wanted), calls.outcome(case["filter"], changed(case, with_))
    else:
        costs = [[case["filter"], case["cost"]]] if form == "cost" else pairs_of(case["costs"])
        row = row_of(case, case["row"])
        yield from ((text, plain(wanted), calls.cost(text, row)) for text, wanted in costs)


def of_filters(calls, form, case):
    """What is asked of filters."""
    if form in ("refusal", "refusals"):
        for text, wanted in [[case["filter"], case["refused"]]] if form == "refusal" else pairs_of(case["refusals"]):
            yield text, marked("refused", wanted, "accepted"), calls.of_filter(text, "filter")
    elif form == "nodes":
        yield case["filter"], listed(case["nodes"]), calls.of_filter(case["filter"], "nodes")
    elif form == "explanation":
        lines = "".join(f"{line}\n" for line in case["explained"])
        yield case["filter"], lines, calls.of_filter(case["filter"], "explanation")
    elif form in ("depth", "depths"):
        depths = [[case["filter"], case["lambda_depth"]]] if form == "depth" else pairs_of(case["lambda_depths"])
        yield from ((text, plain(wanted), calls.of_filter(text, "depth")) for text, wanted in depths)
    else:
        yield from of_canonicals(calls, form, case)


def of_canonicals(calls, form, case):
    """Canonical texts, and the outcome on a row by both texts."""
    if form == "canonical":
        canonicals = [[text, case["canonical"]] for text in [case["filter"], *case.get("same_as", [])]]
    else:
        canonicals = pairs_of(case["canonicals"])
    for text, wanted in canonicals:
        yield text, plain(wanted), calls.of_filter(text, "canonical")
        if "row" in case:
            row = row_of(case, case["row"])
            yield text, calls.outcome(wanted, row), calls.outcome(text, row)


def of_matrix(calls, form, case):
    """Each cell of a matrix, by the letter of its answer."""
    lists = case["answers" if form == "answers" else "types"]
    row = row_of({}, case["row"]) if form == "answers" else None
    for operator, rows in paired(case["operators"], lists):
        for left, letters in paired(case["left"], rows):
            for right, letter in paired(case["right"], letters):
                text = f"{case.get('before', '')}{left} {operator} {right}{case.get('behind', '')}"
                asked = calls.outcome(text, row) if row else calls.of_filter(text, "nodes", read=second_type)
                yield text, letter, as_letter(asked, f"refused OperandTypes 0..{len(text.encode())}", letter)


def paired(given, wanted):
    if len(given) != len(wanted):
        raise Trouble("a matrix with too few or too many lists or letters")
    return zip(given, wanted)


def second_type(nodes):
    """The type of the second node, which is the first operand of the first one."""
    return "".join(nodes.split(", ")[1:2]).split(" ")[1]


def as_letter(asked, refusal, wanted):
    """The letter of an answer where it is the wanted one, and otherwise the answer."""
    def letter(got):
        found = asked.read(got)
        return wanted if {**LETTERS, refusal: "R"}.get(found) == wanted else found

    return Later(letter)


def at_places(calls, _, case):
    """Each text that has no type between each pair of pieces."""
    for text, reason in pairs_of(case["untypable"]):
        for before, after in pairs_of(case["places"]):
            start, whole = len(before.encode()), before + text + after
            wanted = f"refused {reason} {start}..{start + len(text.encode())}"
            yield whole, wanted, calls.of_filter(whole, "filter")


def of_texts(calls, form, case):
    """What is asked of texts without types: tokens, trees, refusals, canonical texts, identifiers."""
    if form == "token_count":
        tokens = calls.simply("tokens", text_of(case["text"]))
        yield case["text"], plain(case["token_count"]), Later(lambda got: count_of(tokens.read(got)))
        return
    one = {"tokens": "tokens", "tree": "tree", "text_refusal": "refused", "text_canonical": "canonical"}
    many = {"texts": "texts", "trees": "trees", "text_refusals": "refusals", "text_canonicals": "canonicals"}
    pairs = [[case["text"], case[one[form]]]] if form in one else pairs_of(case[many.get(form, form)])
    words = {"tokens": "tokens", "texts": "tokens", "tree": "tree", "trees": "tree", "identifiers": "identifier"}
    words |= {"text_canonical": "text", "text_canonicals": "text"}
    for text, wanted in pairs:
        if form in ("tokens", "texts", "tree", "trees"):
            wanted = listed(wanted)
        elif form in ("text_refusal", "text_refusals"):
            wanted = marked("refused", wanted, "accepted")
        yield text, plain(wanted), calls.simply(words.get(form, "expression"), text_of(text))


def count_of(tokens):
    """How many tokens these are, or the refusal."""
    if tokens.startswith("refused "):
        return tokens
    return str(len(tokens.split(", "))) if tokens else "0"


def text_of(text):
    if not isinstance(text, (str, list)):
        raise Trouble("a list is wanted")
    return bytes_of(text)


def of_queries(calls, form, case):
    one = {"query": "filter", "query_refusal": "refused"}
    for query, wanted in [[case["query"], case[one[form]]]] if form in one else pairs_of(case[form]):
        is_refused = form in ("query_refusal", "query_refusals")
        wanted = marked("refused", wanted, "accepted") if is_refused else marked("filter", wanted, "no filter")
        yield query, wanted, calls.simply("query", bytes_of(query))


def of_literals(calls, form, case):
    if form == "instants":
        yield from ((text, plain(wanted), calls.simply("instant", text)) for text, wanted in pairs_of(case["instants"]))
        return
    for text, wanted in [[case["text"], case["value"]]] if form == "literal" else pairs_of(case["values"]):
        yield text, plain(wanted), calls.simply("literal", bytes_of(text), case["literal"], "")


def of_documents(calls, form, case):
    """Faults of documents, and look-ups of their schemas."""
    if form == "look_ups":
        yield from of_look_ups(calls, case)
    elif form == "schema_beginnings":
        text = stored("schemas", case["schema"])
        for length in range(len(text)):
            held = calls.hold_document(text[:length])
            yield "a beginning", case["beginnings"], Later(lambda got, held=held: got[held])
    else:
        one = form == "document"
        for document, wanted in [[case["document"], case["fault"]]] if one else pairs_of(case["documents"]):
            held = calls.hold_document(document_of(document))
            yield document, wanted, Later(lambda got, held=held: got[held])


def of_look_ups(calls, case):
    if "document" in case:
        calls.hold_document(document_of(case["document"]))
    else:
        calls.hold_schema()
    for kind, rows in case["accepted"].items():
        if kind not in {*KINDS, "slots", "no_slots", "values"}:
            raise Trouble("no such kind of literal or look-up")
        for name, wanted in pairs_of(rows):
            yield from of_look_up(calls, kind, name, wanted)


def of_look_up(calls, kind, name, wanted):
    """What a schema has by a name."""
    if kind in KINDS:
        named = calls.simply("named", name)
        wanted = "none" if wanted is None else plain(wanted)
        yield name, wanted, Later(lambda got: named.read(got).split(" ")[KINDS[kind]])
    elif kind == "slots":
        calls.hold("type", name)
        yield name, ", ".join(wanted), calls.simply("slots")
    elif kind == "no_slots":
        calls.hold("type", name)
        yield from (([name, other], "null", calls.simply("slot", other)) for other in wanted)
    else:
        for text, number in pairs_of(wanted):
            yield [name, text], plain(number), calls.simply("number", name, text)


def of_rows(calls, form, case):
    """Rows and lines of a type: whether they fit, or their fault."""
    if form == "values":
        yield case["row"], "fits " + ", ".join(case["values"]), calls.row(row_of(case, case["row"]))
    elif form in ("row_fits", "row_fault"):
        yield case["row"], plain(case.get("fits", case.get("fault"))), calls.fits(row_of(case, case["row"]))
    elif form in ("line_fits", "line_fault"):
        yield case["line"], plain(case.get("fits", case.get("fault"))), calls.fits(bytes_of(case["line"]))
    elif form == "rows":
        yield from ((row, plain(wanted), calls.fits(row_of({}, row))) for row, wanted in pairs_of(case["rows"]))
    elif form == "changed_rows":
        for with_, wanted in pairs_of(case["changes"]):
            yield with_, plain(wanted), calls.fits(changed(case, with_))
    elif form == "lines":
        yield from ((line, plain(wanted), calls.fits(bytes_of(line))) for line, wanted in pairs_of(case["lines"]))
    elif form == "row_beginnings":
        line = stored("rows", case["row"])
        yield from (("a beginning", case["beginnings"], calls.fits(line[:n])) for n in range(1, len(line)))
    else:
        yield from of_lines(calls, form, case)


def of_lines(calls, form, case):
    """Lines that conform, or not, whatever their fault; and lines by letters."""
    if form == "conforming":
        for line, wanted in pairs_of(case["conforming"]):
            fits = calls.fits(bytes_of(line))
            yield line, plain(wanted), Later(lambda got, fits=fits: conforms(fits.read(got)))
        return
    for named, letters in paired(case["types"], case["letters"]):
        for line, letter in paired(case["lines"], letters):
            row = calls.row(line.encode(), named)
            yield [named, line], letter, Later(lambda got, row=row: letter_of_row(row.read(got)))


def conforms(found):
    return found if found.startswith("ways that differ") else "true" if found == "true" else "false"


def letter_of_row(found):
    return "." if found.startswith("fits ") else LETTERS_OF_ROWS.get(found, found)


FAMILIES = [
    (of_outcomes, ["outcome", "outcomes", "outcomes_on_rows", "outcomes_on_changed", "cost", "costs"]),
    (of_filters, ["refusal", "refusals", "canonical", "canonicals", "nodes", "explanation", "depth", "depths"]),
    (of_matrix, ["answers", "types"]),
    (at_places, ["places"]),
    (of_texts, ["tokens", "texts", "token_count", "tree", "trees", "identifiers"]),
    (of_texts, ["text_refusal", "text_refusals", "text_canonical", "text_canonicals"]),
    (of_queries, ["query", "queries", "query_refusal", "query_refusals"]),
    (of_literals, ["literal", "literals", "instants"]),
    (of_documents, ["document", "documents", "schema_beginnings", "look_ups"]),
    (of_rows, ["row_fits", "row_fault", "rows", "changed_rows", "values", "line_fits", "line_fault", "lines"]),
    (of_rows, ["conforming", "letters", "row_beginnings"]),
]
ASKED = {form: family for family, forms in FAMILIES for form in forms}


def asked_of(calls, case):
    """What is given, what is wanted, and how the answer is read; nothing of a run."""
    form = form_of(case)
    calls.case = case
    return ASKED[form](calls, form, case) if form != "run" else iter(())
