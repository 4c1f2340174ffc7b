"""The suite of cases (tests/suite) and the whole queries of url_cases as questions to a client of the C
library, and what it answers beside what is wanted.

A client is a program that is given a file of questions and writes an answer to each, one after another. Both are
netstrings, `5:hello,`. A question is a word and what follows it in QUESTIONS. A client holds one schema, one type
and one filter at a time, the last that were asked for; where one of them was refused, what needs it is answered by
`nothing`.
"""
import url_cases
from suite_cases import DATA, UNASKED, LeftOut, answers, bytes_of, cases, differs, document_of, stored

__all__ = ["DATA", "QUESTIONS", "Suite"]
# each word of a question with what it is given, and what is answered
QUESTIONS = {
    "schema": "a document: `accepted`, or the fault's name and the names that it carries",
    "type": "a name: `found` or `unknown`",
    "filter": "a text: `accepted`, or `refused OperandTypes 0..9`",
    "query": "a query string: the same, or `refused query Repeated 1`, or `no filter`",
    "url": "a whole query: as of a query; where the filter was found, two further lines (url_cases.answer_wanted)",
    "canonical": "nothing: the filter's canonical text",
    "explain": "nothing: its explanation",
    "row": "a row's bytes and a moment or nothing: `true`, `false`, `null`, or the fault's name and its path",
    "lines": "the bytes of lines and a moment or nothing: `row 3 Json` or nothing, a line feed, the kept lines",
}
OUTCOMES = {"true": True, "false": False, "null": None}
# what a case is of that a library can be asked; and what is asked of some of these for which it has no call
OF_LIBRARY = {"schema", "document", "documents", "query", "queries", "query_refusals"}
NO_CALL = {"nodes", "types", "lambda_depths", "costs", "values"}
OPTIONS = {"--schema", "--type", "--filter", "--query", "--rows", "--now"}


def netstring(text):
    return b"%d:%b," % (len(text), text)


def netstrings(wire):
    """The texts of netstrings that stand one after another."""
    texts, at = [], 0
    while at < len(wire):
        colon = wire.index(b":", at)
        stop = colon + 1 + int(wire[at:colon])
        if wire[stop : stop + 1] != b",":
            raise ValueError(f"no netstring at byte {at}")
        texts.append(wire[colon + 1 : stop])
        at = stop + 1
    return texts


class Later:
    """An answer that is still to come: what is read off the list of all answers."""

    def __init__(self, read):
        self.read = read


class Questions:
    """Takes down what is asked, instead of answering."""

    def __init__(self):
        self.wire, self.count = [], 0
        self.case, self.document = {}, b""
        # the questions that the client answers by what it holds: the last of each word, and its number
        self.held = {}

    def ask(self, word, *given):
        self.wire += map(netstring, [word.encode(), *given])
        self.count += 1
        return self.count - 1

    def hold(self, word, given, *over):
        """Has the client hold a schema, type or filter, over what it stands on, and reports the question's number."""
        wanted = (given, *over)
        if self.held.get(word, (None, 0))[0] != wanted:
            for other in {"schema": ["type", "filter"], "type": ["filter"]}.get(word, []):
                self.held.pop(other, None)
            self.held[word] = (wanted, self.ask(word, given))
        return self.held[word][1]

    def hold_type(self, document, name):
        self.hold("schema", document)
        return self.hold("type", name.encode(), document)

    def hold_filter(self, text, word="filter", named=None):
        name = named or self.case["type"]
        self.hold_type(self.document, name)
        return self.hold("filter", text, name) if word == "filter" else self.hold_query(text)

    def hold_query(self, query):
        self.held.pop("filter", None)
        return self.ask("query", query)

    def of_url(self, case):
        """What is found in a whole query."""
        self.hold_type(url_cases.document_of(case), case["type"])
        self.held.pop("filter", None)
        asked = self.ask("url", case["query"])
        return Later(lambda got: got[asked])

    def now(self):
        return self.case.get("now", "").encode()

    def take(self, case):
        self.case = {"type": "N.A", **case}
        if isinstance(case.get("schema"), str):
            self.document = stored("schemas", case["schema"])

    def outcome(self, text, row):
        held, asked = self.hold_filter(bytes_of(text)), self.ask("row", row, self.now())
        return Later(lambda got: unless_refused(got[held], lambda: OUTCOMES.get(got[asked], got[asked])))

    def refusal(self, text):
        held = self.hold_filter(bytes_of(text))
        return Later(lambda got: None if got[held] == "accepted" else got[held].removeprefix("refused "))

    def by_word(self, held, word):
        asked = self.ask(word)
        return Later(lambda got: unless_refused(got[held], lambda: got[asked]))

    def checked(self, text):
        return self.by_word(self.hold_filter(bytes_of(text)), "canonical")

    def explained(self, text):
        return self.by_word(self.hold_filter(bytes_of(text)), "explain")

    def by_query(self, query):
        return self.by_word(self.hold_filter(bytes_of(query), "query"), "canonical")

    def fits(self, row, named=None):
        self.hold_filter(b"true", named=named)
        asked = self.ask("row", row, b"")
        return Later(lambda got: got[asked] == "true" or got[asked])

    def fault(self, document):
        held = self.hold("schema", document_of(document))
        return Later(lambda got: got[held])

    def is_entity(self, document, name):
        asked = self.hold_type(document_of(document), name)
        return Later(lambda got: got[asked] == "found")

    def of_words(self, case):
        """A run over lines: what is written and what is reported, by a filter's lines in memory."""
        words = options_of(case)
        self.document = file_of(case, words["--schema"])
        self.case = {"type": words["--type"].decode(), "now": words.get("--now", b"").decode()}
        kind = "query" if "--query" in words else "filter"
        held = self.hold_filter(words[f"--{kind}"], kind)
        rows = file_of(case, words["--rows"]) if "--rows" in words else bytes_of(case.get("input", ""))
        asked = self.ask("lines", rows, self.now())
        said = Later(lambda got: run_of(got[held], got[asked]))
        yield "run", tuple(bytes_of(case.get(name, "")) for name in ("output", "errors")), said


def unless_refused(held, read):
    return read() if held == "accepted" else held


def options_of(case):
    """The options of a run of `filter` over lines whose schema, type and words are taken."""
    verb, *words = [bytes_of(word) for word in case["words"]] or [b""]
    options = {}
    while words:
        name, found, value = words.pop(0).partition(b"=")
        options[name.decode(errors="replace")] = value if found or not words else words.pop(0)
    is_run = verb == b"filter" and case["status"] in (0, 1, 4) and options.keys() <= OPTIONS
    if not is_run or bytes_of(case.get("errors", "")).startswith(b"usage"):
        raise LeftOut
    return options


def file_of(case, name):
    text = case["files"][name.decode()]
    return stored("schemas", text["schema"]) if isinstance(text, dict) else bytes_of(text)


def run_of(held, lines):
    """What a run writes to standard output and to standard error."""
    if held != "accepted":
        return b"", f"{held}\n".encode()
    fault, _, kept = lines.partition("\n")
    return kept.encode(), f"{fault}\n".encode() if fault else b""


class Suite:
    """All questions of the suite, and what is wanted of the answers."""

    def __init__(self):
        self.questions, self.wanted = Questions(), []
        self.left_out = []
        for place, case in cases():
            self.take_down(place, case)
        for case in url_cases.cases():
            wanted, got = url_cases.answer_wanted(case), self.questions.of_url(case)
            self.wanted.append((f"url_cases {case['name']}", case["query"], wanted, got))

    def take_down(self, place, case):
        """A case's questions; one of which some cannot be asked is left out with these alone."""
        count = len(self.wanted)
        try:
            for at, wanted, got in answers(self.questions, case):
                if got is not UNASKED:
                    self.wanted.append((f"{place} {case['name']}", at, wanted, got))
        except LeftOut:
            pass
        if len(self.wanted) == count:
            self.left_out.append(case)

    def passed_over(self):
        """The cases that are left out though the library could be asked them."""
        return [case for case in self.left_out if OF_LIBRARY & case.keys() and not NO_CALL & case.keys()]

    def wire(self):
        return b"".join(self.questions.wire)

    def compared(self, wire):
        """Each case with its differences from what a client answered."""
        reported = [text.decode("utf-8", "surrogateescape") for text in netstrings(wire)]
        found = {name: [] for name, _, _, _ in self.wanted}
        if len(reported) != self.questions.count:
            return {"answers": [f"{len(reported)} answers to {self.questions.count} questions"]}
        for name, at, wanted, got in self.wanted:
            wanted, got = (it.read(reported) if isinstance(it, Later) else it for it in (wanted, got))
            if differs(wanted, got):
                found[name].append(f"wanted {wanted!r}, got {got!r}, at {at!r}"[:400])
        return found
