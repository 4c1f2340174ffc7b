"""Answers the questions of tests/library_cases.py by the module odfilter: `suite.py FILE`. In Python.

With a second word `leak` it also makes a judge that nobody frees: what looks for leaks has to report that.
"""
import ctypes
import os
import sys

import odfilter
from library_cases import QUESTIONS, netstring, netstrings

# how many texts stand after each word
GIVEN = {word: 2 if word in ("row", "lines") else 0 if word in ("canonical", "explain") else 1 for word in QUESTIONS}
VERDICTS = {True: "true", False: "false", None: "null"}
# what is held, each made of the one before; and what answers a question, where that is not the filter
HELD = ("schema", "type", "filter")
ASKED = {"schema": None, "type": "schema", "filter": "type", "query": "type", "url": "type"}


class Client:
    """What is held from question to question; None is held where nothing could be made."""

    def __init__(self):
        self.held, self.judges = dict.fromkeys(HELD), {}

    def hold(self, name, make):
        """Closes what is held by a name and what was made of it, and makes another."""
        for each in HELD[HELD.index(name) :]:
            if self.held[each]:
                self.held[each].close()
            self.held[each] = None
        self.judges.clear()
        self.held[name] = make()

    def answer(self, word, given):
        asked = ASKED.get(word, "filter")
        return getattr(self, word)(*given) if asked is None or self.held[asked] else "nothing"

    def schema(self, document):
        try:
            self.hold("schema", lambda: odfilter.Schema(document))
        except odfilter.SchemaFault as fault:
            return fault.program_line.removeprefix("schema ")
        return "accepted"

    def type(self, name):
        try:
            self.hold("type", lambda: self.held["schema"].type(name.decode()))
        except odfilter.UnknownType:
            return "unknown"
        return "found"

    def checked(self, make):
        try:
            self.hold("filter", make)
        except (odfilter.Refused, odfilter.QueryRefused) as refused:
            return refused.program_line
        except odfilter.NoFilter:
            return "no filter"
        return "accepted"

    def filter(self, text):
        return self.checked(lambda: self.held["type"].check(text.decode()))

    def query(self, query):
        return self.checked(lambda: self.held["type"].check_query(query))

    def url(self, query):
        found = None

        def check():
            nonlocal found
            try:
                found = self.held["type"].check_url(query)
            except odfilter.Refused as refused:
                found = refused
                raise
            return found

        outcome = self.checked(check)
        if found is None:
            return outcome
        places = [found.piece.start, found.piece.stop, found.value.start, found.value.stop]
        return "\n".join([outcome, " ".join(map(str, places)), found.text])

    def canonical(self):
        return self.held["filter"].canonical

    def explain(self):
        return self.held["filter"].explanation

    def judge(self, moment):
        if moment not in self.judges:
            self.judges[moment] = self.held["filter"].judge(moment.decode() or None)
        return self.judges[moment]

    def row(self, row, moment):
        try:
            return VERDICTS[self.judge(moment).verdict(row)]
        except odfilter.RowFault as fault:
            return fault.reported

    def lines(self, rows, moment):
        try:
            return "\n" + self.judge(moment).filter_lines(rows).text.decode()
        except odfilter.RowFault as fault:
            return f"{fault.program_line}\n{fault.kept.decode()}"


def main(path, *more):
    with open(path, "rb") as file:
        texts, client = iter(netstrings(file.read())), Client()
    for word in texts:
        word = word.decode()
        answer = client.answer(word, [next(texts) for _ in range(GIVEN[word])])
        sys.stdout.buffer.write(netstring(answer.encode()))
    if more == ("leak",):
        ctypes.CDLL(os.environ["ODFILTER_LIBRARY"]).odfilter_new_judge(ctypes.byref(ctypes.c_void_p()))


if __name__ == "__main__":
    main(*sys.argv[1:])
