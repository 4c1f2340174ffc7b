"""The rows of the suite (tests/suite) that fit, by schema and type, with the case that asks about each."""
import os
import sys

sys.path.insert(0, f"{os.path.dirname(os.path.dirname(os.path.realpath(__file__)))}/tests")
import suite_cases


class Asked:
    """Notes the row that is asked about, and answers nothing."""

    def __init__(self):
        self.case, self.noted = {}, None

    def take(self, case):
        self.case = case

    def note(self, row, named):
        self.noted = self.case["schema"], named or self.case["type"], row
        return suite_cases.UNASKED

    def outcome(self, text, row):
        return self.note(row, None)

    def fits(self, row, named=None):
        return self.note(row, named)

    def of_words(self, case):
        return ()

    def __getattr__(self, question):
        return lambda *given: suite_cases.UNASKED


def noted():
    """Each row with what is wanted of it, its schema and its case's name."""
    asked = Asked()
    for _, case in suite_cases.cases():
        try:
            for _, wanted, _ in suite_cases.answers(asked, case):
                if asked.noted is not None:
                    yield wanted, *asked.noted, case["name"]
                asked.noted = None
        except suite_cases.LeftOut:
            pass


def good_rows():
    """Of each schema's text and type the lines that fit, each with the first case that asks about it."""
    found = {}
    for wanted, schema, named, row, name in noted():
        if (wanted is None or isinstance(wanted, bool)) and b"\n" not in row:
            text = suite_cases.stored("schemas", schema).decode()
            found.setdefault((text, named), {}).setdefault(row.decode() + "\n", name)
    return found
