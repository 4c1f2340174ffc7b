"""Calls whose clauses speak of one answer alone, and calls without a clause. The docs of each say so in a sentence."""
import re

# how a clause speaks of the one answer, by the type of what is returned
ONE_ANSWER = {
    "bool": r"IsTrue result →",
    "Option": r"\b(IfSome|OnSome) result\b",
    "Result": r"\b(IfOk|OnOk) result\b",
}
# the sentences of the docs
ONE_SIDED, WITHOUT = re.compile(r"\bsays? nothing of\b"), re.compile(r"\bhas no clause\b")


def answer_of(function):
    """The type of what a call returns, without its parameters; nothing, if it returns nothing."""
    found = re.search(r"-> (.*?)(?: where .*)?$", " ".join(line.strip() for line in function.signature))
    return found[1] if found else None


def ensured(function):
    return [" ".join(line.strip() for line in it.lines) for it in function.clauses if it.kind == "ensures"]


def is_without_clause(function):
    """Whether nothing is said of a call. What an `impl` says of a trait's function counts as said."""
    return not (ensured(function) or function.trait or function.is_law())


def is_one_sided(function):
    """Whether clauses speak of an answer only where it is true, `Some`, or `Ok` beside more than out of memory."""
    answer = answer_of(function) or ""
    one = ONE_ANSWER.get(answer.partition("<")[0])
    if one is None or answer.endswith("AllocError>"):
        return False
    said = [it for it in ensured(function) if re.search(r"\bresult\b", it)]
    others = [re.sub(one, "", it) for it in said if "↔" not in it]
    return bool(said) and len(others) == len(said) and not any(re.search(r"\bresult\b", it) for it in others)


def sentence_of(function, pattern):
    """The sentence of a call's docs that says so."""
    text = " ".join(function.doc)
    return next((it.strip() for it in re.split(r"(?<=\.)\s+(?=[A-Z`])", text) if pattern.search(it)), None)
