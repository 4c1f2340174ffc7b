"""Filters that look at the values of rows, each with its own meaning in Python: for tests/drawn_rows."""
import collections
import re

from row_judge import NOTHING, RANGES, UNSEEN, Enumeration, Record
from row_values import literal, plain

# A filter's text, its outcome for the values in scope, the row, then a member for each lambda operator around it, and
# the property paths that it names.
Condition = collections.namedtuple("Condition", "text outcome named")
# names that a path of a filter does not begin with
LITERALS = ("true", "false", "null", "not")
BYTES, TOKENS = 12_000, 3_500
# of a longer text its length and its ends are asked
LONG, END = 300, 40
ORDERED = ("Edm.Boolean", "Edm.String", "Edm.Date", "Edm.DateTimeOffset", *RANGES)


def conjunction(outcomes):
    """`and` of three values, from the left."""
    joined = True
    for outcome in outcomes:
        if outcome is False:
            return False
        joined = None if outcome is None else joined
    return joined


def disjunction(outcomes):
    joined = False
    for outcome in outcomes:
        if outcome is True:
            return True
        joined = None if outcome is None else joined
    return joined


def opposite(outcome):
    return None if outcome is None else not outcome


def compared(operator, left, right):
    """The outcome of a comparison."""
    if operator in ("eq", "ne"):
        return (left == right) == (operator == "eq")
    if left is None or right is None:
        return operator in ("ge", "le") and left is right
    if operator in ("gt", "le"):
        return (left > right) == (operator == "gt")
    return (left < right) == (operator == "lt")


class Path:
    """A path to a value, from the row or from a variable, the property path to whose collection is reported too."""

    def __init__(self, level=0, steps=(), before=()):
        self.level, self.steps, self.before = level, steps, before
        text = "/".join(steps)
        if level:
            text = f"v{level}" + (f"/{text}" if text else "")
        elif steps and (steps[0].lower() in LITERALS or re.fullmatch(r"v\d", steps[0])):
            text = f"$it/{text}"
        self.text = text

    def step(self, name):
        return Path(self.level, (*self.steps, name), self.before)

    def names(self):
        return (*self.before, *self.steps)

    def named(self):
        """The property paths that it names: each of its steps is one."""
        return frozenset((*self.before, *self.steps[: count + 1]) for count in range(len(self.steps)))

    def value(self, scope):
        value = scope[self.level]
        for name in self.steps:
            value = None if value is None else value[name]
        return value


def comparison(path, operator, kind, value):
    return Condition(
        f"{path.text} {operator} {literal(kind, value)}",
        lambda scope: compared(operator, path.value(scope), value),
        path.named(),
    )


def all_named(conditions):
    return NOTHING.union(*(one.named for one in conditions))


def joined(conditions):
    return Condition(
        " and ".join(one.text for one in conditions),
        lambda scope: conjunction(one.outcome(scope) for one in conditions),
        all_named(conditions),
    )


def either(conditions):
    return Condition(
        " or ".join(one.text for one in conditions),
        lambda scope: disjunction(one.outcome(scope) for one in conditions),
        all_named(conditions),
    )


def grouped(condition):
    return condition._replace(text=f"({condition.text})")


def negated(condition):
    return Condition(f"not ({condition.text})", lambda scope: opposite(condition.outcome(scope)), condition.named)


def some_member(path, level, body):
    """`any` over a collection, its variable at that level."""
    def outcome(scope):
        members = path.value(scope)
        if members is None:
            return None
        return any(body.outcome([*scope[:level], member]) is True for member in members)

    return Condition(f"{path.text}/any(v{level}:{body.text})", outcome, path.named() | body.named)


def counted(path, count):
    def outcome(scope):
        members = path.value(scope)
        return (None if members is None else len(members)) == count

    return Condition(f"{path.text}/$count eq {count}", outcome, path.named())


def is_long(path, text):
    """What holds of a text of that length, with those ends."""
    start, stop = text[:END], text[-END:]

    def outcome(scope):
        value = path.value(scope)
        return value is not None and len(value) == len(text) and value.startswith(start) and value.endswith(stop)

    first, last = literal("Edm.String", start), literal("Edm.String", stop)
    ends = f"startswith({path.text},{first}) and endswith({path.text},{last})"
    return Condition(f"length({path.text}) eq {len(text)} and {ends}", outcome, path.named())


def is_single(path, kind, value, level):
    """What holds where a single value is this one."""
    if kind == "Edm.String" and value is not None and len(value) > LONG:
        return [is_long(path, value)]
    if value is None or not isinstance(kind, Record):
        return [comparison(path, "eq", kind, value)]
    inner = [one for part in kind.slots() for one in is_value(path.step(part.name), part, value[part.name], level)]
    return inner or [comparison(path, "ne", kind, None)]


def is_value(path, one, value, level=1):
    """Conditions that hold together where a property has this value, whatever the order of a collection's members."""
    kind = one.target or one.kind
    if value is UNSEEN:
        return []
    if not one.many:
        return is_single(path, kind, value, level)
    bodies = {}
    for item in value:
        body = joined(is_single(Path(level, (), path.names()), kind, item, level + 1))
        bodies[body.text] = body
    return [counted(path, len(value)), *(some_member(path, level, body) for body in bodies.values())]


def cost(text):
    """No fewer tokens than a text has."""
    return len(re.findall(r"\w+|[^\w\s]", text))


def packed(conditions, join):
    """Filters that have all the conditions, as many as there may be in each."""
    filters, waiting, size, tokens = [], [], 0, 0
    for one in conditions:
        more, longer = cost(one.text) + 1, len(one.text.encode()) + 5
        if more > TOKENS or longer > BYTES:
            continue
        if waiting and (size + longer > BYTES or tokens + more > TOKENS):
            filters.append(join(waiting))
            waiting, size, tokens = [], 0, 0
        waiting, size, tokens = [*waiting, one], size + longer, tokens + more
    return [*filters, *([join(waiting)] if waiting else [])]


def equal_to(kind, record):
    """Filters that together keep the rows whose properties have these values."""
    conditions = [one for part in kind.slots() for one in is_value(Path().step(part.name), part, record[part.name])]
    return packed(conditions, joined)


def any_equal_to(kind, record, others):
    """Filters of which one keeps a row where a property has its value of this record, if none of the others has it."""
    parts = [part for part in kind.slots() if all(record[part.name] != other[part.name] for other in others)]
    conditions = [is_value(Path().step(part.name), part, record[part.name]) for part in parts]
    return packed([grouped(joined(some)) for some in conditions if some], either)


def drawn_comparison(draw, paths, records):
    """A comparison of a property with a value that some row has, or with any."""
    path, kind = draw.one_of(paths)
    value = path.value([draw.one_of(records)]) if draw.chance(70) else plain(draw, kind)
    operators = ["eq", "ne", "lt", "le", "gt", "ge"] if kind in ORDERED and value is not None else ["eq", "ne"]
    return comparison(path, draw.one_of(operators), kind, value)


def drawn(draw, kind, records):
    """A filter of a few comparisons; none where no property is looked at."""
    single = [one for one in kind.slots() if records[0][one.name] is not UNSEEN and not one.many]
    kinds = {one.name: one.target or one.kind for one in single}
    paths = [(Path().step(name), inner) for name, inner in kinds.items() if not isinstance(inner, Record)]
    for one in single if draw.chance(50) else ():
        for part in kinds[one.name].slots() if isinstance(kinds[one.name], Record) else ():
            if isinstance(part.kind, (str, Enumeration)) and not part.many:
                paths.append((Path().step(one.name).step(part.name), part.kind))
    if not paths:
        return []
    found = [drawn_comparison(draw, paths, records)]
    for _ in range(draw.below(8)):
        found.append(negated(found.pop()) if draw.chance(20) else drawn_comparison(draw, paths, records))
        if draw.chance(60) and len(found) > 1:
            found.append(grouped(draw.one_of([joined, either])([found.pop(), found.pop()])))
    return [draw.one_of([joined, either])(found)]
