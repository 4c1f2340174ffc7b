"""What becomes of a row, by the rules alone: an independent judge of lines and of collections, for tests/drawn_rows. It
shares no code with the program, reads JSON by Python's reader, and knows a type by its properties.

A record is a dict by the names of the properties, a collection a list, null is None, UNSEEN what is not looked at. A
whole number is an int, a date a `datetime.date`, a moment the nanoseconds since 1970, a Guid its bytes, a value of an
enumeration its number. What a filter names is a set of property paths, tuples of names: a navigation property is looked
at exactly where the path to it is in that set.
"""
import collections
import datetime
import json
import re

LINE_LIMIT, DEPTH = 1_048_576, 127
RANGES = {"Edm.Byte": (0, 2**8 - 1), "Edm.SByte": (-(2**7), 2**7 - 1), "Edm.Int16": (-(2**15), 2**15 - 1)}
RANGES |= {"Edm.Int32": (-(2**31), 2**31 - 1), "Edm.Int64": (-(2**63), 2**63 - 1)}

# A property; its kind is the name of a primitive type, an Enumeration, a Record, or None where it is not looked at, or
# where it is a navigation property, whose target is a Record, or None where it leads to no entity type. The judge does
# not go by what a document declares of it.
Property = collections.namedtuple("Property", "name kind many nullable declared target", defaults=(None,))
# where the judge is in a row: the path to report, the names of properties that lead there, and what a filter names
Place = collections.namedtuple("Place", "path names named")
# the value of a property that is not looked at
UNSEEN = object()
NOTHING = frozenset()
# a number of JSON as it is spelled
Number = collections.namedtuple("Number", "text")

TEXT = re.compile(r'"(?:[^"\\]|\\.)*"')
HALF_OF_A_PAIR = re.compile(r"\\u[dD][89a-fA-F]")
DATE = re.compile(r"(\d{4})-(\d{2})-(\d{2})", re.ASCII)
MOMENT = re.compile(
    r"(\d{4}-\d{2}-\d{2})[Tt](\d{2}):(\d{2})(?::(\d{2})(?:\.(\d+))?)?(?:[Zz]|([+-])(\d{2}):(\d{2}))", re.ASCII
)
GUID = re.compile(r"[\da-fA-F]{8}(?:-[\da-fA-F]{4}){3}-[\da-fA-F]{12}", re.ASCII)
WHOLE, NUMERAL = re.compile(r"-?\d+", re.ASCII), re.compile(r"[+-]?\d+", re.ASCII)


class Enumeration:
    """An enumeration; its members are numbers by name."""

    def __init__(self, name, underlying, is_flags, members):
        self.name, self.underlying, self.is_flags, self.members = name, underlying, is_flags, members


class Record:
    """An entity type or a complex type."""

    def __init__(self, name, base, own):
        self.name, self.base, self.own = name, base, own

    def slots(self):
        """The properties in slot order: those of the base first, then the own ones in the byte order of names."""
        own = sorted(self.own, key=lambda one: one.name.encode())
        return [*(self.base.slots() if self.base else []), *own]


class NoJson(Exception):
    """The text is none of JSON."""


class Fault(Exception):
    """Why a tree fits no value, and the path to it."""

    def __init__(self, reason, path):
        super().__init__(reason, path)
        self.reported = f"{reason} {path}"


def number(text):
    if abs(float(text)) == float("inf"):
        raise ValueError(text)
    return Number(text)


def refuse(constant):
    raise ValueError(constant)


def depth_of(text):
    """How deep arrays and objects nest in a text of JSON."""
    depth = deepest = 0
    for mark in re.findall(r"[][{}]", TEXT.sub("", text)):
        depth += 1 if mark in "[{" else -1
        deepest = max(deepest, depth)
    return deepest


def tree_of(text):
    """The tree of a text; of two members of one name the last counts."""
    try:
        decoded = text.decode()
        tree = json.loads(decoded, parse_int=number, parse_float=number, parse_constant=refuse)
        for token in TEXT.findall(decoded) if HALF_OF_A_PAIR.search(decoded) else ():
            json.loads(token).encode()
    except (ValueError, RecursionError):
        raise NoJson from None
    if depth_of(decoded) > DEPTH:
        raise NoJson
    return tree


def whole_of(tree, bounds, path):
    if not isinstance(tree, Number) or not WHOLE.fullmatch(tree.text) or tree.text == "-0":
        raise Fault("WrongKind", path)
    # so long a number is none of 64 bits, and Python reads no longer ones
    value = int(tree.text[:25])
    if not -(2**63) <= value < 2**64:
        raise Fault("WrongKind", path)
    if not bounds[0] <= value <= bounds[1]:
        raise Fault("OutOfRange", path)
    return value


def date_of(text):
    spelled = DATE.fullmatch(text)
    return datetime.date(*map(int, spelled.groups()))


def moment_of(text):
    day, hour, minute, second, fraction, sign, hours, minutes = MOMENT.fullmatch(text).groups(default="0")
    if int(hour) > 23 or int(minute) > 59 or int(second) > 59 or len(fraction) > 9:
        raise ValueError(text)
    if int(hours) > 23 or int(minutes) > 59:
        raise ValueError(text)
    days = (date_of(day) - datetime.date(1970, 1, 1)).days
    offset = (60 * int(hours) + int(minutes)) * (-1 if sign == "-" else 1)
    seconds = 86_400 * days + 3_600 * int(hour) + 60 * (int(minute) - offset) + int(second)
    return seconds * 10**9 + int(fraction.ljust(9, "0"))


def guid_of(text):
    return bytes.fromhex(GUID.fullmatch(text)[0].replace("-", ""))


def number_of_member(kind, piece):
    if piece in kind.members:
        return kind.members[piece]
    least, most = RANGES[kind.underlying]
    value = int(NUMERAL.fullmatch(piece)[0])
    if not least <= value <= most:
        raise ValueError(piece)
    return value


def number_of_members(kind, text):
    pieces = [piece.strip(" ") for piece in text.split(",")]
    if len(pieces) > 1 and not kind.is_flags:
        raise ValueError(text)
    joined = 0
    for piece in pieces:
        joined |= number_of_member(kind, piece)
    return joined


READERS = {"Edm.String": str, "Edm.Date": date_of, "Edm.DateTimeOffset": moment_of, "Edm.Guid": guid_of}


def plain_value(kind, tree, place):
    """The value of a type that may be no null."""
    path = place.path
    if isinstance(kind, Record):
        if not isinstance(tree, dict):
            raise Fault("WrongKind", path)
        return record_of(kind, tree, place)
    if kind in RANGES:
        return whole_of(tree, RANGES[kind], path)
    if kind == "Edm.Boolean":
        if not isinstance(tree, bool):
            raise Fault("WrongKind", path)
        return tree
    if not isinstance(tree, str):
        raise Fault("WrongKind", path)
    try:
        return number_of_members(kind, tree) if isinstance(kind, Enumeration) else READERS[kind](tree)
    except (ValueError, TypeError, AttributeError):
        raise Fault("BadText", path) from None


def single_value(kind, nullable, tree, place):
    if tree is not None:
        return plain_value(kind, tree, place)
    if not nullable:
        raise Fault("NullNotAllowed", place.path)
    return None


def kind_seen(one, names, named):
    """The kind that a property is judged by, where those names lead to it; None where it is not looked at."""
    return one.target if one.target and names in named else one.kind


def value_of(one, members, place):
    """The value of a property by an object's members."""
    path, kind = place.path, kind_seen(one, place.names, place.named)
    if kind is None:
        return UNSEEN
    if one.name not in members:
        if one.target:
            raise Fault("NotExpanded", path)
        if one.many or not one.nullable:
            raise Fault("Missing", path)
        return None
    tree = members[one.name]
    if not one.many:
        return single_value(kind, one.nullable, tree, place)
    if tree is None:
        raise Fault("NullNotAllowed", path)
    if not isinstance(tree, list):
        raise Fault("WrongKind", path)
    # after a navigation property no item is null, whatever is declared
    nullable = one.nullable and not one.target
    places = (place._replace(path=f"{path}/{number}") for number in range(len(tree)))
    return [single_value(kind, nullable, item, at) for item, at in zip(tree, places)]


def record_of(kind, members, place):
    start, names, named = f"{place.path}/" if place.path else "", place.names, place.named
    return {
        one.name: value_of(one, members, Place(start + one.name, (*names, one.name), named)) for one in kind.slots()
    }


def entity_of(kind, tree, named=NOTHING):
    """The record of a tree by a filter that names these paths, and the fault where it fits none: one of both
    is None."""
    if not isinstance(tree, dict):
        return None, "NotObject"
    try:
        return record_of(kind, tree, Place("", (), named)), None
    except Fault as fault:
        return None, fault.reported


def of_line(kind, line, named=NOTHING):
    """The same of a line, and both None where it is passed over."""
    if len(line) > LINE_LIMIT:
        return None, "LineTooLong"
    if not line.strip(b" \t\r"):
        return None, None
    try:
        return entity_of(kind, tree_of(line), named)
    except NoJson:
        return None, "Json"


def of_collection(kind, text, named=NOTHING):
    """The records of a collection's entities up to the first at fault, and that fault, if there is one."""
    try:
        tree = tree_of(text)
    except NoJson:
        return [], "row NotACollection"
    if not isinstance(tree, dict) or not isinstance(tree.get("value"), list):
        return [], "row NotACollection"
    records = []
    for place, item in enumerate(tree["value"], 1):
        record, fault = entity_of(kind, item, named)
        if fault:
            return records, f"row {place} {fault}"
        records.append(record)
    return records, None
