"""Values of types, drawn by a fixed generator, and their spellings in JSON and in filters: for tests/drawn_rows."""
import datetime

from row_judge import NOTHING, RANGES, UNSEEN, Enumeration, Record, kind_seen

CHARACTERS = "abcxyzABCXYZ019  ''\"\\/é名😀\x01\t\n\x1f\x7f\u2028ß,{}[]:"
FIRST_DAY, DAYS, EPOCH = datetime.date(1, 1, 1), 3_652_059, datetime.date(1970, 1, 1)
# so deep values lie within one another; below that what may be null or empty is so
DEEPEST = 2


def date_text(day):
    return f"{day.year:04d}-{day.month:02d}-{day.day:02d}"


def moment_text(instant, offset=0, letters="TZ", is_short=False):
    """A spelling of an instant by a clock that is so many minutes ahead; seconds that are zero may be left out."""
    seconds, fraction = divmod(instant, 10**9)
    days, seconds = divmod(seconds + 60 * offset, 86_400)
    clock = f"{seconds // 3600:02d}:{seconds // 60 % 60:02d}"
    if not is_short or seconds % 60 or fraction:
        clock += f":{seconds % 60:02d}"
    if fraction:
        digits = f"{fraction:09d}"
        clock += f".{digits.rstrip('0') if is_short else digits}"
    sign = "-" if offset < 0 else "+"
    zone = f"{sign}{abs(offset) // 60:02d}:{abs(offset) % 60:02d}" if offset or letters == "T+" else letters[1]
    return f"{date_text(EPOCH + datetime.timedelta(days))}{letters[0]}{clock}{zone}"


def guid_text(value):
    text = value.hex()
    return "-".join((text[:8], text[8:12], text[12:16], text[16:20], text[20:]))


def whole(draw, least, most):
    """A whole number: a limit, a small one, or one with any number of digits."""
    way = draw.below(4)
    if way == 0:
        return draw.one_of([least, most, 0])
    if way == 1:
        return draw.between(max(least, -99), min(most, 99))
    number = draw.between(0, 10 ** (1 + draw.below(19))) * (-1 if draw.chance(50) else 1)
    return min(max(number, least), most)


def text(draw):
    length = draw.below(12) if draw.chance(85) else draw.below(120)
    letters = CHARACTERS if draw.chance(40) else "abcXYZ 01"
    return "".join(draw.one_of(letters) for _ in range(length))


def moment(draw):
    """An instant that a clock of any offset shows as a moment, or one at the edge of what UTC shows."""
    days = draw.one_of([draw.between(1, DAYS - 2), draw.between(719_162, 740_000)])
    seconds = 86_400 * (days + (FIRST_DAY - EPOCH).days) + draw.below(86_400) * draw.below(2)
    return seconds * 10**9 + draw.below(1_000) * 10 ** draw.below(7) * draw.below(2)


def plain(draw, kind):
    """A value of a primitive type or an enumeration."""
    if isinstance(kind, Enumeration):
        if not kind.is_flags:
            return draw.one_of([*kind.members.values(), whole(draw, *RANGES[kind.underlying])])
        return draw.below(32) if draw.chance(70) else whole(draw, *RANGES[kind.underlying])
    if kind in RANGES:
        return whole(draw, *RANGES[kind])
    if kind == "Edm.Date":
        return FIRST_DAY + datetime.timedelta(draw.one_of([0, DAYS - 1, 737_483, draw.below(DAYS), draw.below(DAYS)]))
    if kind == "Edm.Guid":
        return bytes(draw.below(256) for _ in range(16))
    return draw.chance(50) if kind == "Edm.Boolean" else text(draw) if kind == "Edm.String" else moment(draw)


class Values:
    """Draws values; of those that may be null or empty such a share, in percent, is neither. Navigation properties have
    a value where their paths are among those."""

    def __init__(self, draw, share, named=NOTHING):
        self.draw, self.share, self.named = draw, share, named

    def single(self, kind, nullable, names, depth):
        if nullable and (not self.draw.chance(self.share) or isinstance(kind, Record) and depth >= DEEPEST):
            return None
        return self.record(kind, names, depth + 1) if isinstance(kind, Record) else plain(self.draw, kind)

    def value(self, one, names, depth=0):
        """The value of a property to which these names lead."""
        kind, nullable = kind_seen(one, names, self.named), one.nullable and not (one.many and one.target)
        if kind is None:
            return UNSEEN
        if not one.many:
            return self.single(kind, nullable, names, depth)
        if not self.draw.chance(self.share) or isinstance(kind, Record) and depth >= DEEPEST:
            return []
        return [self.single(kind, nullable, names, depth) for _ in range(1 + self.draw.below(1 if depth else 3))]

    def record(self, kind, names=(), depth=0):
        return {one.name: self.value(one, (*names, one.name), depth) for one in kind.slots()}


def expanded(draw, kind, names=()):
    """Some paths from a record to navigation properties, each with all that end before it."""
    found = set()
    for one in kind.slots() if len(names) <= DEEPEST else ():
        path, inner = (*names, one.name), one.target or one.kind
        if isinstance(inner, Record) and draw.chance(60):
            found |= {path} if one.target else set()
            found |= expanded(draw, inner, path)
    return found


def member_names(draw, kind, value):
    """A text for a number of an enumeration: members where they make it, else digits."""
    digits = draw.one_of([str(value), f"{value:+d}", f"-{-value:03d}" if value < 0 else f"{value:03d}"])
    if not kind.is_flags:
        found = [name for name, own in kind.members.items() if own == value]
        return draw.one_of([*found, digits])
    parts = [name for name, own in kind.members.items() if value > 0 and value & own]
    if value > 31 or not parts or draw.chance(20):
        return digits
    gaps = draw.one_of([",", ", ", " ,  "])
    return gaps.join(draw.shuffled(parts + parts[: draw.below(2)]))


def literal(kind, value):
    """A value's literal in a filter."""
    if value is None:
        return "null"
    if isinstance(kind, Enumeration):
        return f"N.{kind.name}'{value}'"
    if kind == "Edm.String":
        return "'" + value.replace("'", "''") + "'"
    if kind == "Edm.Boolean":
        return "true" if value else "false"
    shown = {"Edm.Date": date_text, "Edm.DateTimeOffset": moment_text, "Edm.Guid": guid_text}
    return shown.get(kind, str)(value)
