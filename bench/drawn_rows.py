"""Rows that differ from one another, as those of a service do: of two kinds, drawn by a seed. Of texts some have letters
beyond ASCII and some escapes; what may be null sometimes is; lists have from none to four members.

A row is kept (`KEPT`) by the filters of `bench/rows` where its Active is true, its ID 1 and its Name "a"; other rows
differ from that in the first, the second or the third of these.
"""
import json
import random

PIECES = "al be cor dan el fin gor hul is jun kel lim mor nep or pin quil ros sel tor ul ven wim yar zon".split()
BEYOND = ("ä", "ö", "č", "Ω", "日本", "🌲")
MARKS = ('"', "\\", "\t", "\n")
TAGS = ("new", "used", "rare", "large", "small", "wooden", "steel", "garden", "kitchen", "on order")
CITIES = ("Oslo", "Malmö", "Århus", "Graz", "Plzeň", "Riga", "Turku", "Leeds", "Genova", "Győr")
COLORS = ("Red", "Green", "Blue", "Red,Blue", "Green, Blue", "Red,Green,Blue", "2")
CLOCKS = ("Z", "+00:00", "+02:00", "-03:30")


def word(draw, most):
    return "".join(draw.choices(PIECES, k=draw.randint(1, most)))


def name(draw):
    """A text that is not "a": one in ten with letters beyond ASCII, one in twenty with an escape."""
    words = [word(draw, 4) for _ in range(draw.randint(1, 4))]
    kind = draw.random()
    if kind < 0.1:
        words.append(draw.choice(BEYOND))
    elif kind < 0.15:
        words.append(draw.choice(MARKS) + word(draw, 2))
    return " ".join(words)


def head(draw, is_kept, may_be_null):
    """ID, Name and Active: of rows that are left out 35 in a hundred are not active, 45 have another ID."""
    if is_kept:
        return 1, "a", True
    other = draw.randint(2, 999_999)
    why = draw.random()
    if why < 0.35:
        return draw.choice((1, other)), name(draw), None if may_be_null and why < 0.1 else False
    return other if why < 0.8 else 1, name(draw), True


def day(draw):
    return f"{draw.randint(1990, 2026)}-{draw.randint(1, 12):02}-{draw.randint(1, 28):02}"


def moment(draw):
    clock = f"{draw.randint(0, 23):02}:{draw.randint(0, 59):02}:{draw.randint(0, 59):02}"
    return f"{day(draw)}T{clock}{draw.choice(('', '', '.25', '.000125'))}{draw.choice(CLOCKS)}"


def price(draw):
    """A number as it is printed back: a whole one has no point."""
    quarters = draw.randrange(8_000)
    return quarters // 4 if quarters % 4 == 0 else quarters / 4


def guid(draw):
    digits = f"{draw.getrandbits(128):032x}"
    return "-".join((digits[:8], digits[8:12], digits[12:16], digits[16:20], digits[20:]))


def some(draw, most, member):
    return [member(draw) for _ in range(draw.randint(0, most))]


def part(draw):
    return {"Name": word(draw, 4), "Qty": draw.randint(0, 999), "Sub": some(draw, 3, leaf)}


def leaf(draw):
    return {"Name": word(draw, 4), "Qty": draw.randint(0, 999), "Sub": []}


def address(draw):
    return {"City": draw.choice(CITIES), "Lines": some(draw, 3, lambda d: {"Qty": d.randint(0, 99)})}


def or_null(draw, value):
    return None if draw.random() < 0.2 else value


def item(draw, is_kept):
    number, text, active = head(draw, is_kept, False)
    return {"ID": number, "Name": text, "Active": active}


def product(draw, is_kept):
    number, text, active = head(draw, is_kept, True)
    return {
        "ID": number,
        "Name": text,
        "Rating": or_null(draw, draw.randint(0, 5)),
        "Stock": draw.randrange(10 ** draw.randint(1, 15)),
        "Active": active,
        "Released": or_null(draw, day(draw)),
        "Changed": moment(draw),
        "Color": draw.choice(COLORS),
        "Code": guid(draw),
        "Tags": some(draw, 4, lambda d: d.choice(TAGS)),
        "Price": price(draw),
        "Home": or_null(draw, address(draw)),
        "Parts": some(draw, 4, part),
    }


ROWS = {"Mini.Item": item, "Shop.Product": product}


def rows(kind, count, seed=1):
    """So many rows of a kind, one in ten of them kept; the same for the same words."""
    draw = random.Random(f"{kind} {seed}")
    for number in range(count):
        yield ROWS[kind](draw, number % 10 == 0)


def compact(row):
    """The row's text without white space; letters beyond ASCII stand as they are."""
    return json.dumps(row, separators=(",", ":"), ensure_ascii=False)
