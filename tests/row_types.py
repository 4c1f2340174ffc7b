"""Types, drawn by a fixed generator, and the document that declares them: for tests/drawn_rows."""
import json
import random

from row_judge import RANGES, Enumeration, Property, Record

PRIMITIVES = ["Edm.Boolean", *RANGES, "Edm.String", "Edm.Date", "Edm.DateTimeOffset", "Edm.Guid"]
LEFT_OUT = ["Edm.Decimal", "Edm.Double", "Edm.Duration", "Edm.Stream", "N.Nowhere"]
LETTERS = "abcdefghijklmnopqrstuvwxyzABCDEFGHIJKLMNOPQRSTUVWXYZ"
# words that the grammar of filters knows, which are names of properties too
WORDS = ["true", "null", "not", "eq", "and", "in", "any", "all", "Null", "truex"]
LENGTHS = [1, 2, 3, 3, 4, 4, 5, 5, 6, 7, 8, 9, 12, 15, 16, 17, 24, 31, 33]


class Draw:
    """What is drawn by a seed: the same on each machine, as `random()` of Python's generator is."""

    def __init__(self, seed):
        self.random = random.Random(seed).random

    def below(self, count):
        return int(self.random() * count)

    def between(self, least, most):
        """A whole number, of any length."""
        number = (self.below(1 << 31) << 62) | (self.below(1 << 31) << 31) | self.below(1 << 31)
        return least + number % (most - least + 1)

    def chance(self, percent):
        return self.below(100) < percent

    def one_of(self, items):
        return items[self.below(len(items))]

    def shuffled(self, items):
        items = list(items)
        for last in range(len(items) - 1, 0, -1):
            at = self.below(last + 1)
            items[last], items[at] = items[at], items[last]
        return items


def new_name(draw):
    if draw.chance(4):
        return draw.one_of(WORDS)
    letters = LETTERS + ("éß名_𝒳" if draw.chance(15) else "_")
    return draw.one_of(letters) + "".join(draw.one_of(letters + "0123") for _ in range(draw.one_of(LENGTHS) - 1))


def like(draw, name):
    """A name that is nearly another: longer, shorter, in another case, or with one other letter."""
    way, at = draw.below(6), draw.below(len(name))
    if way == 0 or way == 1 and len(name) == 1:
        return name + draw.one_of(LETTERS + "_01")
    if way == 1:
        return name[:-1]
    if way == 2:
        return name[:at] + name[at].swapcase() + name[at + 1 :]
    if way == 3:
        return name.swapcase()
    at = (0, len(name) - 1, at)[draw.below(3)]
    return name[:at] + draw.one_of(LETTERS) + name[at + 1 :]


def names(draw, count, taken=()):
    """So many names, none of them taken; most are nearly another one."""
    found = []
    while len(found) < count:
        name = like(draw, draw.one_of(found)) if found and draw.chance(70) else new_name(draw)
        if name.isidentifier() and name not in found and name not in taken:
            found.append(name)
    return found


class Types:
    """The types of a document: `root`, which rows are of, and those that its properties are of."""

    def __init__(self, draw, count, kinds=(), links=5):
        """Draws a type of so many properties, or of one of each of these kinds; such a share of properties, in percent,
        navigates."""
        self.draw, self.records, self.links = draw, [], links
        # of a long row fewer values have parts
        self.parts = 13 if count < 64 else 3
        self.enumerations = [self.enumeration("Flags", True), self.enumeration("Color", False)]
        # what navigation properties lead to; a few values have some
        self.linked = [self.record("Link", None, []), self.record("Links", None, [])]
        self.complex = [self.nested("Deep", False), self.nested("Deeps", True)]
        for n in range(4):
            self.complex.append(self.part(f"Part{n}", draw.one_of([1, 3, 5, 8])))
        for one in self.linked:
            own = names(draw, draw.one_of([2, 3, 5]))
            one.own += [self.of_kind(own[0], "navigation"), *map(self.property, own[1:])]
        own = [self.of_kind(name, kind) for name, kind in zip("ABCD", kinds)]
        self.root = self.record("Row", None, own) if kinds else self.chain(count)

    def enumeration(self, name, is_flags):
        underlying = self.draw.one_of([*RANGES])
        values = [1 << n if is_flags else self.draw.between(*RANGES[underlying]) for n in range(5)]
        return Enumeration(name, underlying, is_flags, dict(zip(names(self.draw, 5), values)))

    def record(self, name, base, own):
        self.records.append(Record(name, base, own))
        return self.records[-1]

    def nested(self, name, many):
        """A complex type within itself."""
        record = self.record(name, None, [])
        record.own.append(Property("D", record, many, not many, {"$Type": f"N.{name}"}))
        return record

    def part(self, name, count):
        """A complex type, perhaps over another one, perhaps with a collection of its own values."""
        base = self.draw.one_of(self.complex[2:]) if self.complex[2:] and self.draw.chance(30) else None
        own = names(self.draw, count, [one.name for one in base.slots()] if base else [])
        record = self.record(name, base, [self.property(one) for one in own])
        if self.draw.chance(30) and all(one.name != "Sub" for one in record.slots()):
            record.own.append(Property("Sub", record, True, False, {"$Type": f"N.{name}"}))
        return record

    def chain(self, count):
        """A type of so many slots, some of them those of its bases. The last one may be null: so it is seen where it is
        not filled."""
        places = sorted(self.draw.below(count) for _ in range(self.draw.below(4)))
        base, own = None, names(self.draw, count)
        for n, (start, stop) in enumerate(zip([0, *places], [*places, count])):
            name = "Row" if n == len(places) else f"Base{n}"
            base = self.record(name, base, [self.property(one) for one in own[start:stop]])
        last = base.own.index(base.slots()[-1])
        plain = self.of_kind(base.own[last].name, self.draw.one_of(PRIMITIVES))
        base.own[last] = plain._replace(many=False, nullable=True)
        return base

    def property(self, name):
        draw, part = self.draw, self.draw.below(100)
        if draw.chance(self.links):
            return self.of_kind(name, "navigation")
        if part < 7:
            return self.of_kind(name, "left out")
        if part < 15 + self.parts:
            return self.of_kind(name, draw.one_of(self.enumerations if part < 15 else self.complex))
        return self.of_kind(name, draw.one_of(PRIMITIVES))

    def of_kind(self, name, kind):
        many, nullable = self.draw.chance(20), self.draw.chance(50)
        if kind == "left out":
            return Property(name, None, many, nullable, {"$Type": self.draw.one_of(LEFT_OUT)})
        if kind == "navigation":
            # some lead to no entity type: to a complex type, or nowhere
            target = self.draw.one_of([*self.linked, *self.linked, None])
            named = self.draw.one_of(["N.", "M."]) + (target.name if target else self.draw.one_of(["Deep", "Nowhere"]))
            return Property(name, None, many, nullable, {"$Kind": "NavigationProperty", "$Type": named}, target)
        if kind in PRIMITIVES:
            defined = f"N.Of{PRIMITIVES.index(kind)}"
            return Property(name, kind, many, nullable, {"$Type": defined if self.draw.chance(10) else kind})
        # by the namespace's other name
        return Property(name, kind, many, nullable, {"$Type": f"M.{kind.name}"})

    def document(self):
        """The document in CSDL JSON; its namespace is `N`, or `M`."""
        inner = {"$Alias": "M"}
        for n, kind in enumerate(PRIMITIVES):
            inner[f"Of{n}"] = {"$Kind": "TypeDefinition", "$UnderlyingType": kind}
        for kind in self.enumerations:
            inner[kind.name] = {"$Kind": "EnumType", "$UnderlyingType": kind.underlying, "$IsFlags": kind.is_flags}
            inner[kind.name] |= kind.members
        for record in self.records:
            is_entity = record.name.startswith(("Row", "Base", "Link"))
            inner[record.name] = {"$Kind": "EntityType" if is_entity else "ComplexType"}
            if record.base:
                inner[record.name]["$BaseType"] = f"N.{record.base.name}"
            for one in record.own:
                reported = {**one.declared, "$Collection": one.many, "$Nullable": one.nullable}
                inner[record.name][one.name] = {name: said for name, said in reported.items() if said is not False}
        return json.dumps({"$Version": "4.01", "N": inner})
