"""Filters and rows of the suite's shop, drawn by a fixed generator, many of them with faults: for tests/sql."""
import json

from row_types import Draw

COLORS = ["Red", "Green", "Blue"]
TEXTS = [
    "", "a", "A", "ab", "aB", "b", "x", "O'Neil", " a ", "\u00a0é\u3000", "É", "İ", "ß", "zz", "𝒳", "\uffff",
    "%_\\", '"', "a\tb",
]
NUMBERS = [0, 1, -1, 2, 3, 7, -7, 10, 127, 255, 32767, -32768, 32768, 65536, 2147483647, -2147483648, 2147483648]
NUMBERS += [4294967296, 9223372036854775807, -9223372036854775808, 9223372036854775806, -4611686018427387904]
RANGES = {"Edm.Int16": 16, "Edm.Int32": 32, "Edm.Int64": 64}
DATES = ["0001-01-01", "1582-10-15", "1900-02-28", "2020-02-29", "2020-01-01", "2024-12-31", "9999-12-31"]
TIMES = ["00:00:00", "23:59:59", "12:30:15", "12:30", "23:59:59.999999999", "00:00:00.000000001", "12:30:15.5"]
OFFSETS = ["Z", "z", "+00:00", "-00:00", "+16:00", "-16:00", "+23:59", "-23:59", "+01:30", "-08:00"]
GUIDS = [
    "01234567-89ab-cdef-0123-456789abcdef", "01234567-89AB-CDEF-0123-456789ABCDEF",
    "0" * 8 + "-0000-0000-0000-" + "0" * 12,
]


class Drawn:
    """What is drawn of the types of the shop. `faulty` draws more of what may be a fault."""

    def __init__(self, seed, faulty=False):
        self.draw, self.faulty = Draw(seed), faulty

    def text(self):
        return self.draw.one_of(TEXTS) + (self.draw.one_of(TEXTS) if self.draw.chance(20) else "")

    def number(self, bits):
        fitting = [it for it in NUMBERS if -(1 << (bits - 1)) <= it < 1 << (bits - 1)]
        return self.draw.one_of(fitting) if self.draw.chance(80) else self.draw.between(
            -(1 << (bits - 1)), (1 << (bits - 1)) - 1,
        )

    def small(self):
        return self.draw.one_of([0, 1, 2, 3, -1, 5])

    def moment(self):
        return f"{self.draw.one_of(DATES)}{self.draw.one_of('TTTt')}{self.draw.one_of(TIMES)}{self.draw.one_of(OFFSETS)}"

    def color(self):
        pieces = [self.draw.one_of([*COLORS, "8", "+3", "-1"]) for _ in range(1 + self.draw.below(3))]
        return self.draw.one_of([",", ", ", " ,"]).join(pieces)

    def optional(self, value, percent=25):
        return None if self.draw.chance(percent) else value

    # rows
    def part(self, depth=0):
        under = [self.part(depth + 1) for _ in range(self.draw.below(3))] if depth < 2 else []
        return {"Name": self.text(), "Qty": self.small() if self.draw.chance(70) else self.number(32), "Sub": under}

    def home(self):
        return {"City": self.text(), "Lines": [{"Qty": self.small()} for _ in range(self.draw.below(4))]}

    def row(self, place):
        row = {
            "ID": place, "Name": self.text(),
            "Rating": self.optional(self.small() if self.draw.chance(60) else self.number(16)),
        }
        row |= {
            "Stock": self.small() if self.draw.chance(50) else self.number(64),
            "Active": self.optional(self.draw.chance(50)),
        }
        row |= {"Released": self.optional(self.draw.one_of(DATES)), "Changed": self.moment(), "Color": self.color()}
        row |= {"Code": self.draw.one_of(GUIDS), "Tags": [self.text() for _ in range(self.draw.below(4))], "Price": 1.5}
        row |= {"Home": self.optional(self.home()), "Parts": [self.part() for _ in range(self.draw.below(4))]}
        return json.dumps(
            {name: it for name, it in row.items() if it is not None or self.draw.chance(50)}, ensure_ascii=False,
        )

    # filters: each of a type, with the range variables in scope, of which `part` has Name, Qty and Sub, and `line` Qty
    def of_kind(self, scope, kind):
        return [name for name, it in scope if it == kind]

    def number_of(self, scope, depth):
        draw = self.draw
        leaves = [
            "Rating", "Stock", "ID", "Rating", "Stock", str(self.small()), str(self.number(64)),
            str(self.number(16)),
        ]
        leaves += [f"{it}/Qty" for it in self.of_kind(scope, "part") + self.of_kind(scope, "line")] * 3
        if depth <= 0:
            return draw.one_of(leaves)
        if self.faulty and draw.chance(50):
            divisor = draw.one_of(["Rating", "Stock", "ID", *[f"{it}/Qty" for it in self.of_kind(scope, "part") + self.of_kind(scope, "line")] * 2])
            operator = draw.one_of(["div", "mod", "mul", "add", "sub"])
            return f"({self.number_of(scope, depth - 1)} {operator} {divisor})"
        way = draw.below(12 if self.faulty else 16)
        if way < 6:
            operator = draw.one_of(["add", "sub", "mul", "div", "mod", "div"])
            return f"({self.number_of(scope, depth - 1)} {operator} {self.number_of(scope, depth - 1)})"
        if way == 6:
            return f"-{draw.one_of(['Rating', 'Stock', 'ID', '(Rating div 2)'])}"
        if way == 7:
            return f"length({self.text_of(scope, depth - 1)})"
        if way == 8:
            return f"indexof({self.text_of(scope, depth - 1)},{self.text_of(scope, depth - 1)})"
        if way == 9:
            return draw.one_of(["Parts/$count", "Tags/$count", "Home/Lines/$count", *[f"{it}/Sub/$count" for it in self.of_kind(scope, "part")]])
        if way == 10:
            return f"{draw.one_of(['year', 'month', 'day'])}({draw.one_of([self.date_of(), self.moment_of()])})"
        if way == 11:
            return f"{draw.one_of(['hour', 'minute', 'second', 'totaloffsetminutes'])}({self.moment_of()})"
        return draw.one_of(leaves) if way < 15 else "null"

    def date_of(self):
        return self.draw.one_of(["Released", "Released", "date(Changed)", self.draw.one_of(DATES), "date(now())"])

    def moment_of(self):
        return self.draw.one_of(["Changed", "Changed", self.moment(), "now()"])

    def text_of(self, scope, depth):
        draw = self.draw
        leaves = ["Name", "Home/City", quoted(self.text()), "null"] + [
            f"{it}/Name"
            for it in self.of_kind(scope, "part")
        ] * 2
        leaves += self.of_kind(scope, "tag") * 3
        if depth <= 0:
            return draw.one_of(leaves)
        way = draw.below(9)
        if way < 2:
            return f"concat({self.text_of(scope, depth - 1)},{self.text_of(scope, depth - 1)})"
        if way == 2 or self.faulty and way < 5:
            more = f",{self.number_of(scope, depth - 1)}" if draw.chance(50) else ""
            return f"substring({self.text_of(scope, depth - 1)},{self.number_of(scope, depth - 1)}{more})"
        if way == 5:
            return f"{draw.one_of(['trim', 'tolower', 'toupper'])}({self.text_of(scope, depth - 1)})"
        return draw.one_of(leaves)

    def comparison(self, scope, depth):
        draw = self.draw
        operator = draw.one_of(["eq", "ne", "gt", "ge", "lt", "le"])
        way = draw.below(14)
        if way < 7 or self.faulty and way < 10:
            left, right = self.number_of(scope, depth + self.faulty), self.number_of(scope, depth - 1)
        elif way < 9:
            left, right = self.text_of(scope, depth), self.text_of(scope, depth - 1)
        elif way == 9:
            left, right = self.date_of(), self.date_of()
        elif way == 10:
            left, right = self.moment_of(), self.moment_of()
        elif way == 11:
            left, right = f"({self.truth(scope, depth - 1)})", draw.one_of(["true", "false", "null", "Active", f"({self.truth(scope, depth - 1)})"])
        elif way == 12:
            equal = draw.one_of(["eq", "ne"])
            return f"{draw.one_of(['Color', 'Home', 'Code', 'Rating', 'Active'])} {equal} null"
        else:
            equal = draw.one_of(["eq", "ne"])
            return draw.one_of([f"Color {equal} {quoted(self.color())}", f"Code {equal} {draw.one_of(GUIDS)}", f"Shop.Color'Blue' {equal} Color"])
        if draw.chance(5):
            right = "null"
        if draw.chance(5):
            left, right = right, left
        return f"{left} {operator} {right}"

    def lambda_of(self, scope, depth):
        draw = self.draw
        name = f"v{len(scope)}"
        collections = [("Parts", "part"), ("Parts", "part"), ("Tags", "tag"), ("Home/Lines", "line")]
        collections += [(f"{it}/Sub", "part") for it in self.of_kind(scope, "part")] * 2
        path, kind = draw.one_of(collections)
        if draw.chance(8):
            return f"{path}/any()"
        return f"{path}/{draw.one_of(['any', 'all'])}({name}:{self.truth([*scope, (name, kind)], depth - 1)})"

    def membership(self, scope, depth):
        draw = self.draw
        way = draw.below(6)
        if way == 0:
            return f"{self.text_of(scope, depth)} in Tags"
        if way == 1:
            return f"Color in ({','.join(draw.one_of([quoted(self.color()), 'null', 'Color']) for _ in range(1 + draw.below(3)))})"
        if way == 2:
            return f"{self.text_of(scope, depth)} in ({','.join(self.text_of(scope, depth - 1) for _ in range(draw.below(4)))})"
        if way == 3:
            return f"({self.truth(scope, depth - 1)}) in (true,{draw.one_of(['null', 'Active', '1 div 0 eq 1'])})"
        items = [self.number_of(scope, draw.below(2)) for _ in range(draw.below(4))]
        return f"{self.number_of(scope, depth)} in ({','.join(items)})"

    def truth(self, scope, depth):
        draw = self.draw
        if depth <= 0:
            return draw.one_of(["Active", "true", "false", "null", self.comparison(scope, 0), self.comparison(scope, 1)])
        way = draw.below(16)
        if way < 4:
            return f"({self.truth(scope, depth - 1)} {draw.one_of(['and', 'or'])} {self.truth(scope, depth - 1)})"
        if way == 4:
            joint = draw.one_of([" and ", " or "])
            return "(" + joint.join(self.truth(scope, depth - 2) for _ in range(2 + draw.below(4))) + ")"
        if way == 5:
            return f"not ({self.truth(scope, depth - 1)})"
        if way < 9:
            return self.lambda_of(scope, depth)
        if way == 9:
            return self.membership(scope, depth - 1)
        if way == 10:
            return f"Color has {draw.one_of([quoted('Red'), quoted('Red,Blue'), 'Color', 'null', quoted('8')])}"
        if way == 11:
            call = draw.one_of(["contains", "startswith", "endswith"])
            return f"{call}({self.text_of(scope, depth - 1)},{self.text_of(scope, depth - 1)})"
        return self.comparison(scope, depth - 1)

    def filter(self):
        return self.truth([], 1 + self.draw.below(4))


def quoted(text):
    return "'" + text.replace("'", "''") + "'"
