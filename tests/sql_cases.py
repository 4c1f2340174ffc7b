"""Rows and filters on which a translation is easily wrong, on schemas of their own: for tests/sql."""
import json

KINDS = {
    "$Version": "4.01",
    "K": {
        "Size": {
            "$Kind": "EnumType", "$UnderlyingType": "Edm.Int64", "Small": -1, "Large": 9223372036854775807,
            "None": 0,
        },
        "Marks": {"$Kind": "EnumType", "$IsFlags": True, "A": 1, "B": 2, "AB": 3, "Top": -2147483648},
        "In": {
            "$Kind": "ComplexType",
            "Ü": {"$Nullable": True},
            "Flag": {"$Type": "Edm.Boolean", "$Nullable": True},
            "At": {"$Type": "Edm.DateTimeOffset", "$Nullable": True},
            "Day": {"$Type": "Edm.Date", "$Nullable": True},
            "Id": {"$Type": "Edm.Guid", "$Nullable": True},
            "Size": {"$Type": "K.Size", "$Nullable": True},
            "Marks": {"$Type": "K.Marks", "$Nullable": True},
            "N": {"$Type": "Edm.Int64", "$Nullable": True},
        },
        "Row": {
            "$Kind": "EntityType",
            "$Key": ["ID"],
            "ID": {"$Type": "Edm.Int32"},
            "not": {"$Nullable": True},
            "Not": {"$Type": "Edm.Int16", "$Nullable": True},
            "Byte": {"$Type": "Edm.Byte", "$Nullable": True},
            "SByte": {"$Type": "Edm.SByte", "$Nullable": True},
            "N": {"$Type": "Edm.Int64", "$Nullable": True},
            "M": {"$Type": "Edm.Int64", "$Nullable": True},
            "Flag": {"$Type": "Edm.Boolean", "$Nullable": True},
            "Text": {"$Nullable": True},
            "At": {"$Type": "Edm.DateTimeOffset", "$Nullable": True},
            "Day": {"$Type": "Edm.Date", "$Nullable": True},
            "Id": {"$Type": "Edm.Guid", "$Nullable": True},
            "Size": {"$Type": "K.Size", "$Nullable": True},
            "Marks": {"$Type": "K.Marks", "$Nullable": True},
            "In": {"$Type": "K.In", "$Nullable": True},
            "Ins": {"$Type": "K.In", "$Collection": True, "$Nullable": True},
            "Texts": {"$Collection": True, "$Nullable": True},
            "Numbers": {"$Type": "Edm.Int64", "$Collection": True, "$Nullable": True},
            "Flags": {"$Type": "Edm.Boolean", "$Collection": True, "$Nullable": True},
            "Moments": {"$Type": "Edm.DateTimeOffset", "$Collection": True},
            "Days": {"$Type": "Edm.Date", "$Collection": True, "$Nullable": True},
            "Ids": {"$Type": "Edm.Guid", "$Collection": True},
            "Sizes": {"$Type": "K.Size", "$Collection": True, "$Nullable": True},
        },
    },
}
LISTS = {name: [] for name in ("Ins", "Texts", "Numbers", "Flags", "Moments", "Days", "Ids", "Sizes")}
LEAST, MOST = -(1 << 63), (1 << 63) - 1
GUID = "01234567-89ab-cdef-0123-456789abcdef"
ALIKE = {"Ü": None, "Flag": True, "At": "2020-01-01T00:00:00.000000001+16:00", "Day": "0001-01-01", "Id": GUID.upper()}
ROWS = [
    {"ID": 0, **LISTS},
    {
        "ID": 1, **LISTS, "Not": -32768, "not": "x", "Byte": 255, "SByte": -128, "N": LEAST, "M": -1, "Flag": False,
        "Text": "",
    },
    {
        "ID": 2, **LISTS, "N": MOST, "M": 0, "Text": "' OR 1=1; --", "Flag": True,
        "Texts": ["' OR '1'='1", None, '"', "\\"],
    },
    {
        "ID": 3, **LISTS, "N": 0, "M": 0, "Text": "\u00e9\u0130\u00c9\ufb03", "Texts": ["a", None],
        "Numbers": [0, None, 1],
    },
    {
        "ID": 4, **LISTS, "At": "2020-01-01T00:00:00.999999999Z", "Day": "2020-02-29", "Id": GUID, "Size": "Small",
        "Marks": "A, B",
    },
    {
        "ID": 5, **LISTS, "At": "2020-01-01T16:00:01+16:00",
        "Moments": ["2020-01-01T00:00Z", "2020-01-01t00:00:00.5-23:59"],
    },
    {
        "ID": 6, **LISTS, "At": "0001-01-01T00:00:00+23:59", "Ids": [GUID.upper()], "Days": ["9999-12-31", None],
        "Sizes": ["Large", None],
    },
    {"ID": 7, **LISTS, "In": {}, "Ins": [None, {}, {**ALIKE, "N": LEAST}], "Flags": [None, True, False], "Marks": "-1"},
    {"ID": 8, **LISTS, "In": {**ALIKE, "Size": "9223372036854775807", "Marks": "Top,B", "N": MOST}, "Flags": [None]},
    {
        "ID": 9, **LISTS, "Text": " \t\u00a0\u3000\u200a a \u0085\u2028", "In": {"Ü": "ü", "Flag": False},
        "Numbers": [LEAST, MOST],
    },
    {
        "ID": 10, **LISTS, "Text": "%_\\", "Texts": ["", "%", "_"], "Marks": "0", "Size": "+5",
        "Flags": [False, None, True],
    },
    {
        "ID": 11, **LISTS, "N": -7, "M": 2, "Not": 32767, "Byte": 0, "SByte": 127, "Text": "\U0001d4b3y",
        "In": {"N": 2, "Marks": "AB"},
    },
]
# rows as they may come: a member twice, of which the last counts, and names with escapes
AS_THEY_COME = [
    '{"N":1,"Text":"a","In":{"N":7},"In":{"Flag":true,"N":-1},"ID":12,"N":2,"Text":"b",%s}',
    '{"\\u0049D":13,"\\u004e":3,"Te\\u0078t":"\\u0061\\u00e9","In":{"\\u00dc":"\\u00fc","Fla\\u0067":false},%s}',
]
# and those that are judged before they are stored, since in a database they would look right
REFUSED = ['{"ID":14,"N":1e2,%s}', '{"ID":14,"N":-0,%s}', '{"ID":14,"N":2.0,%s}', '{"ID":14,"N":9223372036854775808,%s}', '{"ID":14,"Flag":1,%s}']
REFUSED += ['{"ID":14,"N":"2",%s}', '{"ID":14,"At":"2020-01-01",%s}']
NUMBERS = [
    "N", "M", "Not", "Byte", "SByte", "In/N", "ID", "0", "-1", "9223372036854775807", "-9223372036854775808", "null",
]
FILTERS = [
    # whole numbers at the ends of 64, 32 and 16 bits, and beside null
    *(
        f"{a} {op} {b} eq {c}"
        for a in NUMBERS
        for b in NUMBERS
        for op in ("add", "sub", "mul", "div", "mod")
        for c in ("0", "N")
    ),
    *(f"ID {op} 2147483647 {by} 0" for op in ("add", "sub", "mul") for by in ("gt", "le")),
    *(f"-{a} lt 0" for a in ("N", "(M)", "Not", "(Byte)", "(SByte)", "In/N", "(null)")),
    *(
        f"{a} {op} {b}"
        for a in ("N", "Not", "null", "In/N")
        for b in ("M", "null", "0", "SByte")
        for op in ("eq", "ne", "gt", "ge", "lt", "le")
    ),
    # a fault beside null, which a strict operator of the engine would not evaluate
    *(
        f"{pair} {op} {other}"
        for a in ("1 div M", "N add 1", "length(substring(Text,1 div M))")
        for pair, other in ((f"({a})", "null"), ("null", f"({a})"))
        for op in ("eq", "ne", "gt", "ge", "lt", "le")
    ),
    *(f"{f}(Text,null) and 1 div M eq 1" for f in ("contains", "startswith", "endswith")),
    *(f"{f}(null,substring(Text,1 div M))" for f in ("contains", "startswith", "endswith", "null eq concat")),
    # faults in order: the first operand's, none where the left side decides, the first member's that decides
    *(
        f"({a}) {join} ({b})"
        for join in ("and", "or")
        for a in ("1 div M eq 1", "N add 1 gt 0", "Flag", "null", "true", "false")
        for b in ("1 div M eq 1", "N mul 2 gt 0", "Flag", "null", "not Flag")
    ),
    *(
        f"Numbers/{q}(n:{body})"
        for q in ("any", "all")
        for body in (
            "1 div n eq 1", "n add 1 gt 0", "n sub 1 lt 0 or 1 div n eq 1", "n eq null", "1 div M eq 1",
            "n mul n ge 0", "null", "n div M eq n div M",
        )
    ),
    *(
        f"Flags/{q}(f:{body})"
        for q in ("any", "all")
        for body in ("f", "not f", "f eq null", "f or 1 div M eq 1", "f and 1 div M eq 1", "f eq (1 div M eq 1)")
    ),
    *(
        f"Ins/{q}(i:{body})"
        for q in ("any", "all")
        for body in (
            "i eq null", "i ne null", "i/Flag", "i/N sub 1 lt 0", "i/Ü eq null", "i/Marks has 'A'",
            "i/At eq 2020-01-01T00:00:00Z", "i/Id eq " + GUID, "1 div M eq 1",
        )
    ),
    "Texts/any(t:t eq 'a') and Texts/any(t:t eq null)", "Texts/all(t:Numbers/any(n:1 div n gt length(t)))",
    # `in`
    *(
        f"{x} in {path}"
        for x, path in (
            ("N", "Numbers"), ("null", "Numbers"), ("N add 1", "Numbers"), ("Text", "Texts"), ("null", "Texts"),
            ("Flag", "Flags"), ("1 div M eq 1", "Flags"), ("At", "Moments"), ("Day", "Days"), ("Id", "Ids"),
            ("Size", "Sizes"), ("null", "Ins"),
        )
    ),
    *(
        f"{x} in ({items})"
        for x in ("N", "N add 1", "null", "M div N")
        for items in ("", "0", "0,null", "1 div M,0", "0,1 div M", "null,N")
    ),
    *(
        f"{x} in ({items})"
        for x in ("Flag", "(1 div M eq 1)", "null")
        for items in ("", "true", "null,false", "1 div M eq 1,true", "true,1 div M eq 1")
    ),
    "In in (null)", "Text in ('a',null,Text)", "Size in ('Small',null,Size)", "At in (2020-01-01T00:00:01Z,At)", "Day in (2020-02-29)", "Marks in ('A,B','AB')",
    # texts: case, white space, places beyond 32 bits, characters beyond 16
    *(
        f"{f}(Text,{part}) eq {want}"
        for f in ("contains", "startswith", "endswith")
        for part in ("''", "'%'", "'y'", "Text", "null")
        for want in ("true", "null")
    ),
    *(
        f"substring(Text,{at}) eq {want}"
        for at in ("0", "1", "-1", "2147483648", "9223372036854775807", "N", "M", "1 div M", "N sub 1", "null")
        for want in ("Text", "'y'", "''", "null")
    ),
    *(
        f"substring(Text,{at},{most}) eq {want}"
        for at in ("0", "1", "N", "-5")
        for most in ("1", "0", "-1", "N", "4294967296", "1 div M", "null")
        for want in ("''", "'x'")
    ),
    *(
        f"{f}(Text) eq {want}"
        for f in ("trim", "tolower", "toupper")
        for want in ("'a'", "'éİÉﬃ'", "'ÉİÉﬃ'", "Text", "null")
    ),
    *(
        f"length(concat(Text,{t})) gt {n}"
        for t in ("'y'", "Text", "null", "substring(Text,1 div M)")
        for n in ("1", "N")
    ),
    *(
        f"indexof(Text,{t}) {op} {n}"
        for t in ("'y'", "''", "'_'", "Text", "null")
        for op in ("eq", "lt")
        for n in ("0", "1", "-1", "N")
    ),
    *(
        f"Text {op} {t}"
        for op in ("eq", "ne", "gt", "ge", "lt", "le")
        for t in ("''", "'x'", "'É'", "null", "In/Ü", "concat(Text,'')", "'''' ")
    ),
    # moments, dates, Guids, enumerations
    *(
        f"{a} {op} {b}"
        for a in ("At", "In/At", "now()")
        for b in ("2020-01-01T00:00:01Z", "2019-12-31T08:00:00.000000001Z", "null", "At", "now()")
        for op in ("eq", "ne", "gt", "ge", "lt", "le")
    ),
    *(
        f"{f}({m}) {op} {n}"
        for f in ("year", "month", "day", "hour", "minute", "second", "totaloffsetminutes")
        for m in ("At", "now()", "In/At", "0001-01-01T00:00:00+23:59")
        for op, n in (("eq", "0"), ("gt", "15"), ("le", "1"))
    ),
    *(
        f"{f}({d}) eq {n}"
        for f in ("year", "month", "day")
        for d in ("Day", "date(At)", "In/Day", "2020-02-29")
        for n in ("1", "29", "2020")
    ),
    *(
        f"{a} {op} {b}"
        for a in ("Day", "date(At)", "In/Day")
        for b in ("2020-02-29", "0001-01-01", "null", "date(now())")
        for op in ("eq", "ge", "lt")
    ),
    *(f"{a} {op} {b}" for a in ("Id", "In/Id") for b in (GUID, GUID.upper(), "null", "Id") for op in ("eq", "ne")),
    *(
        f"{a} {op} {b}"
        for a in ("Size", "In/Size")
        for b in ("'Small'", "'9223372036854775807'", "null", "Size", "K.Size'Large'", "'-1'")
        for op in ("eq", "ne")
    ),
    *(f"{b} {op} {a}" for a in ("Size", "In/Size") for b in ("'Small'", "'9223372036854775807'", "'-1'") for op in ("eq", "ne")),
    *(f"Sizes/{q}(s:{body})" for q in ("any", "all") for body in ("s eq 'Large'", "'Large' ne s", "s in ('Large','None')", "s in ('Small',Size)")),
    *(f"Size in ({items})" for items in ("'Small','Large'", "'-1',In/Size", "null,'None'", "'9223372036854775807'")),
    *(f"{a} has {b}" for a in ("Marks", "In/Marks") for b in ("'A'", "'A,B'", "'Top'", "'0'", "Marks", "null", "'-1'")),
    # null before a slash, `$it`, `$count`
    "$it eq null", "$it ne null", "$it/Text eq Text", "In eq null", "In/Ü eq null", "$it/In/Flag", "not In/Flag", "Ins/$count gt 2", "Texts/any()", "Ins/any() eq true",
    "true", "false", "null", "not null", "null and false", "null or true", "null eq null", "null lt null", "null ge null",
    # hostile texts and names
    "Text eq ''' OR 1=1; --'", "Text eq '$1'", "Text eq '?1'", "Text eq '\"; DROP TABLE rows_columns; --'", "contains(Text,''' OR ''1''=''1')", "not eq 'x'", "$it/not eq 'x' and Not lt 0",
    "Texts/any(b0:b0 eq Text)", "Texts/any(m0:Texts/any(t:t ne m0))", "Ins/any(s0:s0/Ü eq 'ü')",
]


def with_lists(text):
    return (text % json.dumps(LISTS)[1:-1]).encode()


def rows():
    return [*(json.dumps(row, ensure_ascii=False).encode() for row in ROWS), *map(with_lists, AS_THEY_COME)]


def refused_rows():
    return list(map(with_lists, REFUSED))


def document():
    return json.dumps(KINDS, ensure_ascii=False).encode()


# names of columns that would be something else without their quotes
NAMES = ['a"b', "a'b", '"', '""', "x\"; DROP TABLE named; --", "--", "/*", "$1", "?1", "SELECT", " ", "\\", "%s", "Ä", "\ta"]
NAMED = json.dumps({"$Version": "4.01", "N": {"Row": {"$Kind": "EntityType", "ID": {"$Type": "Edm.Int32"}}}})

# a filter, and whether an index on that column is to be used for it
INDEXED = [
    ("Rating gt 29990", "c9"), ("Rating eq 7", "c9"), ("7 le Rating and Rating lt 9", "c9"), ("Rating in (1,2,3)", "c9"),
    ("Rating eq null", "c9"), ("Name eq 'n00007'", "c6"), ("Name gt 'n29990'", "c6"), ("Name in ('n00007','n00008')", "c6"),
    ("Stock eq 7", "c11"), ("not (Stock ne 7)", "c11"), ("Rating eq 7 and Stock div Rating gt 3", "c9"),
    ("1 div ID eq 1 and Rating eq 7 and Rating div ID gt 3", "c9"), ("Code eq 00000007-0000-0000-0000-000000000007", "c2"),
    ("Released eq 2020-02-29", "c10"), ("Released lt 2020-12-31", "c10"),
]
POSTGRES_INDEXED = [
    ("Changed gt 2099-12-27T00:00:00Z", "c1"), ("Changed ge 2020-01-01T01:00:07+01:00 and Changed lt 2020-01-01T00:00:08Z", "c1"),
]


def indexed_row(number):
    row = {"ID": number, "Name": f"n{number:05}", "Rating": None if number % 1000 == 0 else number, "Stock": number}
    row |= {"Changed": f"2020-01-01T00:{number // 60 % 60:02}:{number % 60:02}Z", "Color": "Red", "Tags": [], "Parts": []}
    row |= {"Code": f"{number:08}-0000-0000-0000-{number:012}", "Released": "2020-02-29" if number == 5 else "2021-01-01"}
    return json.dumps(row).encode()


def nested(kind, count):
    """A filter on the shop's products of so many levels."""
    if kind == "sub":
        return "Stock gt " + "(" * count + "Rating" + " sub Stock)" * count
    if kind == "not":
        return "not " * count + "Active"
    if kind == "minus":
        return "-" * count + "Stock gt 0"
    if kind == "any":
        paths = ["Parts", *(f"p{level}/Sub" for level in range(count - 1))]
        return "".join(f"{path}/any(p{level}:" for level, path in enumerate(paths)) + "true" + ")" * count
    return " and ".join(["1 div Rating eq 1"] * count)
