"""What tests/refused asks while an allocation is refused: questions to suite_driver, filters that take no memory, and
command lines of the program.
"""
from suite_cases import stored

SHOP, E0 = (stored(folder, name).decode() for folder, name in (("schemas", "shop"), ("rows", "e0")))
NAMED = E0.replace("O'Neil", "aéb")
# two types of one chain have a property of one name
TWICE = """{"$Version":"4.01","N":{"A":{"$Kind":"EntityType","P":{}},
"B":{"$Kind":"EntityType","$BaseType":"N.A","P":{}}}}"""
# a type of entities with links to others of it, and one of them
LINKS = """{"$Version":"4.01","N":{"A":{"$Kind":"EntityType","ID":{"$Type":"Edm.Int32"},
"To":{"$Kind":"NavigationProperty","$Type":"N.A","$Nullable":true},
"Many":{"$Kind":"NavigationProperty","$Type":"N.A","$Collection":true}}}}"""
LINKED = '{"ID":1,"To":{"ID":4},"Many":[{"ID":2,"To":{"ID":3}}]}'
ITEMS = """{"$Version":"4.01","Mini":{"Item":{"$Kind":"EntityType","ID":{"$Type":"Edm.Int32"},"Name":{},
"Active":{"$Type":"Edm.Boolean"}}}}"""
A, B = ('{"ID":1,"Name":"%s","Active":true}\n' % name for name in "ab")
SLOTS = """Active Edm.Boolean?, Changed Edm.DateTimeOffset, Code Edm.Guid, Color Shop.Color, Home Shop.Address?,
ID Edm.Int32, Name Edm.String, Parts Shop.Part*, Price opaque, Rating Edm.Int16?, Released Edm.Date?, Stock Edm.Int64,
Tags Edm.String*""".replace("\n", " ")
FITS = """fits true, 2020-01-01T00:00:00Z, 01234567-89ab-cdef-0123-456789abcdef, 5, {'Oslo', [{2}]}, 1, 'O''Neil',
[{'x', 1, [{'y', 2, []}]}], null, 3, 2020-02-29, 10, ['a']""".replace("\n", " ")
LAMBDAS = "Parts/any(p:p/Sub/any(q:q/Qty gt p/Qty))"
CALLED = "concat(toupper(Name),'!') eq 'AéB!'"
OPERATORS, IN_ORDER = "NOT(Rating  GT +03)AND Name eq'a'", "not (Rating gt 3) and Name eq 'a'"
TO_MANY = "Many/any(m:m/To/Many/$count eq 0) or To/To eq null"
PLUS = "$filter=Changed%20eq%202020-01-01T01:00:00"
AT_ONE = "filter Changed eq 2020-01-01T01:00:00+01:00"
# texts, each with the canonical one
TEXTS = [("lambdas", LAMBDAS, LAMBDAS), ("calls", CALLED, CALLED), ("operators", OPERATORS, IN_ORDER)]
TEXTS += [("search", *["indexof(Name,'b') eq 2"] * 2), ("part", *["substring(Name,5) eq ''"] * 2)]
TEXTS += [("sign", "-(5) lt 0", "- 5 lt 0"), ("differences", *["ID sub (ID sub 1) eq 1"] * 2)]
TEXTS += [("moment", "Changed gt 2020-01-01t00:00z", "Changed gt 2020-01-01T00:00:00Z")]
IS_TRUE = "true\n1 of 1, it\ntrue\ntrue, true"
DIVIDES = "DivideByZero\nrow 1 DivideByZero, nothing\nDivideByZero\nDivideByZero, DivideByZero"
LACKING = "NotExpanded Many/0/To/To"
IS_LACKING = f"{LACKING}\nrow 1 {LACKING}, nothing\n{LACKING}\n{LACKING}, a fault"


def of_type(document, name):
    return [("schema", document), ("type", name)]


def on_row(filter_text, row=E0, of=(SHOP, "Shop.Product")):
    """What is held for a question about a filter on a row, and the question."""
    return [*of_type(*of), ("filter", filter_text)], ("outcome", row, "", "1")


PRODUCT, LINK = of_type(SHOP, "Shop.Product"), of_type(LINKS, "N.A")
# each call: its name, the questions before it, its own, and the answer
CALLS = [
    ("read", [], ("schema", SHOP), "accepted"),
    ("read_of_fault", [], ("schema", TWICE), "PropertyTwice N.B P"),
    ("read_of_slots", of_type(SHOP, "S.Product"), ("slots",), SLOTS),
    ("read_of_part", of_type(SHOP, "Shop.Part"), ("slots",), "Name Edm.String, Qty Edm.Int32, Sub Shop.Part*"),
    ("from_json", PRODUCT, ("row", E0), f"{FITS}\nread"),
    ("from_json_of_fault", PRODUCT, ("row", "{}"), "Missing Changed\nunread"),
    ("row_by_itself", *on_row("true"), IS_TRUE),
    ("row_by_itself_of_fault", *on_row("true", "{}"), "Missing Changed\nrow 1 Missing Changed, nothing\n"
     "Missing Changed\nMissing Changed, a fault"),
    *((f"canonical_of_{name}", [*PRODUCT, ("filter", text)], ("canonical",), wanted) for name, text, wanted in TEXTS),
    ("check_of_fault", PRODUCT, ("filter", "Active and Name"), "refused OperandTypes 0..15"),
    ("explain", [*PRODUCT, ("filter", "not Active")], ("explanation",),
     "0..10 not Edm.Boolean\n  4..10 property Active Edm.Boolean\n"),
    ("evaluate_of_lambdas", *on_row(LAMBDAS), IS_TRUE),
    ("evaluate_of_two_calls", *on_row("concat(toupper(Name),'!') eq 'O''NEIL!'"), IS_TRUE),
    ("evaluate_of_calls", *on_row(CALLED, NAMED), IS_TRUE),
    ("evaluate_of_search", *on_row("indexof(Name,'b') eq 2", NAMED), IS_TRUE),
    ("evaluate_of_part", *on_row("substring(Name,5) eq ''", NAMED), IS_TRUE),
    ("evaluate_of_enumeration", *on_row("Color has Shop.Color'Red,Blue'"), IS_TRUE),
    ("check_of_paths", [*LINK, ("filter", TO_MANY)], ("canonical",), TO_MANY),
    ("expanded_from_json", *on_row("Many/any(m:m/To/ID eq 3) and To/ID eq 4", LINKED, (LINKS, "N.A")), IS_TRUE),
    ("expanded_from_json_of_fault", *on_row("Many/any(m:m/To/To eq null)", LINKED, (LINKS, "N.A")), IS_LACKING),
    ("expansion_add", [], ("paths", "Maker"), "1 1 true"),
    ("expansion_add_of_several", [], ("paths", "To/Many/To,To,,To/Many,Home/To"), "4 4 true"),
    *((f"print_of_{name}", [], ("text", text), wanted) for name, text, wanted in TEXTS),
    ("parse_of_fault", [], ("text", "a eq"), "refused Unexpected 4..4"),
    *((f"write_{kind.lower()}", [], ("literal", text, kind, "a"), f"a{text.lower() if kind == 'Guid' else text}")
      for kind, text in (("Int", "-42"), ("Date", "2020-02-29"), ("Moment", "2020-02-29T01:02:03.04+05:06"),
                         ("Guid", "01234567-89AB-cdef-0123-456789abcdef"), ("Str", "'O''Neil'"))),
    ("concat", [], ("concat", "aéb", "!"), "aéb!"),
    ("to_lower", [], ("lower", "AéB"), "aéb"),
    ("to_upper", [], ("upper", "aéb"), "AéB"),
    ("filter_of_query", [], ("query", f"{PLUS}%2B01:00"), AT_ONE),
    ("filter_of_query_with_a_plus", [], ("query", f"{PLUS}+01:00"), AT_ONE),
]
# rows of a run, of which the first and the third are kept; the fourth is so long that the buffer of what is read grows
# a second time, or it is faulty, and judged before that
SWITCHES = """{"$Version":"4.01","N":{"T":{"$Kind":"EntityType","Name":{},"On":{"$Type":"Edm.Boolean"}}}}"""
ON_A, ON_B = ('{"Name":"%s","On":true}\n' % name for name in "ab")
THREE, BLANKS = ON_A + ON_B + ON_A, " " * 65_536
OF_A = [*of_type(SWITCHES, "N.T"), ("filter", "On and not (- 1 gt 2) and $it/Name eq 'a'")]
OF_FIRST = [*of_type(ITEMS, "Mini.Item"), ("filter", "Active and ID eq 1 and Name eq 'a'")]
OF_ITEMS_ROWS = A + B + '{"ID":2,"Name":"a","Active":false}\n'
# runs over lines and over a collection, as CALLS; and what is written before each line or entity, from 0 on
COLLECTION = '{"value":[%s]}' % THREE.strip().replace("\n", ",")
RUNS_OF_ROWS = [
    ("filter_lines", OF_FIRST, ("lines", OF_ITEMS_ROWS, BLANKS), f"1 of 3\n{A}", ["", "", *[A] * 4]),
    ("filter_lines_of_pieces", OF_A, ("lines", THREE, f"{BLANKS}\n{ON_A}"), f"3 of 4\n{ON_A * 3}",
     ["", "", *[ON_A] * 2, *[ON_A * 2] * 2, *[ON_A * 3] * 2]),
    ("filter_lines_of_fault", OF_A, ("lines", THREE + "{}\n", BLANKS), f"row 4 Missing Name\n{ON_A * 2}",
     ["", "", *[ON_A] * 2, ON_A * 2]),
    ("filter_collection", OF_A, ("collection", COLLECTION), "2 of 3\n0\n2\n", ["", "", *["0\n"] * 2, *["0\n2\n"] * 2]),
]
CALLS += [run[:4] for run in RUNS_OF_ROWS]
WRITTEN = {name: written for name, *_, written in RUNS_OF_ROWS}
# filters that take no memory: what is held for each, the row, and the outcome
EVALUATED = [(name, on_row(text)[0], E0, wanted) for name, text, wanted in (
    ("lambdas", LAMBDAS, IS_TRUE),
    ("division", "Parts/all(p:1 div 0 eq p/Qty)", DIVIDES),
    ("moment", "Changed eq 2020-01-01T01:00:00+01:00", IS_TRUE),
)]
FILES = {"items.json": ITEMS, "rows.json": B + A}
OF_ITEMS = ["--schema", "items.json", "--type", "Mini.Item"]
FIRST = ["filter", *OF_ITEMS, "--filter", "Active and ID eq 1 and Name eq 'a'"]
LISTED = "entity Mini.Item\n  Active Edm.Boolean\n  ID Edm.Int32\n  Name Edm.String\n"
ON_ROW = """0..36 and Edm.Boolean = true
  0..7 gt Edm.Boolean = true
    0..2 property ID Edm.Int32 = 1
    6..7 literal Edm.Int32 = 0
  12..36 eq Edm.Boolean = true
    12..28 concat Edm.String = 'ab'
      19..23 property Name Edm.String = 'a'
      24..27 literal Edm.String = 'b'
    32..36 literal Edm.String = 'ab'
"""
# runs of the program: the name, the words, standard input, and what is written, reported and returned
RUNS = [
    ("check", ["check", *OF_ITEMS, "--filter=-(5) lt 0"], "", ("accepted\n- 5 lt 0\n", "", 0)),
    ("explain_of_words", ["explain", *OF_ITEMS, "--filter", "not Active"], "",
     ("0..10 not Edm.Boolean\n  4..10 property Active Edm.Boolean\n", "", 0)),
    ("filter", FIRST, A + " \r\n\n" + B + A, (A * 2, "", 0)),
    ("filter_of_fault", FIRST, "{}", ("", "row 1 Missing Active\n", 4)),
    ("filter_of_collection", ["filter", *OF_ITEMS, "--filter", "ID eq 1", "--collection"], '{"value":[%s]}' % A.strip(),
     ("0\n", "", 0)),
    ("filter_of_items", ["filter", *OF_ITEMS, "--filter", "ID eq 1", "--collection", "--items"],
     '{"value":[%s]}' % A.strip(), (A, "", 0)),
    ("filter_of_escaped_items", ["filter", *OF_ITEMS, "--filter", "ID eq 1", "--collection", "--items"],
     '{"\\u0076alue":[%s]}' % A.strip(), (A, "", 0)),
    ("no_items", ["filter", *OF_ITEMS, "--filter", "ID eq 1", "--collection", "--items"], "[]",
     ("", "row NotACollection\n", 4)),
    ("explain_of_row", ["explain", *OF_ITEMS, "--filter", "ID gt 0 and concat(Name,'b') eq 'ab'", "--row=2"], B + A,
     (ON_ROW, "", 0)),
    ("explain_of_fault", ["explain", *OF_ITEMS, "--filter", "ID gt 1", "--row=1"], "{}",
     ("", "row 1 Missing Active\n", 4)),
    ("filter_of_part", [*FIRST, "--rows=rows.json", "--part=2/2"], "", (A, "", 0)),
    ("types", ["types", *OF_ITEMS[:2]], "", (LISTED, "", 0)),
    ("version", ["--version"], "", ("odfilter 0.1.0\n", "", 0)),
]


def is_refused(name, said, wanted):
    """Whether that is the answer of a call, or says that an allocation failed."""
    return says_cut(said, wanted, WRITTEN[name]) if name in WRITTEN else says_refused(said, wanted)


def says_cut(said, wanted, written):
    """Whether that is the answer of a run, or names the line at which memory failed, and what was written before it."""
    if said in (wanted, "memory", "refused memory"):
        return True
    head, _, text = said.partition("\n")
    word, _, line = head.partition(" ")
    return word == "memory" and int(line) < len(written) and text == written[int(line)]


def says_refused(said, wanted):
    """Whether that is the answer, or says that an allocation failed, of the check or line by line: a line that is read
    by its bytes is `unread` then, and `read otherwise` where it is the tree that fails.
    """
    if said in (wanted, "memory", "refused memory"):
        return True
    found, lines = said.split("\n"), wanted.split("\n")
    ways = ["unread", "read otherwise"] if found[0] == "memory" else ["unread"]
    return len(found) == len(lines) and all(a in (b, *ways) or "memory" in a for a, b in zip(found, lines))
