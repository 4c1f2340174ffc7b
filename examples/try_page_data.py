"""What the page of try_page.html begins with: a schema, its type, and examples of filters and rows."""
import json

SHOP = """{
  "$Version": "4.01",
  "Shop": {
    "$Alias": "S",
    "Color": {"$Kind": "EnumType", "$IsFlags": true, "Red": 1, "Green": 2, "Blue": 4},
    "Part": {"$Kind": "ComplexType", "Name": {}, "Qty": {"$Type": "Edm.Int32"}},
    "Maker": {"$Kind": "EntityType", "$Key": ["Name"], "Name": {}, "Country": {"$Nullable": true}},
    "Product": {
      "$Kind": "EntityType",
      "$Key": ["ID"],
      "ID": {"$Type": "Edm.Int32"},
      "Name": {},
      "Rating": {"$Type": "Edm.Int16", "$Nullable": true},
      "Released": {"$Type": "Edm.Date", "$Nullable": true},
      "Color": {"$Type": "S.Color"},
      "Tags": {"$Collection": true},
      "Price": {"$Type": "Edm.Decimal"},
      "Parts": {"$Type": "Shop.Part", "$Collection": true},
      "Maker": {"$Kind": "NavigationProperty", "$Type": "Shop.Maker", "$Nullable": true}
    }
  }
}
"""
ROWS = [
    {"ID": 1, "Name": "Lamp", "Rating": 5, "Released": "2024-02-29", "Color": "Red, Blue", "Tags": ["home", "light"],
     "Price": 19.5, "Parts": [{"Name": "bulb", "Qty": 1}, {"Name": "screw", "Qty": 4}]},
    {"ID": 2, "Name": "Chair", "Rating": 3, "Released": "2021-06-01", "Color": "Green", "Tags": ["home"],
     "Price": 49, "Parts": [{"Name": "leg", "Qty": 4}]},
    {"ID": 3, "Name": "O'Neil's clock", "Rating": None, "Color": "Blue", "Tags": [], "Price": 80, "Parts": []},
    {"ID": 4, "Name": "Caf\u00e9 table", "Rating": 4, "Released": "2025-11-02", "Color": "Red",
     "Tags": ["home", "sale"], "Price": 120, "Parts": [{"Name": "leg", "Qty": 3}, {"Name": "top", "Qty": 1}]},
]
MAKERS = [{"Name": "Lux", "Country": "NO"}, {"Name": "Oak", "Country": None}]
MADE = [{**row, "Maker": maker} for row, maker in zip(ROWS, MAKERS)]


def lines_of(rows):
    return "".join(json.dumps(row, ensure_ascii=False) + "\n" for row in rows)


# what the page offers: a name, a filter, and the rows where they are others
EXAMPLES = [
    ("Ratings and names", "Rating ge 4 and contains(Name,'a')", ROWS),
    ("Null is no number", "not (Rating gt 3) or Rating eq null", ROWS),
    ("Any part, all tags", "Parts/any(p:p/Qty gt 3) and Tags/all(t:t ne 'sale')", ROWS),
    ("Colours that are flags", "Color has Shop.Color'Red' and Color ne 'Red'", ROWS),
    ("Dates and now()", "Released lt date(now()) and year(Released) add 2 ge 2024", ROWS),
    ("Over to the maker", "Maker/Country eq 'NO' or startswith(Maker/Name,'O')", MADE),
    ("Faulty rows", "Rating mul 8191 gt 0", [*ROWS, {"ID": "5"}, {**ROWS[0], "Parts": [{"Name": "nut"}]}]),
    ("Refused: an unknown property", "Rating ge 4 and Weight lt 10", ROWS),
    ("Refused: types that do not fit", "Name eq 'Lamp' and Rating eq 'high'", ROWS),
    ("Refused: a type that is left out", "Price lt 100", ROWS),
]

START = {"schema": SHOP, "type": "Shop.Product"}
START["examples"] = [{"name": name, "filter": text, "rows": lines_of(rows)} for name, text, rows in EXAMPLES]
