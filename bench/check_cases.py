"""The filters that bench/check measures: each with its name, a schema, a type, and what a service might send."""
import json
import os

TOP = os.path.dirname(os.path.dirname(os.path.realpath(__file__)))
MINI, ITEM = f"{TOP}/crates/odfilter/data/schema.json", "Mini.Item"
SHOP, PRODUCT = f"{TOP}/tests/suite/schemas/shop.json", "Shop.Product"
ORDER = "Big.Order"
GARDEN = "contains(tolower(Name),'garden') and Total gt 1000 and Lines/any(l:l/Qty gt 3 and l/Price le 500) or "
OPEN = "Status eq 'open' and startswith(ShipTo/City,'Os') and year(Created) eq "
TABLE = "(Name eq 'a garden table' or Stock gt 100 and not Active)"


def typed(name, **facets):
    return {"$Type": f"Edm.{name}", **facets}


def orders():
    """The types about an order."""
    many, navigates = {"$Collection": True}, {"$Kind": "NavigationProperty", "$Type": "Big.Customer"}
    when = typed("DateTimeOffset")
    return {
        "Color": {"$Kind": "EnumType", "Red": 0, "Blue": 1, "Green": 2},
        "Address": {"$Kind": "ComplexType", "City": {}, "Street": {"$Nullable": True}, "Zip": {}},
        "Line": {"$Kind": "ComplexType", "Qty": typed("Int32"), "Sku": {}, "Price": typed("Int64")},
        "Customer": {"$Kind": "EntityType", "ID": typed("Int32"), "Name": {}, "Home": {"$Type": "Big.Address"}},
        "Base": {"$Kind": "EntityType", "$Abstract": True, "ID": typed("Int32"), "Created": when,
                 "Changed": typed("DateTimeOffset", **{"$Nullable": True})},
        "Order": {"$Kind": "EntityType", "$BaseType": "Big.Base", "Name": {}, "Active": typed("Boolean"), "Status": {},
                  "Total": typed("Int64"), "Rating": typed("Int32", **{"$Nullable": True}),
                  "Color": {"$Type": "Big.Color"}, "ShipTo": {"$Type": "Big.Address"},
                  "Lines": {"$Type": "Big.Line", **many}, "Tags": many, "Customer": navigates, "Code": typed("Guid"),
                  "Due": typed("Date")},
    }


def big():
    """A schema of a hundred types."""
    kinds = ["String", "Int64", "Boolean", "Date"]
    fields = {f"Field{n}": typed(kinds[n % 4], **{"$Nullable": True}) for n in range(8)}
    own = {"$Kind": "EntityType", "ID": typed("Int32"), "Name": {}, "Created": typed("DateTimeOffset"), **fields}
    others = {f"Type{n:02}": own for n in range(94)}
    return json.dumps({"$Version": "4.01", "Big": others | orders()})


def cases(room):
    """Each with its name, schema, type and text. The schemas that are made stand in the folder."""
    path = f"{room}/big.json"
    with open(path, "w", encoding="utf-8") as out:
        out.write(big())
    mini, shop, order = (MINI, ITEM), (SHOP, PRODUCT), (path, ORDER)
    return [
        ("34 bytes", *mini, "Active and ID eq 1 and Name eq 'a'"),
        ("60 bytes", *shop, "Rating ge 3 and Active and contains(Name,'table') or ID lt 9"),
        ("75 bytes, a path and two functions", *order, f"{OPEN}2020"),
        ("111 bytes, functions and a lambda", *order, f"{GARDEN}not Active"),
        ("1,000 bytes", *shop, " and ".join([TABLE] * 16) + " or ID lt 999"),
        ("16 KB of `and`", *mini, "Active" + " and ID eq 12345" * 1_023),
        ("16 KB of `not`", *mini, "not " * 4_000 + "Active"),
        ("`in` with 2,046 items", *mini, "ID in (" + ",".join(["1234567"] * 2_046) + ")"),
        ("refused: an unknown name", *mini, "Active and Foo eq 1"),
        ("refused: types", *order, f"{OPEN}'x'"),
        ("refused: syntax, at byte 104", *order, f"{GARDEN}or Active"),
        ("refused: the last character", *order, f"{OPEN}2020 ;"),
    ]
