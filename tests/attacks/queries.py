"""Queries that some reader takes for one with a filter: each is Disguised, by itself and beside a good filter."""
import odfilter
from suite_cases import stored

# names of options, each of which some reader of queries takes for the filter's
NAMES = [
    "$filter%00", "$filter%00x", "$f%00ilter", "%00$filter", "[$filter]", "]$filter", "$filter]", "[[$filter]]",
    "%5B$filter%5D", "%5b%24filter%5d", "[filter]", "%EF%BB%BF$filter", "%ef%bb%bffilter", "%20$filter", "$filter+",
    "%2524filter", "/Items?$filter", "https://h/Items?$filter", "/Items%3F$filter", "?$filter", "??filter",
]
# whole options
OPTIONS = [
    "x=1;%u0024filter=Nope", "$select=(;$filter=Nope)", "$expand=(;$filter=Nope)", "x=1;$filter=Nope",
    "$top=1?$filter=Nope", "amp;$filter=Nope",
]


def answer(item, query):
    """What becomes of a query: its canonical filter, or the fault."""
    try:
        with item.check_url(query) as checked:
            return checked.canonical
    except odfilter.NoFilter:
        return "no filter"
    except odfilter.QueryRefused as refused:
        return f"{refused.name} {refused.number}"


def attacks(_):
    with odfilter.Schema(stored("schemas", "mini")) as schema, schema.type("Mini.Item") as item:
        for option in [f"{name}=Nope" for name in NAMES] + OPTIONS:
            for query, wanted in [
                (option, "Disguised 0"), (f"$top=5&{option}", "Disguised 1"),
                (f"{option}&$filter=Active", "Disguised 0"), (f"$filter=Active&{option}", "Disguised 1"),
            ]:
                said = answer(item, query)
                yield f"query: {query}", said == wanted, said
        for query in ("$top=5&$select=ID", "x=[1]&y=%00", "$expand=Parts($filter=Qty gt 1;$top=2)", "$orderby=Name"):
            said = answer(item, query)
            yield f"no filter: {query}", said == "no filter", said
            said = answer(item, f"{query}&$filter=Active")
            yield f"a filter beside: {query}", said == "Active", said
