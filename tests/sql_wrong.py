"""Wrong translators, each by what it would change in the texts of a right one: for tests/sql, which is to see each.

A translator is a dialect, or None for both, and a change of a text; it is seen where an answer is wrong or refused.
"""
import re


def replaced(old, new):
    return lambda text: text.replace(old, new)


def changed(pattern, new):
    return lambda text: re.sub(pattern, new, text)


def of_bounds(least, most, other_least, other_most):
    """Takes other bounds of a type for its own, in either dialect."""
    return changed(
        rf"BETWEEN (\(?){least}(\)::numeric)? AND {most}", lambda it: f"BETWEEN {it[1]}{other_least}{it[2] or ''} AND {other_most}",
    )


def of_other_members(text):
    """Looks the names of `K.Size` up among the members of `K.Marks`."""
    text = text.replace(
        "ARRAY['Large', 'None', 'Small']::text[], ARRAY[9223372036854775807, 0, -1]",
        "ARRAY['A', 'AB', 'B', 'Top']::text[], ARRAY[1, 3, 2, -2147483648]",
    )
    return text.replace(
        "CASE p WHEN 'Large' THEN 9223372036854775807 WHEN 'None' THEN 0 WHEN 'Small' THEN -1",
        "CASE p WHEN 'A' THEN 1 WHEN 'AB' THEN 3 WHEN 'B' THEN 2 WHEN 'Top' THEN -2147483648",
    )


WRONG = {
    "texts by the collation of the database": ("postgresql", replaced(' COLLATE "C"', "")),
    "the right side of a decided `and` is evaluated": (
        None, replaced("0000001234022343333344444", "0003401234022343333344444"),
    ),
    "the right side of a decided `or` is evaluated": (
        None, replaced("0123411111212343333344444", "0123411134212343333344444"),
    ),
    "a fault on the right before one on the left": (None, replaced("3333344444", "3333444444")),
    "comparisons with null are null": (None, replaced(" IS TRUE)", ")")),
    "null is equal to nothing": (
        None, lambda text: text.replace(" IS NOT DISTINCT FROM ", " = ").replace(" COLLATE BINARY IS ", " = "),
    ),
    "the fault of any member, not of the first": (None, changed(r"\(m(\d+)\.o - 1\) \* 8|m(\d+)\.key \* 8", "0")),
    "members from the last": (None, changed(r"(\(m\d+\.o - 1\)|m\d+\.key) \* 8", r"(1000 - \1) * 8")),
    "JSON null as SQL has it": ("postgresql", changed(r"NULLIF\(([^(),]*), 'null'::jsonb\)", r"(\1)")),
    "Int16 in 32 bits": (None, of_bounds("-32768", "32767", "-2147483648", "2147483647")),
    "Int32 in 64 bits": (None, of_bounds("-2147483648", "2147483647", "-9223372036854775808", "9223372036854775807")),
    "Int64 by its bounds": (
        "sqlite", changed(r"WHEN 'integer' THEN 1 WHEN 'real' THEN 0", r"WHEN 'integer' THEN 1 WHEN 'real' THEN 1"),
    ),
    "a start below 0 counts from the end": ("sqlite", changed(r"min\(max\(", "min(min(1000000000, ")),
    "case beyond ASCII": ("postgresql", changed(r"translate\((.*?), 'A", r"translate(lower(\1), 'A")),
    "white space of ASCII alone": (
        None, lambda text: re.sub(r"char\(9, 10.*?12288\)", "' '", text.replace("odf.trim(", "btrim(")),
    ),
    "null divided by 0 is a fault": (None, changed(r" AND \(NOT \(.*? IS NULL\)\)", " AND TRUE")),
    "Overflow for DivideByZero": (
        None,
        lambda text: text.replace(
            "WHEN 'Infinity'::numeric THEN 4", "WHEN 'Infinity'::numeric THEN 3",
        ).replace("WHEN x'04' THEN 4", "WHEN x'04' THEN 3"),
    ),
    "moments by their local time": (
        None,
        lambda text: text.replace(" - CASE WHEN substr(a, -1) IN ('Z', 'z') THEN 0", " - CASE WHEN TRUE THEN 0"),
    ),
    "moments to the microsecond": (
        "postgresql",
        changed(r"odf\.instant\((t\.\"\w+\")\)", r"(extract(epoch FROM \1::timestamptz) * 1000000000)"),
    ),
    "`all` over null is true": (
        None, changed(r"WHEN 2 THEN ((?:\(m\d+\.o - 1\)|m\d+\.key) \* 8 \+ 0)", r"WHEN 2 THEN NULL"),
    ),
    "a bit of the flags is enough": (None, changed(r"\(\(~ (.*?) & (.*?)\) = 0\)", r"((\1 & \2) <> 0)")),
    "`all` where no member is false": (None, replaced("WHERE (NOT ((", "WHERE (NOT COALESCE((")),
    "null is false": (None, replaced("ELSE 2 END", "ELSE 0 END")),
    "nulls are not at least as great": (
        None, changed(r" OR \((\([^()]*(?:\([^()]*\))*[^()]*IS NULL\)) AND ", r" OR (FALSE AND "),
    ),
    "a place counted from 1": (
        None,
        lambda text: re.sub(r"(\(strpos\([^()]*\)) - 1\)", r"\1)", re.sub(r"(\(instr\([^()]*\)) - 1\)", r"\1)", text)),
    ),
    "an enumeration by the members of another": (None, of_other_members),
    "the fault of a text as that of a number": (
        "postgresql", lambda text: text.replace("WHEN 'O'::text THEN", "WHEN 'NaN' THEN").replace("WHEN 'D'::text THEN", "WHEN 'Infinity' THEN"),
    ),
    "a text that is no fault with the letter before it": (
        "postgresql", changed(r"substr\((NULLIF\(NULLIF\(\w+, 'O'::text\), 'D'::text\)), 2\)", r"\1"),
    ),
    "a text without a letter before it": ("postgresql", replaced("('v'::text || ", "(")),
    "null of another type": ("postgresql", replaced("NULL::bigint", "NULL::text")),
    "Guids by the case of their digits": (
        "sqlite", changed(r"""lower\((m\d+\.value|json_extract\([^()]*"Ids?"'\))\)""", r"\1"),
    ),
}
