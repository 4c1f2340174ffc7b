"""The addon of Node has the header; its JavaScript has numbers.js."""
from .header import FROM, joined

PAGE = """'use strict';
// {made}
const STATUS = {{
{statuses}}};
const VERDICT = {{
{verdicts}}};
const FORM = {{
{forms}}};
// the statements of conditions of SQL, and the kinds of values of their parameters
const STATEMENT = {{
{statements}}};
const VALUE = {{
{values}}};
// how many names each fault of a schema carries, by its number
const SCHEMA_NAMES = [{schema_names}];
// the names of faults, by their status and number
const FAULTS = {{
{faults}}};

module.exports = {{ STATUS, VERDICT, FORM, STATEMENT, VALUE, SCHEMA_NAMES, FAULTS }};
"""


def table(pairs):
    return joined([f"{name}: {number}," for name, number in pairs], "  ")


def fault_rows(header):
    for status, names in header.names_by_status().items():
        words = [f"{number}: '{name}'," for number, name in names]
        line = f"  {status}: {{ {' '.join(words)[:-1]} }},\n"
        yield line if len(line) <= 121 else f"  {status}: {{\n{joined(words, '    ')}  }},\n"


def files(header):
    text = PAGE.format(
        made=FROM,
        statuses=table(header.statuses),
        verdicts=table(header.verdicts),
        forms=table(header.forms),
        statements=table(header.statements),
        values=table(header.values),
        schema_names=header.schema_names,
        faults="".join(fault_rows(header)),
    )
    return {"node/numbers.js": text}
