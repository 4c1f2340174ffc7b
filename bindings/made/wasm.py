"""The calls of WebAssembly in JavaScript have numbers.js: with numbers and names of calls, and where the fields of an
answer stand. It is a script too, for pages and workers, which have no modules."""
from .header import FROM, joined, member

PAGE = """'use strict';
// {made}
const odfilterNumbers = {{
  STATUS: {{
{statuses}  }},
  VERDICT: {{
{verdicts}  }},
  // how many names each fault of a schema carries, by its number
  SCHEMA_NAMES: [{schema_names}],
  ANSWER_SIZE: {answer_size},
  // the fields of an answer: where each stands in it, and of how many bytes it is
  ANSWER: {{
{answer}  }},
  // what each call is given: h a handle or null, b bytes, w a buffer, m the variable of a handle, a an answer, f an
  // answer that is read, n a number of 4 bytes, u one of 8
  CALLS: {{
{calls}  }},
}};
if (typeof module !== 'undefined') module.exports = odfilterNumbers;
"""
KINDS = {
    "const odfilter_handle *": "h", "odfilter_handle *": "h", "odfilter_handle **": "m", "odfilter_bytes": "b",
    "odfilter_buffer": "w", "odfilter_answer *": "a", "const odfilter_answer *": "f", "uint32_t": "n", "uint64_t": "u",
}


def table(pairs):
    return joined([f"{name}: {value}," for name, value in pairs], "    ")


def calls(header):
    """The calls but the one that frees."""
    for name, given in header.plain_calls():
        if name != "odfilter_free":
            yield name.removeprefix("odfilter_"), f"'{''.join(KINDS[kind] for _, kind in given)}'"


def files(header):
    text = PAGE.format(
        made=FROM,
        statuses=table(header.statuses),
        verdicts=table(header.verdicts),
        schema_names=header.schema_names,
        answer_size=sum(it["size"] for it in header.answer),
        answer=table((member(it["name"]), f"[{it['offset']}, {it['size']}]") for it in header.answer),
        calls=table(calls(header)),
    )
    return {"wasm/numbers.js": text}
