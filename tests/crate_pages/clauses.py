"""docs/clauses.md: each public call and law of each crate with its contract, as the sources have it."""
import re

from .definitions import cited, defined_in, head_of
from .directions import ONE_SIDED, WITHOUT, sentence_of
from .markdown import MADE, dedented, fenced, first_sentence, index_of, page_of, paragraph, plain, reexports
from .sources import order_of

# what an `impl` proves for its traits, and how a type stores its value: no reader of clauses needs it
PROOFS = set("view invariant inverse inverse_ok coded also_owns laws total matches_eq matches_partial_cmp".split())
HEAD = f"""# Calls and their clauses

{MADE}

Each public call and law of each crate with its contract, word for word from the sources.
[MODEL.md](MODEL.md) says how to read the definitions, [PROVED.md](PROVED.md) what the clauses say together, and
[api.md](api.md) has the docs of the calls.

- `requires {{ .. }}` is what a call requires. `ensures {{ .. }}` is what holds after it; a label before the brace names
  the clause.
- `ghost NAME: {{ .. }}` is a fact that a trait requires of each type, `ghost NAME = {{ .. }}` that fact of one type.
  `Value` is what a value of the type stands for in the definitions.
- A law is a function that returns nothing and changes nothing. Its clauses state facts about all values.
- Every call is safe and returns, also one without a clause.
- "Definitions" links what a contract cites. Each crate's section ends with all its definitions, each file with its
  first comment and each definition with its own.
"""


def given(crate, kind):
    return [it for it in crate.given(kind.name) if it.name not in PROOFS]


def cited_by(functions):
    """The definitions that these cite, each once."""
    return list(dict.fromkeys(it for one in functions for it in cited(one.at.split(":")[0], one.clauses)))


def link(name, path):
    return f"[`{name}`](../{path})"


def links(functions):
    found = [link(*it) for it in cited_by(functions)]
    return paragraph(found and f"Definitions: {', '.join(found)}.")


def section_of(function, title):
    """A call: the first sentence of its doc, its signature with its clauses, and what these cite."""
    clauses = [line for clause in function.clauses for line in clause.lines]
    lines = dedented([*function.signature, *clauses])
    return [f"#### {title}", "", *paragraph(plain(first_sentence(function.doc))), *fenced(lines), *links([function])]


def facts_of(crate, kind):
    """What a type says for its traits, or what a trait requires each type to say."""
    lines, header = [], None
    for one in given(crate, kind):
        lines += [one.header] if one.header != header else []
        lines += one.clauses[0].lines
        header = one.header
    asked = [line for line in kind.lines if re.match(r"    (ghost \w+:|// )", line)]
    return lines or ([kind.lines[0].removesuffix(" {"), *asked] if asked and kind.is_trait() else [])


def section_of_type(crate, kind):
    """A type with its methods, and what it says for its traits; nothing, if it has none of these."""
    name, facts = crate.public_name(kind), facts_of(crate, kind)
    methods = [line for it in crate.methods(kind.name) for line in section_of(it, f"{name}::{it.name}")]
    if not facts and not methods:
        return []
    lines = [f"### {name}", "", *paragraph(plain(first_sentence(kind.doc)))]
    return [*lines, *(fenced(facts) if facts else []), *links(given(crate, kind)), *methods]


def definitions_of(path):
    """The definitions of a file of `specs/` with their comments. The first comment is also that of one of its name."""
    name, words = path.split("/specs/")[1].removesuffix(".antt").replace("/", "."), defined_in(path)
    lines = [f"- {link(name, path)}: {plain(head_of(path))}"]
    lines += [f"  - `{it}`: {plain(words[it])}" for it in words if words[it]]
    bare = [f"`{it}`" for it in words if not words[it] and it != name]
    return lines + ([f"  - without a comment: {', '.join(bare)}"] if bare else [])


def definitions_section(crate):
    """All public definitions of a crate, file by file. Private clauses alone cite those of specs/private."""
    paths = [path for path in crate.specs if "/specs/private" not in path and defined_in(path)]
    lines = [line for path in paths for line in definitions_of(path)]
    return [f"### Definitions of {crate.name}", "", *lines, ""] if lines else []


def section_of_crate(crate):
    lines = [f"## `{crate.name}`", "", *reexports(crate)]
    for kind in crate.types():
        lines += section_of_type(crate, kind)
    free = [it for it in crate.calls() if it.owner is None]
    for title, is_law in (("Calls", False), ("Laws", True)):
        some = [it for it in free if it.is_law() == is_law]
        lines += [f"### {title} of {crate.name}", ""] if some else []
        lines += [line for function in some for line in section_of(function, crate.public_name(function))]
    return lines + definitions_section(crate)


def requirements(crates):
    """The calls with a `requires`, crate by crate."""
    lines = ["## Calls that require something", "", "All other calls take any input.", ""]
    for crate in crates:
        owners = {kind.name: crate.public_name(kind) for kind in crate.types()}
        asking = [it for it in crate.calls() if it.asks]
        names = [f"`{owners[it.owner]}::{it.name}`" if it.owner else f"`{crate.public_name(it)}`" for it in asking]
        lines += [f"- [`{crate.name}`](#{crate.name}): {', '.join(names)}"] if names else []
    return [*lines, ""]


def said_of(crates, pattern):
    """The calls whose docs have such a sentence, crate by crate, each with that sentence."""
    for crate in crates:
        owners = {kind.name: crate.public_name(kind) for kind in crate.types()}
        for call in crate.calls():
            sentence = sentence_of(call, pattern)
            if sentence:
                name = f"{owners[call.owner]}::{call.name}" if call.owner else crate.public_name(call)
                yield f"- [`{crate.name}`](#{crate.name}), `{name}`: {plain(sentence)}"


def left_open(crates):
    """The calls without a clause, and those of which clauses speak of one answer alone."""
    lines = ["## Calls without a clause", "", *said_of(crates, WITHOUT), ""]
    lines += ["## Calls with clauses of one direction", ""]
    lines += ["The answer of which nothing is said costs time alone, unless the sentence says more.", ""]
    return [*lines, *said_of(crates, ONE_SIDED), ""]


def page(crates):
    """The page, as the sources are. It has the crates that have definitions."""
    shown = [crates[name] for name in order_of(crates) if crates[name].offers and crates[name].specs]
    lines = [HEAD, index_of(shown), "", *requirements(shown), *left_open(shown)]
    for crate in shown:
        lines += section_of_crate(crate)
    return page_of(lines)
