#!/usr/bin/env python3
"""Makes the schema that odfilter reads (CSDL JSON) of the metadata that a service publishes (CSDL XML 4.0 or 4.01).

    curl -s https://HOST/SERVICE/'$metadata' >metadata.xml
    csdl_json.py metadata.xml --type NS.Order >schema.json
    odfilter check --schema schema.json --type NS.Order --filter 'ID eq 1'

With --type, which may be repeated, the schema has the types that these entity types reach: their base types, and the
complex types, enumerations and type definitions of their properties. So a large document gives a small schema;
odfilter reads at most 1,048,576 bytes and 4,096 types. Without --type all types are kept.

A filter may traverse navigation properties to entity types that are kept. --expand Customer/Orders keeps those along
this path from a named type, --depth N all within N steps. A navigation property whose entity type is not kept stays
declared; odfilter refuses a filter that names it with TypeLeftOut.

Annotations, terms, actions, functions and containers are left out. Where the formats differ: a single property of XML
without `Nullable` may be null, one of JSON may not; for a collection without it the items may be null here, since XML
says nothing; a decimal of XML without `Scale` has scale 0; members without values count from 0; `MaxLength="max"` is
no limit and is left out.

Refused with one line on standard error and status 3: what is not metadata of OData 4; a document type declaration,
before any of it is expanded; a tag or a comment of more than 262,144 bytes; names that come twice or are no
identifiers; a type, base type or path that is missing; a schema too large for odfilter. Status 2 is the command line, 5
a file that cannot be read. It needs Python 3.9 and csdl_xml.py beside it, and takes at most 20 times the memory of the
document.
"""
import argparse
import difflib
import heapq
import itertools
import json
import operator
import os
import sys

sys.path.insert(0, os.path.dirname(os.path.realpath(__file__)))
from csdl_xml import Document, Refused, shown

STRUCTURED = ("EntityType", "ComplexType")
DOCUMENT_LIMIT = 1 << 26  # bytes of XML
SCHEMA_LIMIT, TYPE_LIMIT, BASE_LIMIT = 1 << 20, 4_096, 64  # what odfilter reads
NAME_LIMIT, NAMES_LIMIT = 200, 20_000  # names among which one is looked for that was meant
TOO_MUCH = f"the schema has more than {SCHEMA_LIMIT:,} bytes or {TYPE_LIMIT:,} types, and odfilter reads no more: "
TOO_MUCH += "name fewer types by --type"


class Types(Document):
    """The types of a document, by their names: of each the namespace and its own name."""

    def names(self):
        return ((namespace, name) for namespace, types in self.types.items() for name in types)

    def made(self, name):
        return self.types[name[0]][name[1]]

    def whole_name(self, text):
        """The name of a type by its text, which may begin with an alias; None where no type of the document has it."""
        front, _, last = text.rpartition(".")
        namespace = self.aliases[front][0] if front in self.aliases else front
        return (namespace, last) if last in self.types.get(namespace, ()) else None

    def entity_type(self, text):
        whole = self.whole_name(text)
        if whole is not None and self.made(whole)["$Kind"] == "EntityType":
            return whole
        each = (".".join(it) for it in self.names() if len(it[0]) + len(it[1]) < NAME_LIMIT and self.is_entity_type(it))
        near = nearest(text, itertools.islice(each, NAMES_LIMIT)) if len(text) < NAME_LIMIT else []
        raise Refused(f"no entity type {shown(text)}{f'; there is {shown(near[0])}' if near else ''}")

    def is_entity_type(self, name):
        return self.made(name)["$Kind"] == "EntityType"

    def chain(self, name):
        """A type and its base types, the nearest first."""
        seen = {}
        while name is not None:
            if name in seen or len(seen) > BASE_LIMIT:
                raise Refused(f"the base types of {dotted(name)} do not end, or are more than {BASE_LIMIT}")
            seen[name], base = None, self.made(name).get("$BaseType")
            below, name = name, base and self.whole_name(base)
            if base is not None and (name is None or self.made(name)["$Kind"] != self.made(below)["$Kind"]):
                raise Refused(f"the base type {shown(base)} of {dotted(below)} is not there")
        return seen

    def properties(self, name):
        """The own properties of a type, each with the whole name of its type, or None."""
        made = self.made(name)
        for member, it in made.items() if made["$Kind"] in STRUCTURED else ():
            if not member.startswith("$"):
                yield member, it, self.whole_name(it.get("$Type", "Edm.String"))


def nearest(text, names):
    """The name that a text is most like, if it is like one: of the few that are most alike as counted from both ends."""
    alike = lambda name: sum(map(operator.eq, text, name)) + sum(map(operator.eq, text[::-1], name[::-1]))
    return difflib.get_close_matches(text, heapq.nlargest(8, names, key=alike), 1)


def dotted(name):
    return shown(".".join(name))


class Reach:
    """The types that are kept: those that were named, and what these need."""

    def __init__(self, document):
        self.document, self.kept, self.new = document, {}, []

    def keep(self, name):
        """Keeps a type with its base types and all but the entity types that its properties lead to."""
        waiting = [name]
        while waiting:
            name = waiting.pop()
            if name not in self.kept:
                self.kept[name] = None
                self.new.append(name)
                waiting += [it for it in self.document.chain(name) if it not in self.kept]
                each = self.document.properties(name)
                waiting += {it: None for _, made, it in each if it is not None and "$Kind" not in made}
            if len(self.kept) > TYPE_LIMIT:
                raise Refused(TOO_MUCH)

    def keep_within(self, depth):
        for _ in range(depth):
            new, self.new = self.new, []
            for name in new:
                for _, made, target in self.document.properties(name):
                    if target is not None and "$Kind" in made:
                        self.keep(target)
            if not self.new:
                break

    def keep_along(self, start, path):
        """Keeps the types along a path; whether the start has its first property, and so all of it."""
        at = start
        for place, step in enumerate(path.split("/")):
            found = self.step(at, step)
            if found is not None and self.document.made(found)["$Kind"] in STRUCTURED:
                self.keep(found)
                at = found
            elif place == 0:
                return False
            else:
                raise Refused(f"{dotted(at)} has no property {shown(step)} that leads on: --expand {shown(path)}")
        return True

    def step(self, at, step):
        """The type of a property of a type or of its base types, or None."""
        each = [self.document.made(name).get(step) for name in self.document.chain(at)] if step[:1] != "$" else []
        types = [self.document.whole_name(it.get("$Type", "Edm.String")) for it in each if isinstance(it, dict)]
        return next(iter(types), None)


def kept_types(document, words):
    """The names of the types that the schema has."""
    if not words.type:
        names = dict.fromkeys(itertools.islice(document.names(), TYPE_LIMIT + 1))
        for name in names:
            document.chain(name)
        return names
    reach, starts = Reach(document), [document.entity_type(name) for name in words.type]
    for start in starts:
        reach.keep(start)
    reach.keep_within(words.depth)
    for path in words.expand:
        if not any([reach.keep_along(start, path) for start in starts]):
            raise Refused(f"no named type has what --expand {shown(path)} begins with")
    return reach.kept


compact = json.JSONEncoder(ensure_ascii=False, separators=(",", ":")).encode


def pieces_of_type(made):
    for number, (name, member) in enumerate(made.items()):
        yield f"{',' if number else '{'}{compact(name)}:{compact(member)}"
    yield "}"


def pieces_of(document, kept):
    """The schema: a line for each namespace and each type, in the order of the document."""
    yield f'{{"$Version":{compact(document.version)}'
    for namespace, types in document.types.items():
        names = [name for name in types if (namespace, name) in kept]
        if names:
            alias = document.namespaces[namespace]
            yield f",\n{compact(namespace)}:{{\n" + ("" if alias is None else f'"$Alias":{compact(alias)},\n')
            for number, name in enumerate(names):
                yield (",\n" if number else "") + f"{compact(name)}:"
                yield from pieces_of_type(types[name])
            yield "}"
    yield "}\n"


def converted(data, words):
    """The bytes of the schema that a document of XML stands for."""
    if len(data) > DOCUMENT_LIMIT:
        raise Refused(f"more than {DOCUMENT_LIMIT:,} bytes")
    document = Types(data)
    kept, text = kept_types(document, words), bytearray()
    for piece in pieces_of(document, kept):
        text += piece.encode()
        if len(text) > SCHEMA_LIMIT or len(kept) > TYPE_LIMIT:
            raise Refused(TOO_MUCH)
    return bytes(text)


def words_of(line):
    parser = argparse.ArgumentParser(description=__doc__, formatter_class=argparse.RawDescriptionHelpFormatter)
    parser.add_argument("file", metavar="FILE", help="the metadata, or - for standard input")
    parser.add_argument("--type", action="append", default=[], metavar="NAME", help="an entity type to keep")
    parser.add_argument("--expand", action="append", default=[], metavar="PATH", help="a path whose types are kept")
    parser.add_argument("--depth", type=int, default=0, metavar="N", help="steps over navigation properties")
    words = parser.parse_args(line)
    if not words.type and (words.expand or words.depth) or words.depth < 0:
        parser.error("--expand and --depth lead away from a --type")
    return words


def main():
    words = words_of(sys.argv[1:])
    try:
        if words.file == "-":
            data = sys.stdin.buffer.read(DOCUMENT_LIMIT + 1)
        else:
            with open(words.file, "rb") as file:
                data = file.read(DOCUMENT_LIMIT + 1)
    except OSError as fault:
        print(f"csdl_json: read {words.file}: {fault.strerror}", file=sys.stderr)
        return 5
    try:
        text = converted(data, words)
    except Refused as refused:
        print(f"csdl_json: {words.file}: {refused}".encode("utf-8", "replace").decode(), file=sys.stderr)
        return 3
    try:
        sys.stdout.buffer.write(text)
        sys.stdout.buffer.flush()
    except OSError:
        print("csdl_json: write", file=sys.stderr)
        os._exit(5)  # without another try to write
    return 0


if __name__ == "__main__":
    sys.exit(main())
