"""The types of a schema, from the lines that odfilter_types writes."""
from __future__ import annotations

from typing import Iterator, NamedTuple, Optional


class DeclaredProperty(NamedTuple):
    """A property as a schema declares it; of a collection, `type` and `nullable` are those of an item.

    `type` is None where the type is not read: neither filters nor rows can have the property.
    """

    name: str
    type: Optional[str]
    collection: bool
    nullable: bool
    navigation: bool


class DeclaredType(NamedTuple):
    """An entity or complex type as a schema declares it: `kind` is "entity" or "complex"."""

    name: str
    kind: str
    properties: tuple[DeclaredProperty, ...]


def types_in(lines: str) -> Iterator[DeclaredType]:
    """The types of a listing: the line of a property begins with two spaces, that of a type does not."""
    for block in lines.replace("\n  ", "\0").splitlines():
        head, *properties = block.split("\0")
        kind, name = head.split(" ")[:2]
        yield DeclaredType(name, kind, tuple(map(_property_in, properties)))


def _property_in(line: str) -> DeclaredProperty:
    name, type_name, *words = line.split(" ")
    item = type_name[len("Collection(") : -1] if type_name.startswith("Collection(") else type_name
    return DeclaredProperty(
        name, None if item == "?" else item, item != type_name, "nullable" in words, "navigation" in words
    )
