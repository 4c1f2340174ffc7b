"""Tables that keep rows of OData: a column for each property, or one of JSON for the row (docs/SQL.md)."""
import json

NUMBERS = {"Edm.Byte": "smallint", "Edm.SByte": "smallint", "Edm.Int16": "smallint", "Edm.Int32": "integer"}
NUMBERS |= {"Edm.Int64": "bigint"}
POSTGRES = {**NUMBERS, "Edm.Boolean": "boolean", "Edm.String": "text", "Edm.Date": "date"}
POSTGRES |= {"Edm.DateTimeOffset": "text", "Edm.Guid": "uuid"}


class Document:
    """A schema document, as far as tables need it."""

    def __init__(self, document):
        self.types = {}
        spaces = {name: it for name, it in document.items() if not name.startswith("$") and "@" not in name}
        aliases = {it["$Alias"]: name for name, it in spaces.items() if "$Alias" in it}
        self.aliases = aliases
        for space, members in spaces.items():
            for name, it in members.items():
                if isinstance(it, dict) and "$Kind" in it and not name.startswith("$") and "@" not in name:
                    self.types[f"{space}.{name}"] = it

    def names(self, name):
        """The qualified name of a type that may go by its namespace's alias."""
        front, _, last = name.rpartition(".")
        return f"{self.aliases.get(front, front)}.{last}"

    def slots(self, name):
        """The properties of a type: those of its base first, then its own in byte order of names."""
        declared = self.types[self.names(name)]
        base = self.slots(declared["$BaseType"]) if "$BaseType" in declared else []
        own = [(it, declared[it]) for it in declared if not it.startswith("$") and "@" not in it]
        return base + sorted(own, key=lambda item: item[0].encode())

    def kind(self, declared):
        """The name of the primitive type of a property, an enumeration, or None where it is kept as JSON."""
        if declared.get("$Collection") or declared.get("$Kind") == "NavigationProperty":
            return None
        name = declared.get("$Type", "Edm.String")
        if name in POSTGRES:
            return name
        found = self.types.get(self.names(name), {})
        if found.get("$Kind") == "TypeDefinition":
            return found["$UnderlyingType"] if found["$UnderlyingType"] in POSTGRES else None
        return found if found.get("$Kind") == "EnumType" else None


def number_of(enumeration, text):
    """The number for which a text of an enumeration stands."""
    if text is None:
        return None
    joined = 0
    for piece in text.split(","):
        piece = piece.strip(" ")
        joined |= enumeration[piece] if piece in enumeration and not piece.startswith("$") else int(piece)
    return joined


def normal(row):
    """A row's JSON without doubled and escaped names, as it is stored."""
    return json.dumps(json.loads(row), ensure_ascii=False, separators=(",", ":"))


def kept(kind, value, dialect):
    """A property's value as a column has it."""
    if kind is None:
        return None if value is None else json.dumps(value, ensure_ascii=False, separators=(",", ":"))
    if isinstance(kind, dict):
        return number_of(kind, value)
    if kind == "Edm.Boolean" and value is not None:
        return int(value) if dialect == "sqlite" else ("true" if value else "false")
    if kind == "Edm.Guid" and value is not None:
        return value.lower()
    return value


def column_type(kind, dialect):
    if kind is None:
        return "jsonb" if dialect == "postgresql" else "TEXT"
    if isinstance(kind, dict):
        return "bigint" if dialect == "postgresql" else "INTEGER"
    if dialect == "postgresql":
        return POSTGRES[kind]
    return "INTEGER" if kind in NUMBERS or kind == "Edm.Boolean" else "TEXT"


def columns_of(document, name):
    """The names of the columns, by their properties."""
    return {it: f"c{slot}" for slot, (it, _) in enumerate(document.slots(name))}


def load(engine, dialect, document, name, rows, table="rows", store=normal, first=0):
    """Tables `TABLE_columns` and `TABLE_document` with the rows, numbered in `id`; `store` writes a row's JSON."""
    load_columns(engine, dialect, document, name, map(store, rows), table, first)
    engine.rows(f"DROP TABLE IF EXISTS {table}_document")
    engine.rows(f"CREATE TABLE {table}_document (id integer, doc {column_type(None, dialect)})")
    for number, row in enumerate(rows, first):
        engine.rows(f"INSERT INTO {table}_document VALUES ({marks(dialect, 2)})", [number, store(row)])


def load_columns(engine, dialect, document, name, texts, table="rows", first=0):
    """The first of these tables alone."""
    slots = [(it, document.kind(declared)) for it, declared in document.slots(name)]
    columns = [f'"c{slot}" {column_type(kind, dialect)}' for slot, (_, kind) in enumerate(slots)]
    engine.rows(f"DROP TABLE IF EXISTS {table}_columns")
    engine.rows(f"CREATE TABLE {table}_columns ({', '.join(['id integer', *columns])})")
    insert = f"INSERT INTO {table}_columns VALUES ({marks(dialect, 1 + len(slots))})"
    for number, text in enumerate(texts, first):
        held = json.loads(text)
        engine.rows(insert, [number, *(kept(kind, held.get(it), dialect) for it, kind in slots)])


def marks(dialect, count):
    return ", ".join(f"${number}" if dialect == "postgresql" else f"?{number}" for number in range(1, count + 1))
