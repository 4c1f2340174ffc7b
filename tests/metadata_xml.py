"""Metadata for tests/metadata: CSDL XML written of a schema in CSDL JSON, and drawn schemas.

`written(schema, draw)` spells one document of many: prefixes, quotes, comments, annotations, encodings, the order of
attributes, and what the format lets one leave out, as `draw` (a random.Random) has it. `drawn(draw)` is a schema as
recipes/csdl_json.py writes one.
"""
from xml.sax.saxutils import escape

EDM, EDMX = "http://docs.oasis-open.org/odata/ns/edm", "http://docs.oasis-open.org/odata/ns/edmx"
NUMBERS = {"Edm.Byte": (0, 255), "Edm.SByte": (-128, 127), "Edm.Int16": (-(1 << 15), (1 << 15) - 1)}
NUMBERS |= {"Edm.Int32": (-(1 << 31), (1 << 31) - 1), "Edm.Int64": (-(1 << 63), (1 << 63) - 1)}
PRIMITIVES = [*NUMBERS, "Edm.String", "Edm.Boolean", "Edm.Date", "Edm.DateTimeOffset", "Edm.Guid"]
LEFT_OUT = ["Edm.Decimal", "Edm.Double", "Edm.Duration", "Edm.GeographyPoint", "Edm.Stream", "Elsewhere.Thing"]
FRONTS = ["A", "b_", "_", "Zeile", "\u00c9tage", "\u540d", "\u0434\u043e\u043c"]
NOTES = ["", "<!-- a note -->", '<{p}Annotation Term="Core.Description" String="&lt;b&gt;"/>', "<?note here?>"]
NOTES += ['<{p}Annotation Term="X.Y"><{p}Collection><{p}Record/></{p}Collection></{p}Annotation>']


def truth(value):
    return "true" if value else "false"


class Writer:
    """Spells a document; without a draw it is the plainest one."""

    def __init__(self, draw=None):
        self.draw, self.prefix = draw, "e:" if draw and draw.random() < 0.3 else ""

    def chance(self, part):
        return self.draw is not None and self.draw.random() < part

    def element(self, name, attributes, inner=""):
        pairs = [(key, value) for key, value in attributes.items() if value is not None]
        if self.draw:
            self.draw.shuffle(pairs)
        words = "".join(f" {key}={self.quoted(str(value))}" for key, value in pairs)
        start = f"<{self.prefix}{name}{words}"
        if not inner and not self.chance(0.3):
            return f"{start}/>\n"
        return f"{start}>{self.note()}{inner}{self.note()}</{self.prefix}{name}>\n"

    def quoted(self, text):
        text = escape(text, {'"': "&quot;", "'": "&apos;"})
        if text and self.chance(0.1):
            text = f"&#{ord(text[0])};{text[1:]}" if text[0] != "&" else text
        return f"'{text}'" if self.chance(0.3) else f'"{text}"'

    def note(self):
        return self.draw.choice(NOTES).replace("{p}", self.prefix) if self.chance(0.3) else ""

    def nullable(self, made):
        """The attribute, which may be left out where that stands for the same."""
        is_navigation, is_many = made.get("$Kind") == "NavigationProperty", made.get("$Collection", False)
        if is_navigation and is_many or made.get("$Nullable") and self.chance(0.6):
            return None
        return truth(made.get("$Nullable", False))

    def property(self, name, made):
        kind = made.get("$Type", "Edm.String")
        attributes = {"Name": name, "Type": f"Collection({kind})" if made.get("$Collection") else kind}
        attributes["Nullable"] = self.nullable(made)
        for facet in ("MaxLength", "Precision", "SRID", "Partner"):
            attributes[facet] = made.get(f"${facet}")
        if kind == "Edm.Decimal" and made.get("$Scale", "variable") != 0:
            attributes["Scale"] = made.get("$Scale", "variable")
        attributes["Unicode"] = None if made.get("$Unicode", True) else "false"
        attributes["ContainsTarget"] = "true" if made.get("$ContainsTarget") else None
        if "$DefaultValue" in made:
            value = made["$DefaultValue"]
            attributes["DefaultValue"] = truth(value) if isinstance(value, bool) else value
        return self.element(made.get("$Kind", "Property"), attributes)

    def structured(self, name, made):
        attributes = {"Name": name, "BaseType": made.get("$BaseType")}
        attributes |= {key: "true" for key in ("Abstract", "OpenType", "HasStream") if made.get(f"${key}")}
        refs = "".join(self.element("PropertyRef", {"Name": it}) for it in made.get("$Key", []))
        parts = [self.element("Key", {}, refs)] if refs else []
        parts += [self.property(it, value) for it, value in made.items() if it[0] != "$"]
        return self.element(made["$Kind"], attributes, "".join(parts))

    def enumeration(self, name, made):
        members = {it: value for it, value in made.items() if it[0] != "$"}
        flags = "true" if made.get("$IsFlags") else None
        attributes = {"Name": name, "UnderlyingType": made.get("$UnderlyingType"), "IsFlags": flags}
        is_counted = [*members.values()] == [*range(len(members))] and not flags and self.chance(0.7)
        values = {it: None if is_counted else value for it, value in members.items()}
        inner = "".join(self.element("Member", {"Name": it, "Value": value}) for it, value in values.items())
        return self.element("EnumType", attributes, inner)

    def type(self, name, made):
        if made["$Kind"] == "EnumType":
            return self.enumeration(name, made)
        if made["$Kind"] == "TypeDefinition":
            attributes = {"Name": name, **{key[1:]: value for key, value in made.items() if key != "$Kind"}}
            return self.element("TypeDefinition", attributes)
        return self.structured(name, made)

    def schema(self, namespace, schema):
        types = [self.type(name, made) for name, made in schema.items() if name[0] != "$"]
        if self.chance(0.3):
            types.append(self.element("EntityContainer", {"Name": "C"}, self.element("EntitySet", {"Name": "S"})))
        attributes = {"Namespace": namespace, "Alias": schema.get("$Alias")}
        attributes["xmlns:e" if self.prefix else "xmlns"] = EDM
        return self.element("Schema", attributes, "".join(types))

    def document(self, schema):
        schemas = "".join(self.schema(name, it) for name, it in schema.items() if name[0] != "$")
        services = f"<x:DataServices>{schemas}</x:DataServices>"
        return f'<x:Edmx xmlns:x="{EDMX}" Version="{schema["$Version"]}">\n{services}\n</x:Edmx>\n'


def written(schema, draw=None):
    """The bytes of a document of XML that stands for a schema."""
    encoding = draw.choice(["utf-8", "utf-8", "utf-16", "iso-8859-1"]) if draw else "utf-8"
    text = Writer(draw).document(schema)
    try:
        return f'<?xml version="1.0" encoding="{encoding}"?>\n{text}'.encode(encoding)
    except UnicodeEncodeError:
        return text.encode()


class Drawer:
    """Draws a schema with some namespaces, and types of each kind that lead to one another."""

    def __init__(self, draw):
        self.draw, self.schema = draw, {"$Version": draw.choice(["4.0", "4.01"])}
        self.names = {"EntityType": [], "ComplexType": [], "EnumType": [], "TypeDefinition": []}

    def fresh(self, taken):
        while True:
            name = self.draw.choice(FRONTS) + self.draw.choice(["", "x", "Name", "_1", "\u00fc"])
            name += str(len(taken)) if name in taken else ""
            if name not in taken:
                return name

    def drawn(self):
        for number in range(self.draw.randint(1, 3)):
            alias = {"$Alias": f"{self.draw.choice(FRONTS)}{number}"} if self.draw.random() < 0.6 else {}
            self.schema[f"N{number}.{self.draw.choice(FRONTS)}"] = alias
        places = [(namespace, kind) for namespace in [*self.schema][1:] for kind in self.names]
        for namespace, kind in [*places, *self.draw.choices(places, k=self.draw.randint(0, 12))]:
            name = self.fresh(self.schema[namespace])
            self.schema[namespace][name] = {"$Kind": kind}
            self.names[kind].append((namespace, name))
        for kind, fill in (("TypeDefinition", self.define), ("EnumType", self.enumerate), ("", self.structure)):
            for namespace, name in self.names.get(kind) or self.names["ComplexType"] + self.names["EntityType"]:
                fill(self.schema[namespace][name], (namespace, name))
        return self.schema

    def named(self, namespace, name):
        alias = self.schema[namespace].get("$Alias")
        return f"{alias if alias and self.draw.random() < 0.5 else namespace}.{name}"

    def define(self, made, _):
        made["$UnderlyingType"] = self.draw.choice(PRIMITIVES + ["Edm.Duration"])

    def enumerate(self, made, _):
        kind = self.draw.choice([*NUMBERS])
        if kind != "Edm.Int32":
            made["$UnderlyingType"] = kind
        if self.draw.random() < 0.4:
            made["$IsFlags"] = True
        is_counted = self.draw.random() < 0.5
        for number in range(self.draw.randint(0, 5)):
            value = number if is_counted else self.draw.choice([*NUMBERS[kind], self.draw.randint(*NUMBERS[kind])])
            made[self.fresh(made)] = value

    def structure(self, made, at):
        kinds = self.names[made["$Kind"]]
        before = kinds[: kinds.index(at)]
        if before and self.draw.random() < 0.4:
            made["$BaseType"] = self.named(*self.draw.choice(before))
        for name in ("Abstract", "OpenType"):
            if self.draw.random() < 0.2:
                made[f"${name}"] = True
        for _ in range(self.draw.randint(1, 7)):
            # unlike those of any base
            name = f"{self.fresh(made)}{kinds.index(at)}{made['$Kind'][0]}"
            is_navigation = self.draw.random() < 0.25
            made[name] = self.navigation() if is_navigation else self.property()

    def kind(self):
        inner = [self.named(*it) for kind in ("ComplexType", "EnumType", "TypeDefinition") for it in self.names[kind]]
        return self.draw.choice([self.draw.choice(PRIMITIVES), self.draw.choice(inner), self.draw.choice(LEFT_OUT)])

    def property(self):
        kind = self.kind()
        made = {} if kind == "Edm.String" else {"$Type": kind}
        made |= {name: True for name in ("$Collection", "$Nullable") if self.draw.random() < 0.4}
        if kind == "Edm.String" and self.draw.random() < 0.5:
            made["$MaxLength"] = self.draw.randint(1, 4000)
        if kind in ("Edm.Decimal", "Edm.DateTimeOffset") and self.draw.random() < 0.5:
            made["$Precision"] = self.draw.randint(1, 12)
        if kind == "Edm.Decimal":
            made["$Scale"] = self.draw.choice([0, 2, "variable", "floating"])
        if self.draw.random() < 0.1:
            made["$Unicode"] = False
        if kind in NUMBERS and "$Collection" not in made and self.draw.random() < 0.3:
            made["$DefaultValue"] = self.draw.randint(*NUMBERS[kind])
        return made

    def navigation(self):
        made = {"$Kind": "NavigationProperty", "$Type": self.named(*self.draw.choice(self.names["EntityType"]))}
        if self.draw.random() < 0.5:
            made["$Collection"] = True
        elif self.draw.random() < 0.5:
            made["$Nullable"] = True
        if self.draw.random() < 0.2:
            made["$ContainsTarget"] = True
        return made


def drawn(draw):
    return Drawer(draw).drawn()
