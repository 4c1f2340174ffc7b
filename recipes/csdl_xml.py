"""What the metadata of a service in CSDL XML declares, as CSDL JSON has it: for csdl_json.py, which says how they differ.

Of the document only the elements that are open are held, so it takes the memory of what it declares.
"""
import re
import unicodedata
from xml.parsers import expat

EDM, EDMX = "http://docs.oasis-open.org/odata/ns/edm", "http://docs.oasis-open.org/odata/ns/edmx"
VERSIONS = ("4.0", "4.01")
# what is passed over with all that stands in it
LEFT_OUT = {"Annotation", "Annotations", "Term", "Action", "Function", "EntityContainer", "Reference"}
EDMX_NAMES = {"Edmx", "DataServices", "Reference"}
# the elements that may stand in an element of a type
INNER = {
    "EntityType": {"Key", "Property", "NavigationProperty"},
    "ComplexType": {"Property", "NavigationProperty"},
    "EnumType": {"Member"},
    "TypeDefinition": set(),
}
# the types of whole numbers, each with the numbers that it has
WHOLE_TYPES = {f"Edm.Int{bits}": range(-(1 << bits - 1), 1 << bits - 1) for bits in (16, 32, 64)}
WHOLE_TYPES |= {"Edm.Byte": range(256), "Edm.SByte": range(-128, 128)}
TAG_LIMIT = 1 << 18  # bytes of one tag, comment or the like
DEPTH_LIMIT = 100  # elements in one another
WHOLE = "[+-]?[0-9]{1,19}"
TRUTH = {"true": True, "1": True, "false": False, "0": False}
# the categories of an identifier's characters
LATER = {"L", "Nl", "Nd", "Mn", "Mc", "Pc", "Cf"}


class Refused(Exception):
    """Why a document is refused, in one line."""


def shown(name):
    """A name of a document as a message shows it: printable, and not long."""
    text = "".join(it if it.isprintable() else "\N{REPLACEMENT CHARACTER}" for it in name[:121])
    return text if len(text) <= 120 else f"{text[:117]}..."


class Element:
    """An element of XML that is open: its name, its attributes without those of other namespaces, and what it makes.

    Of an enumeration also how many members it has had, and whether they have values.
    """

    __slots__ = ("name", "space", "line", "attributes", "made", "count", "has_values")

    def __init__(self, name, space, words, line):
        self.name, self.space, self.line, self.made, self.count = name, space, line, None, 0
        self.attributes = {key: value for key, value in zip(words[::2], words[1::2]) if " " not in key}

    def fault(self, text):
        return Refused(f"line {self.line}: {text}")

    def get(self, name):
        if name not in self.attributes:
            raise self.fault(f"{self.name} without {name}")
        return self.attributes[name]

    def truth(self, name, default):
        value = self.attributes.get(name)
        if value is None:
            return default
        if value not in TRUTH:
            raise self.fault(f"{name} is neither true nor false: {shown(value)}")
        return TRUTH[value]

    def whole(self, name):
        value = self.attributes[name]
        if not re.fullmatch(WHOLE, value):
            raise self.fault(f"{name} is no whole number: {shown(value)}")
        return int(value)


class Reader:
    """Hands each element of OData's two namespaces to a document as it begins, and none of what is left out."""

    def __init__(self, document):
        self.document, self.open, self.depth, self.skipped = document, [], 0, None
        # without a table of names, which would hold each that the document has
        self.parser = parser = expat.ParserCreate(None, " ", None)
        parser.ordered_attributes = True
        parser.StartElementHandler, parser.EndElementHandler = self.start, self.end
        # It comes at the declaration's first words, so before what is declared in it.
        parser.StartDoctypeDeclHandler = parser.EntityDeclHandler = parser.ExternalEntityRefHandler = self.refuse
        parser.SetParamEntityParsing(expat.XML_PARAM_ENTITY_PARSING_NEVER)

    def fault(self, text):
        return Refused(f"line {self.parser.CurrentLineNumber}: {text}")

    def refuse(self, *_):
        raise self.fault("a document type declaration or an entity")

    def start(self, name, words):
        self.depth += 1
        if self.depth > DEPTH_LIMIT:
            raise self.fault(f"more than {DEPTH_LIMIT} elements in one another")
        if self.skipped is not None:
            return
        space, _, local = name.rpartition(" ")
        # a schema of another namespace is refused, so that none is lost without a word
        is_ours = space == (EDMX if local in EDMX_NAMES else EDM) or (local == "Schema" and self.depth == 3)
        if self.depth == 1 or is_ours and local not in LEFT_OUT:
            element = Element(local, space, words, self.parser.CurrentLineNumber)
            if self.document.begin(element, self.open):
                self.open.append(element)
                return
        self.skipped = self.depth

    def end(self, _):
        if self.skipped is None:
            self.open.pop()
        elif self.skipped == self.depth:
            self.skipped = None
        self.depth -= 1

    def read(self, data):
        """Reads a document. A tag or a comment is refused where it is long, since the parser holds it whole."""
        try:
            for begin in range(0, len(data), TAG_LIMIT):
                self.parser.Parse(data[begin : begin + TAG_LIMIT], False)
                if 0 <= self.parser.CurrentByteIndex < begin:
                    raise self.fault(f"a tag or a comment of more than {TAG_LIMIT:,} bytes")
            self.parser.Parse(b"", True)
        except expat.ExpatError as fault:
            raise Refused(f"line {fault.lineno}: no XML: {expat.ErrorString(fault.code)}") from fault
        except (LookupError, ValueError) as fault:
            if self.depth > 0:
                raise
            raise Refused("no XML: its encoding is not known") from fault


def is_identifier(name):
    """Whether a name is an identifier of OData."""
    kinds = (category if category in LATER else category[0] for category in map(unicodedata.category, name))
    first = next(kinds, None)
    return (name[:1] == "_" or first in ("L", "Nl")) and all(kind in LATER for kind in kinds)


def add(members, name, value, element):
    """Adds a member whose name is an identifier and comes once."""
    if not is_identifier(name):
        raise element.fault(f"the name of {element.name} is no identifier: {shown(name)}")
    if name in members:
        raise element.fault(f"{element.name} {shown(name)} stands twice")
    members[name] = value


def facets_of(element, type_name):
    facets = {}
    for name in ("MaxLength", "Precision", "Scale"):
        word = element.attributes.get(name, "").lower()
        if name == "Scale" and word in ("variable", "floating"):
            facets["$Scale"] = word
        elif name in element.attributes and (name, word) != ("MaxLength", "max"):
            facets[f"${name}"] = element.whole(name)
    if type_name == "Edm.Decimal" and element.name == "Property":
        facets.setdefault("$Scale", 0)
    if not element.truth("Unicode", True):
        facets["$Unicode"] = False
    if "SRID" in element.attributes:
        facets["$SRID"] = element.attributes["SRID"]
    return facets


def default_of(text, type_name):
    """The default value of a property as JSON has it; one that does not fit the type stays a text."""
    if type_name == "Edm.Boolean":
        return TRUTH.get(text, text)
    return int(text) if type_name in WHOLE_TYPES and re.fullmatch(WHOLE, text) else text


def type_of(element):
    """The type of a property, and whether it is a collection of it."""
    text = element.get("Type")
    found = re.fullmatch(r"Collection\((.*)\)", text, re.DOTALL)
    name = found[1] if found else text
    if not all(map(is_identifier, name.split("."))) or "." not in name:
        raise element.fault(f"this is no type: {shown(text)}")
    return name, found is not None


def property_of(element):
    """A property as JSON has it, where it may be null only if it says so."""
    name, is_collection = type_of(element)
    made = {} if name == "Edm.String" else {"$Type": name}
    if is_collection:
        made["$Collection"] = True
    if element.truth("Nullable", True):
        made["$Nullable"] = True
    made.update(facets_of(element, name))
    if "DefaultValue" in element.attributes:
        made["$DefaultValue"] = default_of(element.attributes["DefaultValue"], name)
    return made


def navigation_of(element):
    """A navigation property as JSON has it, without what stands in it."""
    name, is_collection = type_of(element)
    made = {"$Kind": "NavigationProperty", "$Type": name}
    if is_collection:
        made["$Collection"] = True
    elif element.truth("Nullable", True):
        made["$Nullable"] = True
    if "Partner" in element.attributes:
        made["$Partner"] = element.attributes["Partner"]
    if element.truth("ContainsTarget", False):
        made["$ContainsTarget"] = True
    return made


def structured_of(element):
    """An entity type or a complex type as JSON has it, without its members."""
    made = {"$Kind": element.name}
    made.update({"$BaseType": it for key, it in element.attributes.items() if key == "BaseType"})
    made.update({f"${name}": True for name in ("Abstract", "OpenType", "HasStream") if element.truth(name, False)})
    return made


def enumeration_of(element):
    """An enumeration as JSON has it, without its members."""
    made = {"$Kind": "EnumType"}
    underlying = element.attributes.get("UnderlyingType", "Edm.Int32")
    if underlying != "Edm.Int32":
        made["$UnderlyingType"] = underlying
    if element.truth("IsFlags", False):
        made["$IsFlags"] = True
    if underlying not in WHOLE_TYPES:
        raise element.fault(f"an enumeration over {shown(underlying)}, which is no type of whole numbers")
    return made


def definition_of(element):
    name = element.get("UnderlyingType")
    return {"$Kind": "TypeDefinition", "$UnderlyingType": name, **facets_of(element, name)}


MAKERS = {"EnumType": enumeration_of, "TypeDefinition": definition_of}


def value_of(enumeration, element):
    """The value of a member of an enumeration, in which either all members have one or they count from 0."""
    has_value, is_flags = "Value" in element.attributes, "$IsFlags" in enumeration.made
    if enumeration.count == 0:
        enumeration.has_values = has_value
    if has_value != enumeration.has_values or is_flags and not has_value:
        rule = "flags have" if is_flags else "either all members have or none has"
        raise enumeration.fault(f"an enumeration with a member without Value: {rule} one")
    value = element.whole("Value") if has_value else enumeration.count
    enumeration.count += 1
    underlying = enumeration.made.get("$UnderlyingType", "Edm.Int32")
    if value not in WHOLE_TYPES[underlying]:
        raise element.fault(f"{value} is not within {underlying}")
    return value


class Document:
    """What a document declares: its version, and of each namespace its alias and its types.

    A type has a name of two parts, its namespace and its own name, so that a long namespace is held once.
    """

    def __init__(self, data):
        self.root, self.services, self.aliases, self.namespaces, self.types = None, 0, {}, {}, {}
        self.takes = [self.take_root, self.take_services, self.take_schema, self.take_type, self.take_member]
        Reader(self).read(data)
        self.version = version_of(self.root)
        if self.services != 1:
            raise self.root.fault(f"DataServices stands {self.services} times, not once")
        for alias, (namespace, line) in self.aliases.items():
            if alias in self.namespaces:
                raise Refused(f"line {line}: the alias {shown(alias)} of {shown(namespace)} is a namespace")

    def begin(self, element, around):
        """Takes an element that stands in those around it; whether it takes what stands in the element too."""
        if len(around) < len(self.takes):
            return self.takes[len(around)](element, *around[-1:])
        self.take_part(element, around[-1])
        return False

    def take_root(self, root):
        self.root = root
        return True

    def take_services(self, element, _):
        self.services += element.name == "DataServices"
        return element.name == "DataServices"

    def take_schema(self, schema, _):
        if (schema.name, schema.space) != ("Schema", EDM):
            raise schema.fault(f"{shown(schema.name)} of {shown(schema.space)} in DataServices, not Schema of {EDM}")
        namespace, alias = schema.get("Namespace"), schema.attributes.get("Alias")
        if not all(map(is_identifier, namespace.split("."))):
            raise schema.fault(f"the namespace of a schema is no dotted name: {shown(namespace)}")
        if namespace in self.namespaces:
            raise schema.fault(f"the namespace {shown(namespace)} stands twice")
        if alias is not None:
            add(self.aliases, alias, (namespace, schema.line), schema)
        self.namespaces[namespace], schema.made = alias, {}
        self.types[namespace] = schema.made
        return True

    def take_type(self, element, schema):
        if element.name in INNER:
            element.made = MAKERS.get(element.name, structured_of)(element)
            add(schema.made, element.get("Name"), element.made, element)
        return element.name in INNER

    def take_member(self, element, of_type):
        if element.name not in INNER[of_type.name]:
            raise element.fault(f"an element {shown(element.name)} in {of_type.name}")
        if element.name == "Key":
            if "$Key" in of_type.made:
                raise element.fault("Key stands twice")
            element.made = of_type.made["$Key"] = []
        elif element.name == "NavigationProperty":
            element.made = navigation_of(element)
            add(of_type.made, element.get("Name"), element.made, element)
        else:
            value = property_of(element) if element.name == "Property" else value_of(of_type, element)
            add(of_type.made, element.get("Name"), value, element)
        return element.made is not None

    def take_part(self, element, member):
        """Takes what stands in a key or in a navigation property."""
        if member.name == "Key":
            name, alias = element.get("Name"), element.attributes.get("Alias")
            member.made.append(name if alias is None else {alias: name})
        elif element.name == "ReferentialConstraint":
            ends = member.made.setdefault("$ReferentialConstraint", {})
            ends[element.get("Property")] = element.get("ReferencedProperty")
        elif element.name == "OnDelete":
            member.made["$OnDelete"] = element.get("Action")


def version_of(root):
    space, version = root.space, root.attributes.get("Version", "")
    if root.name == "Edmx" and space.startswith("http://schemas.microsoft.com/"):
        raise root.fault("metadata of OData 2 or 3; odfilter reads OData 4.0 and 4.01")
    if (root.name, space) != ("Edmx", EDMX):
        raise root.fault(f"no metadata of OData: its first element is {shown(root.name)}")
    if version not in VERSIONS:
        raise root.fault(f"the version is {shown(version)}, not 4.0 or 4.01")
    return version
