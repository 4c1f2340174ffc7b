"""What the sources of the crates say: public types and calls with their contracts and docs. Read by the pages' scripts.

Sources are read line by line, as `rt fmt` lays them out: an item of a file or of an `impl` starts at column 0 or 4.
"""
import collections
import os
import re
import subprocess

TOP = os.path.dirname(os.path.dirname(os.path.dirname(os.path.realpath(__file__))))
FUNCTION = re.compile(r'( *)(pub )?(?:const )?(?:(?:unsafe )?extern "C" )?fn (\w+)')
CLAUSE = re.compile(r"\s+(requires|ensures|ghost)\*?\s+(?:(\w+):?\s+)?\{")
TYPE = re.compile(r"pub (struct|enum|trait|const|type) (\w+)")
# the `impl` or `trait` around a line: its type and trait, if it has them, and its first line
Block = collections.namedtuple("Block", "owner trait header", defaults=[None] * 3)


def files_below(*folders):
    """The paths of the files that git would keep, from the top."""
    listed = ["git", "-C", TOP, "ls-files", "-z", "--cached", "--others", "--exclude-standard", "--", *folders]
    names = subprocess.run(listed, check=True, stdout=subprocess.PIPE).stdout.decode(errors="surrogateescape")
    return sorted({name for name in names.split("\0") if name and os.path.exists(f"{TOP}/{name}")})


def text_of(path):
    with open(f"{TOP}/{path}", encoding="utf-8") as text:
        return text.read()


class Clause:
    """A clause of a contract: its kind (`requires`, `ensures` or `ghost`), its label if it has one, and its lines."""

    def __init__(self, kind, label, lines):
        self.kind, self.label, self.lines = kind, label, lines


class Function:
    """A function of a crate: its type and trait, if it has them, its name, its doc, its signature and its clauses."""

    def __init__(self, at, owner, trait, name, is_public):
        self.at, self.owner, self.trait, self.name, self.is_public = at, owner, trait, name, is_public
        self.doc, self.signature, self.clauses = [], [], []

    @property
    def labels(self):
        return [it.label for it in self.clauses if it.kind == "ensures" and it.label]

    @property
    def has_plain(self):
        return any(it.kind == "ensures" and not it.label for it in self.clauses)

    @property
    def asks(self):
        return any(it.kind == "requires" for it in self.clauses)

    def is_law(self):
        """A law is a function that changes nothing and returns nothing: its clauses are all that it has."""
        return self.owner is None and not re.search(r"->|&mut|\*mut", "".join(self.signature))


class Given(Function):
    """What an `impl` of a trait gives instead of a clause: a `ghost` of it, as if it were a function."""

    def __init__(self, at, owner, trait, header, clause):
        super().__init__(at, owner, trait, clause.label, False)
        self.header, self.clauses = header, [clause]

    @property
    def labels(self):
        return [self.name]


class Type:
    """A public type, trait or constant: its name, its doc, what it derives and the lines of its declaration."""

    def __init__(self, at, name, doc, derived, lines):
        self.at, self.name, self.doc, self.derived, self.lines = at, name, doc, derived, lines

    def is_trait(self):
        return self.lines[0].startswith("pub trait ")


def end_of_braces(lines, at):
    """The line on which the first brace of a line is closed."""
    depth = 0
    for number in range(at, len(lines)):
        plain = re.sub(r'"(?:\\.|[^"\\])*"', "", lines[number])
        depth += plain.count("{") - plain.count("}")
        if depth == 0:
            return number
    return len(lines) - 1


def signature_at(lines, at):
    """The lines of a signature, without the brace of its body, and the line after them."""
    stop = at
    while not re.search(r" \{\}?$|;$", lines[stop]) and not re.match(r" *(\{|//)", lines[stop + 1]):
        if CLAUSE.match(lines[stop + 1]):
            break
        stop += 1
    last = re.sub(r" \{\}?$|;$", "", lines[stop])
    return [*lines[at:stop], last], stop + 1


def clauses_at(lines, at):
    """The clauses that begin on a line and go on without a break, each with the comment above it."""
    first = at
    while re.match(r" *//", lines[at]) or CLAUSE.match(lines[at]):
        start, stop = CLAUSE.match(lines[at]), at
        if start:
            stop = end_of_braces(lines, at)
            yield Clause(start[1], start[2], [*lines[first:stop], lines[stop].removesuffix(";")])
            first = stop + 1
        at = stop + 1


def above(lines, at):
    """The `///` lines above an item, without their slashes, and the lines of its attributes."""
    stop = at
    while stop and re.search(r"\]$", lines[stop - 1]) and not lines[stop - 1].lstrip().startswith("//"):
        stop -= 1
        while not lines[stop].lstrip().startswith("#["):
            stop -= 1
    start = stop
    while start and lines[start - 1].lstrip().startswith("///"):
        start -= 1
    return [re.sub(r"^ */// ?", "", line) for line in lines[start:stop]], lines[stop:at]


def function_at(path, lines, at, block):
    start = FUNCTION.match(lines[at])
    if not start or len(start[1]) not in (0, 4):
        return None
    owner = block.owner if start[1] else None
    made = Function(f"{path}:{at + 1}", owner, block.trait, start[3], bool(start[2]))
    made.signature, after = signature_at(lines, at)
    made.clauses = list(clauses_at(lines, after))
    made.doc, _ = above(lines, at)
    return made


def given_at(path, lines, at, block):
    """The `ghost` of an `impl` of a trait that stands on a line."""
    given = re.match(r"    ghost (\w+) = ", lines[at])
    if not (given and block.trait and block.owner):
        return None
    clause = Clause("ghost", given[1], lines[at : end_of_braces(lines, at) + 1])
    return Given(f"{path}:{at + 1}", *block, clause)


def functions_of(path):
    """The functions of a source file with their contracts, and what its `impl` blocks give, as if of functions."""
    block = Block()
    lines = text_of(path).split("\n")
    for at, line in enumerate(lines):
        start = re.match(r"(?:pub )?(impl|trait)\b(.*)", line)
        if start:
            trait, owner = names_of_block(*start.groups())
            block = Block(owner, trait, line.removesuffix(" {"))
        elif line == "}":
            block = Block()
        found = function_at(path, lines, at, block) or given_at(path, lines, at, block)
        if found:
            yield found


def names_of_block(word, rest):
    """The trait and the type of a block."""
    plain = re.sub(r"<[^<>]*>", "", re.sub(r"<[^<>]*>", "", re.sub(r"^<[^{]*?> ", " ", rest)))
    if word == "trait":
        return None, re.match(r"\s*(\w+)", plain)[1]
    trait, found, owner = plain.partition(" for ")
    if not found:
        return None, re.match(r"\s*(\w+)", trait)[1]
    of = re.search(r"From<([\w:]+)", rest)
    return re.match(r"\s*([\w:]+)", trait)[1] + (f"({of[1]})" if of else ""), re.match(r"(?:\s|&|'\w+)*([\w:]+)", owner)[1]


def types_of(path):
    """The public types, traits and constants of a source file."""
    lines = text_of(path).split("\n")
    for at, line in enumerate(lines):
        start = TYPE.match(line)
        if start:
            ends = r".*;$" if start[1] in ("const", "type") else r"(\}|\)[^;]*;|pub .*(;|\}))$"
            stop = next(number for number in range(at, len(lines)) if re.match(ends, lines[number]))
            doc, attributes = above(lines, at)
            derived = [line for line in attributes if line.startswith("#[derive(")]
            yield Type(f"{path}:{at + 1}", start[2], doc, derived, lines[at : stop + 1])


class Crate:
    """A crate: its functions, and the names that its root offers."""

    def __init__(self, name, paths):
        self.name = name
        below = [path for path in paths if path.startswith(f"crates/{name}/")]
        self.sources = [path for path in below if path.startswith(f"crates/{name}/src/") and path.endswith(".rt")]
        self.specs = [path for path in below if path.startswith(f"crates/{name}/specs/") and path.endswith(".antt")]
        self.bugs = [path for path in below if re.fullmatch(r"crates/\w+/(must-fail|planted-bugs)/[^/]+\.edit", path)]
        self.functions = [function for path in self.sources for function in functions_of(path)]
        self.aliases, self.passed_on = {}, {}
        self.root = next((it for it in self.sources if it.endswith("/src/lib.rt")), None)
        self.offers = self.offered(self.root, names_in_crate=crate_names(paths)) if self.root else set()

    def offered(self, path, names_in_crate):
        """The names that a file hands out. Those of another crate are in `passed_on` instead."""
        items = r'^pub (?:struct|enum|trait|fn|const fn|unsafe extern "C" fn|const|type) (\w+)'
        offers = set(re.findall(items, text_of(path), re.MULTILINE))
        for use in re.findall(r"^pub use ([^;]+);", text_of(path), re.MULTILINE):
            head, _, tail = use.replace("crate::", "").replace("self::", "").partition("::")
            names = [*filter(None, map(str.strip, re.sub(r"[{}]", " ", tail or head).split(",")))]
            if head in names_in_crate and head != self.name:
                self.passed_on.setdefault(head, []).extend(names)
                continue
            for item in names:
                inner, _, name = item.rpartition("::")
                name, _, alias = name.partition(" as ")
                self.aliases[alias or name] = name
                module = self.file_of(f"{head}::{inner}::{name}")
                offers |= self.offered(module, names_in_crate) if module else {name}
        for module in re.findall(r"^pub mod (\w+);", text_of(path), re.MULTILINE):
            found = self.file_of(module)
            offers |= self.offered(found, names_in_crate) if found else set()
        return offers

    def file_of(self, module):
        wanted = "/".join(part for part in module.split("::") if part)
        return next((it for it in self.sources if it.endswith(f"/src/{wanted}.rt")), None)

    def calls(self):
        """The public calls and laws, the methods of traits among them."""
        for function in self.functions:
            if function.owner is None and function.is_public and function.name in self.offers:
                yield function
            elif function.owner in self.offers and function.trait is None:
                if function.is_public or self.is_trait(function.owner):
                    yield function
            elif function.owner in self.offers and function.labels == ["from_gives"]:
                yield function

    def types(self):
        """The public types, traits and constants, in the order of the files."""
        return [it for path in self.sources for it in types_of(path) if it.name in self.offers]

    def methods(self, owner):
        """The public methods of a type, and those of its traits that have clauses of their own."""
        for function in self.functions:
            if function.owner == owner and not isinstance(function, Given):
                is_open = function.is_public or self.is_trait(owner)
                if function.clauses if function.trait else is_open:
                    yield function

    def given(self, owner):
        """What the type gives for the traits that it has."""
        return [it for it in self.functions if isinstance(it, Given) and it.owner == owner]

    def public_name(self, item):
        """The name under which the root offers a type or a call: another one, or one after a public module."""
        if item.name in self.aliases.values():
            return next(alias for alias, inner in self.aliases.items() if inner == item.name)
        module = re.search(r"(\w+)\.rt:", item.at)[1]
        is_open = re.search(rf"^pub mod {module};", text_of(self.root), re.MULTILINE)
        is_of_c = isinstance(item, Function) and 'extern "C"' in item.signature[0]
        return f"{module}::{item.name}" if is_open and not is_of_c else item.name

    def is_trait(self, name):
        return any(re.search(rf"^pub trait {name}\b", text_of(path), re.MULTILINE) for path in self.sources)

    def named(self, owner, name):
        """The functions of that name, of that type or of none."""
        of = re.fullmatch(r"from\((.*)\)", name)
        owner = self.aliases.get(owner, owner)
        for function in self.functions:
            if of and function.owner == owner and function.trait == f"From({of[1]})":
                yield function
            elif function.name == name and (function.owner == owner or owner is None):
                yield function


def crate_names(paths):
    return {path.split("/")[1] for path in paths if re.fullmatch(r"crates/\w+/src/(lib|main)\.rt", path)}


def crates_of(paths):
    return {name: Crate(name, paths) for name in sorted(crate_names(paths))}


def order_of(crates):
    """The crates in the order of crates.txt."""
    order = re.findall(r"^(\w+)[^:#\n]*:", text_of("crates.txt"), re.MULTILINE)
    return [name for name in order if name in crates]
