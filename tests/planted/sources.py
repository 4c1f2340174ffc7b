"""The functions of a crate's sources: where each stands, and under which name a check reports it.

Sources are read line by line, as `rt fmt` lays them out: an item of a file or of an `impl` starts at column 0 or 4.
"""
import os
import re

FUNCTION = re.compile(r'( *)(?:pub(?:\([\w: ]+\))? )?(?:const )?(?:unsafe )?(?:extern "C" )?fn (\w+)')
BLOCK = re.compile(r"(?:pub(?:\([\w: ]+\))? )?(?:unsafe )?(impl|trait)\b(.*)")
CONSTANT = re.compile(r"( *)(?:pub(?:\([\w: ]+\))? )?(?:const|static) (\w+)\b")
TYPE = re.compile(r"^(?:pub(?:\([\w: ]+\))? )?(?:struct|enum) (\w+)", re.MULTILINE)
CYCLE = re.compile(r"#\[cycle\((\w+)\)\]")
CLAUSE = re.compile(r"\s+(?:requires|ensures|ghost)\b")
# of a file of proofs the name that a part of it makes, and each name that stands in it
HEAD = re.compile(r"^(?:abbrev )?(?:pub )?(?!use |module |open )([^\s:]\S*) :", re.MULTILINE)
NAME = re.compile(r"(?<![\w.:+-])(?:goal\.)?([^\s(){}\[\],;.]+)")
# what a text names of a crate's proofs
PROOFS = re.compile(r"\bRattle\.\w+\.proofs\.([^\s{]+)|\bcrate::proofs::([\w:+]+)")
# what the prover reads of a function's proof in its folder
PARTS = ("Answers.antt", "Invariants.antt", "Proof.antt")


def text_of(path):
    with open(path, encoding="utf-8") as text:
        return text.read()


class Function:
    """A function: its file, the name that a check reports, its lines from its attributes on, and those of its body."""

    def __init__(self, path, name, lines, body, cycle):
        self.path, self.name, self.lines, self.body, self.cycle = path, name, lines, body, cycle
        # the other functions of its cycle
        self.beside = []

    @property
    def short(self):
        return self.name.rpartition("::")[2]

    @property
    def module(self):
        return module_of(self.path)

    def key(self):
        """What two bugs of one check may not share. The functions of a cycle have one proof, but goals of their own."""
        return (self.path, self.name)

    def proof_folders(self):
        """The folders in which its proof may stand: a function that calls itself is a cycle of its own."""
        outer, _, short = f"proofs/{self.name}".replace("::", "/").rpartition("/")
        return f"{outer}/{short}", f"{outer}/+{short}"

    def is_answer(self, path):
        """Whether a file of proofs answers goals of this function or of its cycle."""
        folder, _, file = path.rpartition("/")
        if file not in PARTS:
            return False
        if self.cycle:
            return folder == "proofs" or folder.startswith("proofs/") and folder.endswith(f"/+{self.cycle}")
        return folder in self.proof_folders()

    def has_goal(self, goal):
        """Whether a goal of its proof is its own: in a cycle of several functions a goal begins with one's name."""
        return not self.beside or f"::{self.name}".endswith(f"::{goal.partition('-')[0]}")

    def has_part(self, name):
        """Whether what a file of proofs has under a name is its own, in a cycle of several functions."""
        return self.has_goal(re.sub(r"^(decreases|invariant)-", "", name))


def home_of(functions):
    """The words that the paths of functions have in common, but for their own names."""
    return os.path.commonprefix([it.name.split("::")[:-1] for it in functions])


def module_of(path):
    inner = path.removeprefix("src/").removesuffix(".rt").removesuffix("/mod")
    return "" if inner in ("lib", "main") else inner.replace("/", "::")


def words_of(text, parameters=()):
    """A type or a trait in one word: of each path the last segment, without lifetimes and parameters of the block."""
    marked = re.sub(r"'\w+", "", text).replace("&", " Ref ").replace("[", " Slice ")
    words = re.findall(r"\w+(?!\w*::)", marked)
    return "".join(it[0].upper() + it[1:] for it in words if it not in parameters)


def listed(text):
    """The parts of a list, between the commas that no bracket holds."""
    parts, depth, start = [], 0, 0
    for at, letter in enumerate(text):
        depth += letter in "(<[{"
        depth -= letter in ")]}" or letter == ">" and text[at - 1] != "-"
        if letter == "," and depth == 0:
            parts.append(text[start:at].strip())
            start = at + 1
    return [it for it in [*parts, text[start:].strip()] if it]


def parameters_of(rest):
    """The parameters of a block or of a function by their names, but for lifetimes, and what follows them."""
    depth = 0
    for at, letter in enumerate(rest if rest.startswith("<") else ""):
        depth += (letter == "<") - (letter == ">" and rest[at - 1] != "-")
        if depth == 0:
            names = [re.match(r"(?:const )?(\w+)", it) for it in listed(rest[1:at])]
            return [it[1] for it in names if it], rest[at + 1 :]
    return [], rest


def name_of_block(word, rest):
    """The type of a block and its trait, in one word as a check has it."""
    parameters, rest = parameters_of(rest)
    rest = rest.partition("{")[0].partition(" where ")[0].strip()
    if word == "trait":
        return re.match(r"\w+", rest)[0]
    trait, found, owner = rest.partition(" for ")
    owner, trait = (owner, trait) if found else (trait, "")
    return words_of(re.sub(r"<.*", "", owner)) + words_of(trait, parameters)


def end_of(lines, start, indent):
    """The last line of a function: with its closing brace, or the semicolon of one that has no body."""
    for number in range(start, len(lines)):
        is_last = lines[number] in (f"{indent}}}", f"{indent}{{}}")
        is_last = lines[number].endswith((";", "{}")) if number == start else is_last
        if is_last or CLAUSE.match(lines[number]) and lines[number].endswith((";", "} {}")):
            return number
    return len(lines) - 1


def body_of(lines, start, end, indent):
    """The line on which the body of a function begins: after its signature and its clauses, where it has some."""
    for number in range(start, end + 1):
        if lines[number] in (f"{indent}{{", f"{indent}{{}}"):
            return number
    return next((it for it in range(start, end + 1) if lines[it].endswith(" {")), end)


def functions_in(path, text):
    """The functions of a source file, in the order in which they stand."""
    lines, owner, after = text.split("\n"), "", 0
    for at, line in enumerate(lines):
        block = BLOCK.match(line)
        owner = name_of_block(*block.groups()) if block else "" if line == "}" else owner
        found = FUNCTION.match(line)
        if not found or len(found[1]) not in (0, 4) or bool(found[1]) != bool(owner):
            continue
        end = end_of(lines, at, found[1])
        if not lines[end].endswith("}"):
            continue
        above = lines[after:at]
        first = at - next((back for back, it in enumerate(reversed(above)) if it in ("", f"{found[1]}}}")), len(above))
        cycle = CYCLE.search("\n".join(lines[first:at]))
        name = "::".join(filter(None, [module_of(path), owner, found[2]]))
        body = body_of(lines, at, end, found[1])
        yield Function(path, name, (first + 1, end + 1), (body + 1, end + 1), cycle and cycle[1])
        after = end + 1


def constants_in(text):
    """The constants of a source file: the name of each, and its first and last line."""
    lines = text.split("\n")
    for at, line in enumerate(lines):
        found = CONSTANT.match(line)
        if found and not FUNCTION.match(line):
            end = next((it for it in range(at, len(lines)) if lines[it].endswith(";")), at)
            yield found[2], (at + 1, end + 1)


def texts_in(folder, part, ending):
    """The texts of a part of a crate, by their paths from the crate's folder."""
    found = [os.path.join(at, name) for at, _, names in os.walk(f"{folder}/{part}") for name in names]
    return {os.path.relpath(path, folder): text_of(path) for path in sorted(found) if path.endswith(ending)}


class Sources:
    """The sources of a crate, each a text by its path from the crate's folder."""

    def __init__(self, folder):
        self.texts, self.proofs = texts_in(folder, "src", ".rt"), texts_in(folder, "proofs", ".antt")
        self.functions = {path: list(functions_in(path, text)) for path, text in self.texts.items()}
        homes = self.homes()
        for function in (listed := [it for path in self.texts for it in self.functions[path]]):
            *_, owner, short = ["", *function.name.split("::")]
            # a method is reported below the module of its type
            if function.module not in homes.get(owner, [function.module]) and len(homes[owner]) == 1:
                function.name = "::".join(filter(None, [homes[owner][0], owner, short]))
            function.beside = [it for it in listed if it.cycle and it.cycle == function.cycle and it is not function]

    def homes(self):
        """The modules that declare a type, by its name."""
        found = {}
        for path, text in self.texts.items():
            for name in TYPE.findall(text):
                found.setdefault(name, []).append(module_of(path))
        return found

    def users_of(self, constant):
        """The functions that a constant goes into, by itself or through other constants."""
        names, seen = {constant}, set()
        while names - seen:
            seen |= names
            word = re.compile(rf"\b({'|'.join(names)})\b")
            for text in self.texts.values():
                lines = text.split("\n")
                for name, (first, last) in constants_in(text):
                    names |= {name} if word.search("\n".join(lines[first - 1 : last])) else set()
        return [it for path in self.texts for it in self.functions[path] if word.search(self.body_text(it))]

    def proofs_below(self, functions):
        """The modules of proofs, each as a path, that the proofs of functions name, or lemmas that these name, and so
        on. The last word of a path may be a lemma's name."""
        texts = [text for path, text in self.proofs.items() if any(it.is_answer(path) for it in functions)]
        texts += ["\n".join(self.texts[it.path].split("\n")[it.lines[0] - 1 : it.body[0]]) for it in functions]
        found = set()
        while texts:
            named = {(one or two.replace("::", ".")).strip(".") for one, two in PROOFS.findall(texts.pop())}
            new = {it.replace(".", "/") for it in named} - found
            found |= new
            files = [f"proofs/{it}.antt" for path in new for it in (path, os.path.dirname(path))]
            texts += [self.proofs[it] for it in files if it in self.proofs]
        return found

    def answers_of(self, function):
        """Each goal of a function of a cycle that a file answers, with the names that stand in the answer, or in the
        lemmas of that file that it names, and so on. The name of a field is none of these."""
        for text in (self.proofs[it] for it in self.proofs if function.is_answer(it)):
            heads = [(HEAD.search(it), it) for it in text.split("\n\n")]
            parts = {head[1]: set(NAME.findall(it)) for head, it in heads if head}
            for goal in filter(function.has_goal, parts):
                names, seen = set(parts[goal]), {goal}
                while more := names & parts.keys() - seen:
                    seen |= more
                    names.update(*(parts[it] for it in more))
                yield goal, names

    def leans(self, function, other):
        """Whether the proof of a function names what belongs to that of another one: a goal of it, or its answer."""
        if function.cycle and function.cycle == other.cycle:
            return any(other.has_goal(it) for goal, names in self.answers_of(function) for it in names if "-" in it)
        folders = [*other.proof_folders(), *(os.path.dirname(it) for it in self.proofs if other.is_answer(it))]
        below = [f"proofs/{it}/" for it in self.proofs_below([function])]
        return any(it.startswith(f"{folder}/") for it in below for folder in folders)

    def cycles(self):
        """The functions of each cycle of several."""
        found = {it.cycle: [it, *it.beside] for path in self.texts for it in self.functions[path] if it.beside}
        return [*found.values()]

    def called_by(self, function):
        """The other functions of its cycle that a function calls."""
        body = self.body_text(function)
        return [it for it in function.beside if re.search(rf"\b{it.short}(?:::<|\()", body)]

    def way(self, start, end):
        """The shortest way by calls from a function of a cycle to one of it, which may be itself: each on it calls the
        next."""
        ways, seen = [[start]], set()
        for way in ways:
            for called in self.called_by(way[-1]):
                if called is end:
                    return [*way, end]
                if called.key() not in seen:
                    seen.add(called.key())
                    ways.append([*way, called])
        return [start, *start.beside]

    def ring(self, functions):
        """Functions of one cycle with some of the others, which are a cycle by themselves: as few as the shortest ways
        between one of them and the rest allow. Or all, where these few would have their proof in another folder."""
        rings = []
        for first in functions:
            rest = [it for it in functions if it is not first] or [first]
            ways = [way for it in rest for way in (self.way(first, it), self.way(it, first))]
            rings.append({it.key(): it for way in ways for it in way})
        ring, all_of_it = min(rings, key=len).values(), [functions[0], *functions[0].beside]
        return [*ring] if home_of(ring) == home_of(all_of_it) else all_of_it

    def body_text(self, function):
        return "\n".join(self.texts[function.path].split("\n")[function.body[0] - 1 : function.body[1]])
