#!/usr/bin/env python3
"""Makes of the library's LLVM module for x86-64 one for wasm32: `to_wasm32.py FROM.ll TO.ll`.

Sizes stay numbers of 64 bits and each address in memory keeps its 8 bytes, so every layout is the one that the proof is
about; only addresses in registers have 32 bits. An address is stored as the number that it is, and read back from it.
What the pass does not know ends it with an error, and nothing is written.
"""
import re
import sys

TRIPLE = "wasm32-unknown-unknown"
LAYOUT = "e-m:e-p:32:32-p10:8:8-p20:8:8-i64:64-i128:128-n32:64-S128-ni:1:10:20"
VALUE = r'(?:%[\w.]+|%"[^"]+"|@[\w.]+|@"[^"]+"|null|getelementptr \([^()]*\)|getelementptr inbounds \([^()]*\))'
# what only another processor or a system has, in groups of attributes
ELSEWHERE = r' ?"(?:target-cpu|target-features|tune-cpu|probe-stack|stack-probe-size|frame-pointer)"="[^"]*"'


class Names:
    """Names of values that no function has."""

    def __init__(self):
        self.count = 0

    def next(self):
        self.count += 1
        return f"%number.{self.count}"


def in_memory(kind):
    """A type of a register as it stands in memory: each address is a number of 64 bits."""
    return re.sub(r"\bptr\b", "i64", kind)


def stored(found, names):
    indent, value, to = found.groups()
    name = names.next()
    return f"{indent}{name} = ptrtoint ptr {value} to i64\n{indent}store i64 {name}, {to}"


def loaded(found, names):
    indent, result, at = found.groups()
    name = names.next()
    return f"{indent}{name} = load i64, {at}\n{indent}{result} = inttoptr i64 {name} to ptr"


def parts(kind):
    """The types of a struct without structs in it."""
    return [it.strip() for it in kind.strip()[1:-1].split(",")]


def loaded_struct(found, names):
    """A struct with addresses: as numbers, from which the struct of the register is made."""
    indent, result, kind, at = found.groups()
    if "ptr" not in kind:
        return found[0]
    whole, value = names.next(), "poison"
    lines = [f"{whole} = load {in_memory(kind)}, {at}"]
    for number, part in enumerate(parts(kind)):
        name = names.next()
        lines.append(f"{name} = extractvalue {in_memory(kind)} {whole}, {number}")
        if part == "ptr":
            address = names.next()
            lines.append(f"{address} = inttoptr i64 {name} to ptr")
            name = address
        made = result if number + 1 == len(parts(kind)) else names.next()
        lines.append(f"{made} = insertvalue {kind} {value}, {part} {name}, {number}")
        value = made
    return "\n".join(indent + line for line in lines)


def stored_struct(found, names):
    indent, kind, value, to = found.groups()
    if "ptr" not in kind:
        return found[0]
    made, lines = "poison", []
    for number, part in enumerate(parts(kind)):
        name = names.next()
        lines.append(f"{name} = extractvalue {kind} {value}, {number}")
        if part == "ptr":
            address, name = name, names.next()
            lines.append(f"{name} = ptrtoint ptr {address} to i64")
        after = names.next()
        lines.append(f"{after} = insertvalue {in_memory(kind)} {made}, {in_memory(part)} {name}, {number}")
        made = after
    lines.append(f"store {in_memory(kind)} {made}, {to}")
    return "\n".join(indent + line for line in lines)


def constant(found):
    """A constant with addresses: after each stand the upper 4 bytes of the number that it is."""
    head, kinds, values, rest = found.groups()
    if not re.search(r"\bptr\b", kinds):
        return found[0]
    kinds = re.sub(r"\bptr\b", "ptr, i32", kinds)
    values = re.sub(rf"\bptr ({VALUE})", r"ptr \1, i32 0", values)
    return f"{head}<{{{kinds}}}> <{{{values}}}>{rest}"


def translated(text):
    names = Names()
    text = re.sub(r"^target datalayout = .*$", f'target datalayout = "{LAYOUT}"', text, flags=re.MULTILINE)
    text = re.sub(r"^target triple = .*$", f'target triple = "{TRIPLE}"', text, flags=re.MULTILINE)
    text = "\n".join(re.sub(ELSEWHERE, "", it) if it.startswith("attributes ") else it for it in text.split("\n"))
    text = text.replace("= ptrtoaddr ptr", "= ptrtoint ptr")
    rules = [
        (rf"^( +)store ptr ({VALUE}), (ptr .*)$", stored),
        (r"^( +)(%[\w.]+) = load ptr, (ptr .*)$", loaded),
        (r"^( +)(%[\w.]+) = load (\{[^{}]*\}), (ptr .*)$", loaded_struct),
        (rf"^( +)store (\{{[^{{}}]*\}}) ({VALUE}), (ptr .*)$", stored_struct),
    ]
    for pattern, rule in rules:
        text = re.sub(pattern, lambda found, rule=rule: rule(found, names), text, flags=re.MULTILINE)
    text = re.sub(r"= alloca ([^,\n]*)", lambda found: f"= alloca {in_memory(found[1])}", text)
    text = re.sub(r"(= getelementptr (?:inbounds )?(?:nuw )?)(\{[^{}]*\})", lambda it: it[1] + in_memory(it[2]), text)
    return re.sub(r"^(@.* constant )<\{(.*?)\}> <\{(.*?)\}>(.*)$", constant, text, flags=re.MULTILINE)


def unknown(text):
    """The lines that still have an address in memory as a pointer, or step over such ones."""
    kind, how = r"(?:ptr|[\[{<].*\bptr\b.*[\]}>])", "(?:volatile |atomic )?"
    exchanged = r"%\S+ = (?:atomicrmw|cmpxchg) .*\bptr .*, ptr "
    stepped = r"%\S+ = getelementptr (?:[a-z]+ )*?(?:ptr\b|[\[{<][^\]}>]*\bptr\b)"
    left = re.compile(rf"^ +(?:store {how}{kind} |%\S+ = load {how}{kind},|{exchanged}|{stepped})", re.MULTILINE)
    return [text[it.start() : text.find("\n", it.start())] for it in left.finditer(text)]


def main(source, to):
    with open(source, encoding="utf-8") as file:
        made = translated(file.read())
    if unknown(made):
        sys.exit(f"to_wasm32.py: {source} has what the pass does not know: {unknown(made)[0].strip()}")
    with open(to, "w", encoding="utf-8") as out:
        out.write(made)


if __name__ == "__main__":
    if len(sys.argv) != 3:
        sys.exit("usage: to_wasm32.py FROM.ll TO.ll")
    main(*sys.argv[1:])
