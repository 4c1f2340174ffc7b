"""Filters that take the most of a row of the greatest length within a bound: for bench/costs and tests/attacks."""
import json

__all__ = ["PLAIN", "SCHEMA", "long_bodies", "shapes"]
TEXTS, NUMBERS = '{"$Collection":true}', '{"$Type":"Edm.Int32","$Collection":true}'
PART = f'{{"$Kind":"ComplexType","P":{{"$Type":"N.C","$Collection":true}},"Q":{{"$Type":"Edm.Int32","$Nullable":true}}}}'
SCHEMA = (
    f'{{"$Version":"4.01","N":{{"C":{PART},"T":{{"$Kind":"EntityType","S":{{"$Nullable":true}},"V":{NUMBERS},"W":{NUMBERS},'
    f'"Tags":{TEXTS},"P":{{"$Type":"N.C","$Collection":true}}}}}}}}'
)
# a filter that reads all of a row and compares nothing
PLAIN = "S eq null or V/any() or W/any() or Tags/any() or P/any(p:p/P/any())"


def row(**held):
    return json.dumps({"V": [], "W": [], "Tags": [], "P": [], **held}, ensure_ascii=False, separators=(",", ":"))


def concat_tree(count):
    return "S" if count == 1 else f"concat({concat_tree(count // 2)},{concat_tree(count - count // 2)})"


def nested(depth):
    return "".join(f"{'P' if at == 0 else f'v{at - 1}/P'}/any(v{at}:" for at in range(depth)) + "false" + ")" * depth


def tower(depth, width):
    """Members within members, so many of each that have the more."""
    held = []
    for _ in range(depth):
        held = [{"P": held} for _ in range(width)]
    return row(P=held)


def beside(text, tag="a"):
    """A long text beside members, each of which asks for it."""
    return row(S=text, Tags=[tag] * 10_000)


NUMBERS_ALONE = row(V=[1] * 150_000, W=[2] * 150_000)


def shapes():
    """The name, the filter, the row: of each a bound of the cost bounds the time."""
    long, wide, blank = "a" * 900_000, "\u4e2d" * 300_000, " " * 900_000
    alike = ["x" * 1_000 + f"{at:023}" for at in range(900)]
    yield "a list in another one", "V/any(a:a in W)", NUMBERS_ALONE
    yield "a lambda operator in another one", "V/any(a:W/any(b:a eq b))", NUMBERS_ALONE
    yield "members within members", nested(8), tower(5, 10)
    yield "a list of 2,000 items for each member", f"V/any(a:a in ({','.join(['7'] * 2_000)}))", row(V=[1] * 300_000)
    yield "texts below a KiB, compared with one another", "Tags/any(a:Tags/any(b:a eq b and a ne b))", row(Tags=alike)
    yield "a long text compared for each member", "Tags/any(t:S ne S)", beside(long)
    yield "a long text searched for each member", "Tags/any(t:contains(S,t))", beside(long, "b")
    yield "the same, of a part that nearly stands everywhere", "Tags/any(t:contains(S,t))", beside(long, "aabaa")
    yield "a long text counted for each member", "Tags/any(t:length(S) eq 1)", beside(wide)
    yield "a long text cut for each member", "Tags/any(t:substring(S,299999) eq t)", beside(wide)
    yield "a long text of spaces trimmed for each member", "Tags/any(t:trim(S) eq t)", beside(blank)
    yield "a long text made for each member", "Tags/any(t:tolower(S) eq t)", beside(long)
    yield "800 times `concat` of a long text", f"length({concat_tree(800)}) eq 1", row(S=long)
    waiting = "length(" + "concat(concat(S,S)," * 60 + "S" + ")" * 60 + ") eq 1"
    yield "60 made texts that wait for one another", waiting, row(S="a" * 1_000_000)
    yield "a long text in a list of itself", f"S in ({','.join(['concat(S,S)'] * 500)})", row(S=long)


def long_bodies():
    """The same, of bodies that take long and count 1: of each a bound divided by the filter's nodes bounds the time."""
    body = " or ".join(["a eq b"] * 1_000)
    yield "a body of 1,000 comparisons", f"V/any(a:W/any(b:{body}))", NUMBERS_ALONE
    body, alike = " or ".join(["contains(b,'aba')"] * 580), ["a" * 1_023] * 900
    yield "a body of 580 searches of texts below a KiB", f"Tags/any(a:Tags/any(b:{body}))", row(Tags=alike)
    body = " or ".join(["trim(b) eq a"] * 580)
    yield "a body of 580 texts of spaces, trimmed", f"Tags/any(a:Tags/any(b:{body}))", row(Tags=[" " * 1_023] * 900)
