"""Documents of collections for tests/damaged_rows: well and ill formed ones of a few items, members around their array,
arrays that come twice or under another name, deep values, and drawn ones.
"""
import json

# what stands around an array of items
AROUND = """{"value":%s}|{"value":%s,"x":1}|{"x":{"value":[1]},"value":%s}|{"v\\u0061lue":%s}|{"value":[],"value":%s}
{"value":%s,"value":[]}|{"value":%s,"value":1}|{"value":1,"value":%s}|{"value":%s,"val\\u0075e":[]}|{"Value":%s}
{"value":%s,}|{"value":%s}x|{"value":%s} {}|[{"value":%s}]|{,"value":%s}|{"value":%s "x":1}|{"value"%s}|{"value":%s
{"value":{"value":%s}}|{"x":"\\ud800","value":%s}|{"x":"\\ud83d\\ude00","value":%s}|{"x":01,"value":%s}|{value:%s}
{"x":1e999,"value":%s}|{"x":tru,"value":%s}|{"value":%s,"x":1e999}|{"value":%s,"x":"\\ud800"}"""
AROUND = [*AROUND.replace("\n", "|").split("|"), '{"a":%s}', "\ufeff{\"value\":%s}", " {\n\t\"value\" :\r %s } \n\n", "{\"value\":%s}\0"]
# what is no item of any of the types
NO_ITEMS = ("1", "null", "{}", "[]", "", '"a"', "{", "}")
# arrays that are none, and documents without one
ILL = """|{|{}|null|{"value":null}|{"value":[|{"value":[]|{"value":[ ]}|{"value":[,]}|{"value":[]]}|{"value":["""
ILL = [text.encode() for text in ILL.split("|")] + [b'{"x":"\xff","value":[]}', b'{"value":[],"x":"\xff"}']
DEPTHS = range(121, 130)


def array(items, between=","):
    return f"[{between.join(items)}]"


def deep(depth):
    return "[" * depth + "]" * depth


def lists_of(good):
    """Lists of good items, and of one that is none among them."""
    yield []
    for count in range(1, len(good) + 1):
        yield good[:count]
    for other in NO_ITEMS:
        yield from ([other], [other, good[0]], [good[0], other], [good[0], other, good[1]])


def fixed(good):
    """The documents that are always asked, of a few good items."""
    yield from ILL
    for items in lists_of(good):
        for around in AROUND:
            yield (around % array(items)).encode()
    for between in (" ", "\n,\t", " , ", ",,", ";", ""):
        yield (AROUND[0] % array(good, between)).encode()
    for text in map(deep, DEPTHS):
        with_more = good[0].replace("{", '{"more":%s,' % text, 1)
        for document in ('{"x":%s,"value":[%s]}', '{"value":[%s],"x":%s}', '{"value":[%s,%s]}'):
            pair = (good[0], text) if document.startswith('{"value"') else (text, good[0])
            yield (document % pair).encode()
        yield (AROUND[0] % array([good[0], with_more, good[1]])).encode()


def drawn(draw, rows, damaged):
    """A document of drawn rows, some of which are damaged, or the document itself is."""
    items = [json.dumps(row, ensure_ascii=draw.random() < 0.2).encode() for row in rows]
    for at in range(len(items)):
        if draw.random() < 0.2:
            items[at] = damaged(draw, rows[at])
    between = draw.choice((b",", b",\n", b" , "))
    around = draw.choice(AROUND[:3]).encode()
    return around.replace(b"%s", b"[" + between.join(items) + b"]")
