"""Spellings of rows in JSON, drawn by a fixed generator, good ones and damaged ones: for tests/drawn_rows."""
from row_judge import DEPTH, LINE_LIMIT, RANGES, UNSEEN, Enumeration, Record
from row_types import like, new_name
from row_values import DEEPEST, Values, date_text, guid_text, member_names, moment_text

SHORT = {'"': '\\"', "\\": "\\\\", "/": "\\/", "\b": "\\b", "\f": "\\f", "\n": "\\n", "\r": "\\r", "\t": "\\t"}
GAPS = [" ", "  ", "\t", "\r", " \t\r "]
# values of JSON of every kind, and numbers in all forms
ANY = r"""true false null 0 -0 -1 1 0.0 -0.0 1.5 -1.25e-3 1e0 1E5 1e+2 0e0 1e308 1.7976931348623157e308 5e-324 1e-400
1e-99999 0e99999 9007199254740993 9223372036854775807 9223372036854775808 -9223372036854775808 -9223372036854775809
18446744073709551615 18446744073709551616 123456789012345678901234567890 1.0 100e-2 "" "a" "true" "null" "1" "\u0000"
"\ud83d\ude00" "\"" "\\" "\\\"" "[" "{" "\/\b\f\n\r\t" "é名😀" [] {} [[]] [{}] {"a":[]} [1,2,3] ["a"] [null] [true]
{"a":1} {"a":{"a":{}}} {"":0} {"a":1,"a":2} {"a":"}"} {"b":"]","\"":["\\"]} [[[[1]]],{"c":[{"d":{}}]}]""".split()
ANY += ["1" * 300, "1" * 40 + ".5", "0." + "0" * 400 + "1", "1e" + "0" * 30 + "1"]
# texts instead of a value that are no JSON: words, numbers, texts, arrays and objects, and what is none of these
WORDS = r"""tru truee true1 truex true_ trueX True TRUE tru\u0065 fals falsee false0 falsey False nul nulll null1 nullx
Null NULL nil undefined NaN Infinity -Infinity truetrue nullnull t n f true"" true'""".split()
NUMBERS = r"""01 -01 00 1. .5 1.e5 1e 1e+ 1E- - -- +1 --1 -a 0x10 1_000 1,5 1a 1- 1.5.5 1e5e5 1e1.5 1e400 -1e400 1e309
123e99999 -true""".split() + ["1" * 400, "-" + "9" * 310, "17976931348623159" + "0" * 292, "1 2", "- 1", "\xa01", "１"]
TEXTS = r"""'a' '' a "a a" "\x" "\u12" "\u12g4" "\U0041" "\u+123" "\ud800" "\udc00" "\ud800\ud800" "\ud83d\u0041"
"\ud83dx" "\" "\\\" "a"b "a""b" ""a" """.split() + ['"\t"', '"\x00"', '"\x1f"', '"a\x01"', '"\\u 123"', '"\\', '"\\u']
PARTS = r"""[ ] { } [1 [1,] [,1] [1,,2] [1;2] [1,2}} {"a"} {"a":} {"a":1,} {,} {"a":1 {a:1} {'a':1} {"a":1,,"b":2} {1:2}
{"a"::1} {"a":1;"b":2} {"\ud800":1} [1]] {}} [}] {]} [[]""".split() + ["[1 2]", '{"a" 1}', '{"a":1 "b":2}']
OTHERS = ["(1)", "<1>", "/**/1", "1//", "", "\x0b1", "\x0c1", "\ufeff1", "1\x00", "\x7f"]
# texts that spell no date, moment, Guid or member, or one without a value
NO_TEXTS = r"""
2021-02-29|2100-02-29|0000-01-01|2020-13-01|2020-00-01|2020-01-00|2020-01-32|2020-1-01|20-01-01|2020-01-01 |
 2020-01-01|02020-01-01|+2020-01-01|2020/01/01|20200101|2020-01-01T00:00:00|2020-01-01T24:00:00Z|2020-01-01T00:60:00Z|
２020-01-01|2020-01-01T00:00:60Z|2020-01-01T0:00Z|2020-01-01 00:00Z|2020-01-01T00:00:00.Z|2020-01-01T00:00:00+24:00|
2020-01-01T00:00:00.1234567890Z|2020-01-01T00:00:00+00:60|2020-01-01T00:00+0000|2020-01-01T00:00+00|2020-02-30T00:00Z|
2020-01-01T00:00.5Z|2020-01-01T00:00:00,5Z|2020-01-01T00:00:00ZZ|0000-12-31T23:59:59Z|10000-01-01T00:00:00Z|T00:00Z|
01234567-89ab-cdef-0123-456789abcde|01234567-89ab-cdef-0123-456789abcdeg|0123456789abcdef0123456789abcdef||a|null|1.0|
{01234567-89ab-cdef-0123-456789abcdef}|01234567-89ab-cdef-0123-456789abcdef0|01234567-89abc-def-0123-456789abcdef|-|+|
,|1,|,1|1,,2|0x1|1;2|99999999999999999999|-9223372036854775809|1 2|- 1|１""".replace("\n", "").split("|")
# bytes that are no UTF-8: alone, half of a character, too long for it, half of a pair, beyond Unicode
NO_UTF8 = rb"""
\xff \xfe \x80 \xbf \xc3 \xe5\x90 \xf0\x9f\x98 \xc0\xaf \xc1\xbf \xe0\x80\xaf \xf0\x80\x80\x80 \xed\xa0\x80
\xed\xb0\x80 \xf4\x90\x80\x80 \xf8\x88\x80\x80\x80 \xc3\xc3\xa9""".decode("unicode_escape").encode("latin-1").split()
# what stands after a row, and instead of one
TAILS = [b"\x00", b"\xef\xbb\xbf", b" {}", b" null", *rb', } ] x {} // " \ ; 1 :'.split()]
INSTEAD = [b"\xef\xbb\xbf{}", *rb'null true 1 "a" [] {} "" -0 1e400 tru [{}] { }'.split()]


def escape(draw, letter):
    code = letter.encode("utf-16-be").hex()
    code = draw.one_of([code, code.upper(), code.title()])
    return "".join("\\u" + code[at : at + 4] for at in range(0, len(code), 4))


def quoted(draw, text, share=0):
    """A text of JSON, such a share of its characters as escapes, in percent."""
    if not share and text.isprintable() and '"' not in text and "\\" not in text:
        return f'"{text}"'
    letters = []
    for letter in text:
        if letter < " " or letter in '"\\' or share and draw.chance(share):
            letters.append(SHORT[letter] if letter in SHORT and draw.chance(60) else escape(draw, letter))
        else:
            letters.append(letter)
    return '"' + "".join(letters) + '"'


def nested(draw, depth):
    """Arrays and objects within one another, so deep."""
    starts = [draw.one_of(["[", '{"a":', "[1,", '{"b":[],"a":']) for _ in range(depth - 1)]
    ends = ["]" if start[0] == "[" else "}" for start in reversed(starts)]
    return "".join(starts) + draw.one_of(["[]", "{}"]) + "".join(ends)


def no_member(draw, kind):
    """A text that stands for no number of an enumeration, though it nearly does."""
    name, (least, most) = draw.one_of([*kind.members]), RANGES[kind.underlying]
    near = [f"{name},", f",{name}", f"{name},,{name}", f"{name} {name}", f"{name},\t{name}", f"{name};", f"{name}\xa0"]
    return draw.one_of([like(draw, name), str(most + 1), str(least - 1), f"{name}, {most + 1}", *near])


class Writer:
    """Writes rows in one style, which is drawn: the order of members, spaces here and there or after each comma and
    colon, escapes, further members and members that come twice. Such a share of what is at fault is no JSON, in
    percent."""

    def __init__(self, draw, broken=0):
        self.draw, self.broken = draw, broken
        self.order = draw.one_of(["by slot", "by name", "reversed", "shuffled"])
        self.gaps = draw.one_of([0, 0, 0, 10, 60])
        self.space = draw.one_of(["", "", " "])
        self.escapes = draw.one_of([0, 0, 0, 10, 100])
        self.in_names = draw.one_of([0, 0, 0, 5, 100])
        self.more = draw.one_of([0, 0, 10, 60])
        self.twice = draw.one_of([0, 0, 10, 50])
        self.absent = draw.one_of([0, 50, 100])

    def gap(self):
        return self.draw.one_of(GAPS) if self.gaps and self.draw.chance(self.gaps) else ""

    def plain(self, kind, value):
        draw = self.draw
        if kind == "Edm.Boolean":
            return "true" if value else "false"
        if kind in RANGES:
            return str(value)
        if isinstance(kind, Enumeration):
            text = member_names(draw, kind, value)
        elif kind == "Edm.Date":
            text = date_text(value)
        elif kind == "Edm.Guid":
            text = draw.one_of([str.upper, str.lower, str.title])(guid_text(value))
        elif kind == "Edm.DateTimeOffset":
            offset = draw.one_of([0, 60, -330, draw.between(-1_439, 1_439)])
            text = moment_text(value, offset, draw.one_of(["TZ", "tz", "T+"]), draw.chance(50))
        else:
            text = value
        return quoted(draw, text, self.escapes)

    def single(self, kind, value, flaws=0):
        if value is None:
            return "null"
        return self.object(kind, value, flaws) if isinstance(kind, Record) else self.plain(kind, value)

    def array(self, items):
        if not items:
            return f"[{self.gap()}]"
        return "[" + f",{self.space}".join(self.gap() + item + self.gap() for item in items) + "]"

    def any(self):
        return self.draw.one_of(ANY) if self.draw.chance(80) else nested(self.draw, 1 + self.draw.below(9))

    def property(self, one, value):
        """A property's value, or None where it is left out."""
        kind = one.target or one.kind
        if value is UNSEEN:
            return None if self.draw.chance(40) else self.any()
        if one.many:
            return self.array([self.single(kind, item) for item in value])
        # a navigation property that is looked at is there, null too
        is_absent = value is None and not one.target and self.draw.chance(self.absent)
        return None if is_absent else self.single(kind, value)

    def flawed(self, one, value):
        """The same with something at fault, here or further down."""
        way, kind = self.draw.below(10), one.target or one.kind
        if way == 0 or way == 1 and one.target:
            return None
        if one.many and value and way < 7:
            bad = self.draw.below(len(value))
            items = [self.single(kind, item) for item in value]
            is_inner = isinstance(kind, Record) and value[bad] is not None and way < 6
            items[bad] = self.object(kind, value[bad], 1) if is_inner else self.wrong(kind)
            return self.array(items)
        if not one.many and isinstance(kind, Record) and value is not None and way < 8:
            return self.object(kind, value, 1)
        return self.any() if one.many else self.wrong(kind)

    def wrong(self, kind):
        """What fits no such kind, mostly."""
        draw = self.draw
        if draw.chance(self.broken):
            return self.no_json(kind)
        if draw.chance(12):
            return "null"
        if kind in RANGES and draw.chance(60):
            least, most = RANGES[kind]
            near = [most + 1, least - 1, 2**63, 2**64 - 1, 2**64, -(2**63) - 1]
            return draw.one_of([*map(str, near), f"{most}.0", f"{most}e0", "-0", "1.5", f'"{most}"'])
        if isinstance(kind, Enumeration) and draw.chance(60):
            return quoted(draw, no_member(draw, kind), self.escapes)
        if kind != "Edm.String" and isinstance(kind, str) and draw.chance(60):
            return quoted(draw, draw.one_of(NO_TEXTS), self.escapes)
        return draw.one_of(ANY)

    def no_json(self, kind=None):
        """What is no JSON, mostly near to what such a kind has."""
        near = NUMBERS if kind in RANGES else PARTS if isinstance(kind, Record) else TEXTS
        kinds = [WORDS, WORDS if kind == "Edm.Boolean" else near, self.draw.one_of([NUMBERS, TEXTS, PARTS, OTHERS])]
        return self.draw.one_of(self.draw.one_of(kinds))

    def further_name(self, kind):
        """A name that no property has, mostly."""
        draw, slots = self.draw, kind.slots()
        own = draw.one_of(slots).name if slots else "a"
        near = [like(draw, own), like(draw, own), like(draw, like(draw, own)), own.upper(), own.lower()]
        others = [new_name(draw), f"{own}@odata.type", "@odata.context", "", f"{own}\\", f'{own}"', f" {own}", "\x01"]
        return draw.one_of([*near, *others])

    def object(self, kind, value, flaws=0):
        """An object, so many of its members at fault."""
        draw, slots, members = self.draw, kind.slots(), []
        looked_at = [one.name for one in slots if value[one.name] is not UNSEEN]
        is_further = draw.chance(self.broken // 3) if flaws else False
        bad = {draw.one_of(looked_at) for _ in range(flaws)} if looked_at and not is_further else ()
        for one in slots:
            text = (self.flawed if one.name in bad else self.property)(one, value[one.name])
            if text is not None:
                members.append((one.name, text))
        members = self.in_order(members)
        for _ in range(1 + draw.below(2) if draw.chance(self.twice) else 0):
            self.double(members, slots)
        for _ in range(1 + draw.below(3) if draw.chance(self.more) else 0):
            members.insert(draw.below(len(members) + 1), (self.further_name(kind), self.any()))
        if is_further:
            members.insert(draw.below(len(members) + 1), (self.further_name(kind), self.no_json()))
        return self.braced(members)

    def in_order(self, members):
        if self.order in ("by name", "reversed"):
            return sorted(members) if self.order == "by name" else members[::-1]
        return self.draw.shuffled(members) if self.order == "shuffled" else members

    def double(self, members, slots):
        """Puts a second member of a name, mostly before the first, with a value of its own."""
        if not members:
            return
        draw, at = self.draw, self.draw.below(len(members))
        one = next(one for one in slots if one.name == members[at][0])
        text = self.property(one, Values(draw, 80).value(one, (), DEEPEST)) if draw.chance(50) else self.any()
        at = draw.below(at + 1) if draw.chance(95) else at + 1
        members.insert(at, (one.name, text or "null"))

    def braced(self, members):
        gap, draw, space = self.gap, self.draw, self.space
        names = (f"{gap()}{quoted(draw, name, self.in_names)}{gap()}:{space}" for name, _ in members)
        pairs = (f"{name}{gap()}{text}{gap()}" for name, (_, text) in zip(names, members))
        return "{" + (f",{space}".join(pairs) or gap()) + "}"

    def line(self, kind, value, flaws=0):
        return f"{self.gap()}{self.object(kind, value, flaws)}{self.gap()}".encode()


def nested_value(one, depth):
    """A value of a property of type Deep or Deeps, which nests so deep, or of the latter perhaps one less."""
    depth -= one.many
    start, stop, times = ('{"D":[', "]}", depth // 2) if one.kind.name == "Deeps" else ('{"D":', "}", depth - 1)
    inner = start * times + ("" if one.kind.name == "Deeps" else "{}") + stop * times
    return f"[{inner}]" if one.many else inner


def deep(draw, kind, line, depth):
    """The line with one more member first, which nests so deep with the row around it."""
    own = [one for one in kind.slots() if isinstance(one.kind, Record) and one.kind.name.startswith("Deep")]
    if own and draw.chance(50):
        one = draw.one_of(own)
        member = f'"{one.name}":{nested_value(one, depth - 1)}'
    else:
        member = f'"deep":{nested(draw, depth - 1)}'
    return line.replace(b"{", b"{" + member.encode() + b"," * (b":" in line), 1)


def damaged(draw, kind, line):
    """A line of bytes that are not all what they were."""
    way, at = draw.below(10), draw.below(len(line))
    if way == 0:
        return line[:at] + bytes([draw.below(256)]) + line[at + 1 :]
    if way == 1:
        return line[:at] + line[at + 1 :]
    if way == 2:
        return line[: at + 1] + line[at:]
    if way == 3:
        return line[:at]
    if way == 4:
        return line + draw.one_of(TAILS)
    if way == 5:
        return deep(draw, kind, line, DEPTH + 1 + draw.below(3))
    if way == 6:
        return draw.one_of(INSTEAD)
    if way == 7:
        marks = [place for place, byte in enumerate(line) if byte in b'{}[]:,"']
        at = draw.one_of(marks)
        return line[:at] + draw.one_of([b"", b",", b":", b"}", b"]", b"{", b"[", b'"']) + line[at + 1 :]
    return line[:at] + draw.one_of(NO_UTF8) + line[at:]


def faulty(draw, kind, value):
    """A line that is at fault, mostly."""
    way = draw.below(10)
    if way < 5:
        return Writer(draw).line(kind, value, 1 + draw.below(6) // 5)
    if way < 7:
        return Writer(draw, 100).line(kind, value, 1)
    return damaged(draw, kind, Writer(draw).line(kind, value)).replace(b"\n", b" ")


def great(draw, line, more):
    """The line as long as a line may be, and so many bytes longer: by the text that begins with `great`, or by more
    after the first brace."""
    texts = [b"a", b"abcdefgh", "é".encode(), "😀".encode(), rb"\u00e9", rb"\n", rb"\\", b" "]
    place, start, pieces, stop = draw.one_of(
        [
            (line.index(b"great"), b"", texts, b""),
            (line.index(b"{") + 1, b'"', texts, b'":1,'),
            (line.index(b"{") + 1, b'"":"', texts, b'",'),
            (line.index(b"{") + 1, b'"":[', [b"10,", b"[],", b"{},", b'"a",', b"1.5,"], b"0],"),
            (line.index(b"{") + 1, b"", [b" ", b"\t", b" \r"], b""),
        ]
    )
    room, piece = LINE_LIMIT + more - len(line) - len(start) - len(stop), draw.one_of(pieces)
    filling = piece * (room // len(piece))
    return line[:place] + start + filling + b" " * (room - len(filling)) + stop + line[place:]
