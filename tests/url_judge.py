"""Which filter a whole query has: an independent judge, written from the definition in words and not from the library.

The pieces of a query stand between `&`. The name of a piece stands before its first `=`, its value after it. A piece
is the filter's if its decoded name is `filter` or `$filter`, in any case. Faults are looked for from the left, in each
piece in this order: a `%` without two hexadecimal digits in the name, a name that decodes to no UTF-8; of the filter's
piece the same two of its value, and that it is the second; that the piece is disguised.

A piece is disguised if some reader could take a part of it for a filter: one that splits at `;` too, and in system
query options at `?`; that reads names as they stand, decoded once or twice, and takes `%u0024` for an escape too; that
takes a decoded name apart at `;`, `&`, `?`, NULs and byte order marks, or passes over the last two; and that takes off
white space, control characters, `+` and `]` at the ends of a name, and `[` in front of it. Of the filter's own piece
that is asked of what follows its first `;`. The options of what is expanded or selected are the standard's: a `;` in
parentheses of `$expand` or `$select` splits nothing, if all that are open close, each that stands in no other follows
no `=`, `,`, `/` or `;`, and none of those begins with a `;`.
"""
import random
import re
import unicodedata

__all__ = ["Found", "drawn_queries", "found"]
NAMES = (b"filter", b"$filter")
# options whose parentheses have options of their own
NESTING = (b"expand", b"$expand", b"select", b"$select")
# system query options that are named without their `$` too
WORDS = b"apply compute count expand format orderby schemaversion search select skip top".split()
# a NUL and a byte order mark
SILENT = "\0\ufeff"


class Found:
    """The filter of a query: its text, decoded, and where its piece and its value stand."""

    def __init__(self, text, piece, value):
        self.text, self.piece, self.value = text, piece, value


def decoded(text):
    return re.sub(rb"%([0-9A-Fa-f]{2})", lambda digits: bytes([int(digits[1], 16)]), text)


def text_fault(text, start, number):
    """Why a name or a value, which begins there in the query, is no text; None if it is one."""
    bad = re.search(rb"%(?![0-9A-Fa-f]{2})", text)
    if bad:
        return f"BadEscape {start + bad.start()}"
    try:
        decoded(text).decode()
    except UnicodeDecodeError:
        return f"NotUtf8 {number}"
    return None


def is_dropped(character):
    # isspace takes four separators that are control characters too, and no other that is not white space
    blank = character.isspace() or unicodedata.category(character) == "Cc"
    return character not in SILENT and (blank or character in "+]")


def trimmed(name):
    while name and (is_dropped(name[0]) or name[0] == "["):
        name = name[1:]
    while name and is_dropped(name[-1]):
        name = name[:-1]
    return name


def shows_filter(name):
    """Whether a lenient reader sees a filter's name in a decoded name; what is no UTF-8 shows none."""
    try:
        text = name.decode()
    except UnicodeDecodeError:
        return False
    texts = (text, "".join(character for character in text if character not in SILENT))
    words = [word for text in texts for word in re.split(f"[;&?{SILENT}]", text)]
    return any(trimmed(word.split("=")[0]).encode().lower() in NAMES for word in words)


def hides_filter(part):
    name = part.split(b"=")[0]
    names = [name, decoded(name), decoded(decoded(name))]
    for _ in range(2):
        name = decoded(re.sub(rb"%u00(?=[0-9A-Fa-f]{2})", b"%", name))
        names.append(name)
    return any(map(shows_filter, names))


def without_parentheses(text):
    """A text without parentheses and what stands in them, if all of these close, follow names and begin with no `;`."""
    opened, dropped = [], set()
    for place, byte in enumerate(text):
        before = text[place - 1 : place]
        if byte == ord("("):
            if not opened and before in (b"=", b",", b"/", b";"):
                return text
            opened.append(place)
        elif byte == ord(")") and opened:
            dropped.update(range(opened.pop() + 1, place))
        elif byte == ord(";") and before == b"(" and len(opened) == 1:
            return text
    if opened:
        return text
    return bytes(byte for place, byte in enumerate(text) if place not in dropped and byte not in b"()")


def is_disguised(piece, is_filter):
    name = decoded(piece.split(b"=")[0]).lower()
    if name in NESTING:
        piece = without_parentheses(piece)
    parts = piece.split(b";")[1:] if is_filter else [piece, *piece.split(b";")]
    if not is_filter and (name[:1] in (b"$", b"@") or name in WORDS):
        parts += [*piece.split(b"?"), *re.split(b"[;?]", piece)]
    return any(map(hides_filter, parts))


def found(query):
    """A Found, None where the query has no filter, or a fault as `Repeated 1`."""
    start, filter_found = 0, None
    for number, piece in enumerate(query.split(b"&")):
        name, mark, value = piece.partition(b"=")
        is_filter = decoded(name).lower() in NAMES
        value_start, stop = start + len(name) + len(mark), start + len(piece)
        fault = text_fault(name, start, number) or (is_filter and text_fault(value, value_start, number))
        if fault:
            return fault
        if is_filter and filter_found:
            return f"Repeated {number}"
        if is_disguised(piece, is_filter):
            return f"Disguised {number}"
        if is_filter:
            filter_found = Found(decoded(value).decode(), (start, stop), (value_start, stop))
        start = stop + 1
    return filter_found


PIECES = ["&", "&", ";", "=", "=", "x", "x=1", "$top=5", "$filter", "filter", "FILTER", "$Filter=Active", "$", "fil"]
PIECES += ["ter", "%24", "%2524", "%252524", "%66ilter", "%2566ilter", "%20", "+", "?", "%2B", "%3F", "%09", "%00"]
PIECES += ["%0A", "%7F", "%C2%A0", "%C2%85", "%25C2%25A0", "%E3%80%80", "%E2%80%8B", "%C3%A9", "%C3", "%FF", "%25FF"]
PIECES += ["%", "%2", "%zz", "%3B", "%26", "%3D", "%253B", "Active", "amp;", "Name%20eq%20'a'", "'", "\u00e9", " "]
PIECES += ["#", "-", ".", "@", "ID%20eq%201", "$expand=", "Expand", "(", "(", ")", ")", "[", "]", "%5B", "%5d"]
PIECES += ["%EF%BB%BF", "%u0024", "%u00", "/P?", "$top=1?", ",", "/"]


def drawn_queries(count, seed=1):
    """So many queries, drawn from pieces of names, separators and escapes."""
    draw = random.Random(seed)
    for _ in range(count):
        words = draw.choices(PIECES, k=draw.randrange(1, 9))
        for _ in range(draw.randrange(3)):
            words.insert(draw.randrange(len(words) + 1), draw.choice(["&$filter=Active", "&", "$filter=Active&", ";"]))
        yield "".join(words).encode()
