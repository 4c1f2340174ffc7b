"""OData `$filter`, checked and evaluated: the C library odfilter, over ctypes and the standard library alone.

    import odfilter

    with open("schema.json", "rb") as file, odfilter.Schema(file.read()) as schema, schema.type("Mini.Item") as item:
        with item.check("((Active)) AND ID eq +01") as wanted, wanted.judge() as judge:
            wanted.canonical                                     # 'Active and ID eq 1'
            judge.verdict(b'{"ID":1,"Name":"a","Active":true}')  # True; False or None (null) of other rows
            judge.filter_lines(rows).text                        # of rows, one a line, those that are kept
        item.check("Active and Foo eq 1")                        # raises Refused
        item.check_url("$top=5&$filter=ID%20eq%201")             # a URL's whole query, after the `?`

    try:
        ..
    except odfilter.Refused as refused:
        print(refused)                        # a sentence: Type 'Mini.Item' has no property 'Foo'.
        print(refused.start, refused.stop)    # 11 14, in bytes
        print(refused.pointed())              # the filter, with carets below that span

A schema is read once, a filter checked once, and then row after row judged. What is refused or at fault is an
exception, each an `Error`; its text is a sentence, and `program_line` the line that the program `odfilter` prints for
it. Running out of memory is Python's MemoryError. Texts are str; rows and documents are bytes, or str, which stands for
its UTF-8.

Each object holds something of the library and gives it back by `close()`, at the end of `with`, or when it is
collected. They may be closed in any order: each keeps what it needs. Schemas, types and filters may be used from
several threads at once. A judge may too, but its calls wait for one another: let each thread have its own. A handler of
a signal that uses the judge whose call it interrupted gets a RuntimeError. Other threads run while a call does. 256 KiB
of a thread's stack suffice for the deepest filters tested.

The library is found by an argument, `Schema(document, odfilter.Library("/path/libodfilter.so"))`, else by the variable
ODFILTER_LIBRARY, else as libodfilter.so in the folder of this module, or in the one that holds that.
"""
from __future__ import annotations

import ctypes
import operator
import threading
from typing import Any, Callable, Mapping, NamedTuple, Optional, TypeVar, Union
from urllib.parse import unquote_to_bytes

from ._errors import Closed, Error, LibraryNotFound, MomentNeeded, NoFilter, NotAMoment, NotUtf8, QueryRefused
from ._errors import Refused, RowFault, SchemaFault, TooCostly, UnknownColumn, UnknownType, Unsayable
from ._files import FileOrPath, Tally, filter_file
from ._library import FALSE, MOMENT_NEEDED, NO_FILTER, NO_TRUTH_VALUE, NOT_A_MOMENT, OK, QUERY_FAULT, ROW_FAULT
from ._library import SCHEMA_FAULT, SYNTAX_FAULT, TEXT_FAULT, TOO_COSTLY, TRUE, TYPE_FAULT, UNKNOWN_TYPE
from ._library import BytesOrText, Library, _Answer, _borrowed, _borrowed_text, _buffer_of, _found
from ._sql import Conditions, Statement, columns_in, conditions_of, form_of, postgresql_functions
from ._types import DeclaredProperty, DeclaredType, types_in

__all__ = [
    "Closed", "Conditions", "DeclaredProperty", "DeclaredType", "Error", "Filter", "Judge", "Kept", "Library",
    "LibraryNotFound", "MomentNeeded", "NoFilter", "NotAMoment", "NotUtf8", "QueryRefused", "Refused", "RowFault",
    "Schema", "SchemaFault", "Statement", "Tally", "TooCostly", "Type", "UnknownColumn", "UnknownType", "Unsayable",
    "postgresql_functions",
]

# how many names each fault of a schema carries, by its number
_NAMES_OF = (0, 0, 0, 0, 1, 2, 1, 1, 2, 2, 0)
_KINDS = {TEXT_FAULT: "text", SYNTAX_FAULT: "syntax", TYPE_FAULT: "type"}
_VERDICTS = {FALSE: False, TRUE: True, NO_TRUTH_VALUE: None}


class Kept(NamedTuple):
    """What a run over rows gave: the kept lines, each with a line feed; how many rows there were, and how many kept."""

    text: bytes
    rows: int
    kept: int


class _Owned:
    """A handle that a call made, which goes back when nobody holds it any more: so no call under way loses it."""

    def __init__(self, library: Library, call: str, given: tuple[Any, ...], *answer: Any) -> None:
        self.library, self.handle = library, ctypes.c_void_p()
        self.status = library._call(call, *given, ctypes.byref(self.handle), *answer)

    def __del__(self, byref: Callable[[Any], Any] = ctypes.byref) -> None:
        if self.handle:
            self.library._free(byref(self.handle))


_Self = TypeVar("_Self", bound="_Held")


class _Held:
    """What the classes below are: a handle, until they are closed."""

    _owned: Optional[_Owned] = None

    def _open(self) -> _Owned:
        owned = self._owned
        if owned is None:
            raise Closed(type(self).__name__.lower())
        return owned

    def close(self) -> None:
        """Gives back what is held. A second time does nothing."""
        self._owned = None

    def __enter__(self: _Self) -> _Self:
        self._open()
        return self

    def __exit__(self, *_: Any) -> None:
        self.close()

    def __reduce__(self) -> Any:
        raise TypeError(f"a {type(self).__name__.lower()} is of this process alone")


class Schema(_Held):
    """A schema, read from a CSDL JSON document."""

    def __init__(self, document: BytesOrText, library: Optional[Library] = None) -> None:
        """Raises SchemaFault."""
        library, answer = library or _found(), _Answer()
        borrowed, size = _borrowed(document, "a document"), 256
        while True:
            room, names = _buffer_of(size)
            self._owned = _Owned(library, "read_schema", (borrowed, names), ctypes.byref(answer))
            if self._owned.status == OK:
                break
            if answer.length <= size:
                fault = SchemaFault(library._fault(SCHEMA_FAULT, answer.fault), _names_in(room, answer))
                raise library._worded(fault, SCHEMA_FAULT, answer, "".join(fault.names))
            size = answer.length

    def type(self, name: str) -> Type:
        """The entity type of that name, with its namespace or the alias of that. Raises UnknownType."""
        return Type(self, name)

    @property
    def types(self) -> list[DeclaredType]:
        """The entity and complex types, by the byte order of their names, each with its properties."""
        owned = self._open()
        return list(types_in(owned.library._text("types", owned.handle)))


class Type(_Held):
    """An entity type of a schema, which it keeps: `Schema.type` makes it."""

    def __init__(self, schema: Schema, name: str) -> None:
        owner = schema._open()
        self._owned = _Owned(owner.library, "find_type", (owner.handle, _borrowed_text(name, "a type's name")))
        if self._owned.status == UNKNOWN_TYPE:
            raise owner.library._worded(UnknownType(name), UNKNOWN_TYPE, _Answer(), name)

    @property
    def properties(self) -> tuple[DeclaredProperty, ...]:
        """The properties, those of the base type first."""
        owned = self._open()
        (declared,) = types_in(owned.library._text("types", owned.handle))
        return declared.properties

    def check(self, text: str) -> Filter:
        """The filter of that text. Raises Refused."""
        return Filter(self, "check", text, (_borrowed_text(text, "a filter"),), lambda _: text)

    def check_query(self, query: BytesOrText) -> Filter:
        """The filter of a query string, as it stands in a URL after the `?`, with no other option of the standard's.

        Raises Refused, QueryRefused, NoFilter.
        """
        return Filter(self, "check_query", query, (_borrowed(query, "a query"),), lambda _: _filter_text(query))

    def check_url(self, query: BytesOrText) -> Filter:
        """The filter of a whole query string, as it stands in a URL after the `?`, among any other options.

        Raises Refused, QueryRefused, NoFilter.
        """
        borrowed = _borrowed(query, "a query")
        room, text = _buffer_of(borrowed.length)
        return Filter(self, "check_url", query, (borrowed, text), lambda answer: room[: answer.length].decode())


def _place_in_query(found: Union[Filter, Refused], call: str, answer: _Answer) -> None:
    """Says where what `check_url` found stands in the query."""
    if call == "check_url":
        found.piece = range(answer.piece_start, answer.piece_stop)
        found.value = range(answer.value_start, answer.value_stop)


class Filter(_Held):
    """A checked filter, which keeps its type: `Type.check`, `Type.check_query` and `Type.check_url` make it.

    `text` is its text, decoded where it stood in a query. Of `check_url`, `piece` is the range of bytes of the query
    that the filter's option takes, name and value, and `value` that of its value, into which another may be put.
    """

    piece: Optional[range] = None
    value: Optional[range] = None

    def __init__(
        self, of_type: Type, call: str, given: BytesOrText, borrowed: tuple[Any, ...], text: Callable[[_Answer], str]
    ) -> None:
        owner, answer = of_type._open(), _Answer()
        self._owned = _Owned(owner.library, call, (owner.handle, *borrowed), ctypes.byref(answer))
        library, status = owner.library, self._owned.status
        if status == NO_FILTER:
            raise library._worded(NoFilter(), status, answer, given)
        name = library._fault(status, answer.fault) if status != OK else ""
        if status == QUERY_FAULT:
            raise library._worded(QueryRefused(name, answer.number), status, answer, given)
        self.text = text(answer)
        if status != OK:
            refused = Refused(_KINDS[status], name, answer.start, answer.stop, self.text)
            _place_in_query(refused, call, answer)
            raise library._worded(refused, status, answer, self.text, owner.handle)
        _place_in_query(self, call, answer)

    @property
    def canonical(self) -> str:
        """The canonical text: one for all filters that differ in spaces, parentheses and spelling alone."""
        owned = self._open()
        return owned.library._text("canonical", owned.handle)

    @property
    def explanation(self) -> str:
        """A line for each node: its span, what it is, and its type."""
        owned = self._open()
        return owned.library._text("explain", owned.handle)

    @property
    def needs_moment(self) -> bool:
        """Whether the filter calls now(), so that a judge needs a moment."""
        owned = self._open()
        return bool(owned.library._number("needs_moment", owned.handle))

    @property
    def lambda_depth(self) -> int:
        """How many any() and all() stand in one another, at most; 0 where there is none."""
        owned = self._open()
        return owned.library._number("lambda_depth", owned.handle)

    @property
    def node_count(self) -> int:
        """How many nodes the filter has: operators, calls, literals and names."""
        owned = self._open()
        return owned.library._number("node_count", owned.handle)

    @property
    def property_paths(self) -> list[str]:
        """The property paths that the filter reads, each once and in order: "Name", "Home/City", "Parts/Qty"."""
        owned = self._open()
        return owned.library._text("property_paths", owned.handle).splitlines()

    def sql(
        self,
        dialect: str,
        now: Optional[str] = None,
        columns: Optional[Mapping[str, str]] = None,
        document: Optional[str] = None,
    ) -> Conditions:
        """What the filter says of the rows of a table, as SQL of the dialect "postgresql" or "sqlite".

        `now` is the moment that now() stands for. Each property has a column of its name, or the one that `columns` has
        for it; or the column `document` has the row as JSON. Raises Unsayable, UnknownColumn, NotAMoment, MomentNeeded.
        """
        form = form_of(dialect, document)
        owned = self._open()
        return conditions_of(owned.library, owned.handle, form, now, columns_in(owned.library, columns or {}, document))

    def judge(self, now: Optional[str] = None, bound: Optional[int] = None) -> Judge:
        """A judge by this filter; `now` is the moment that now() stands for. Raises NotAMoment.

        `bound` is how much the filter may cost on a row: how many times it judges the body of an any() or all(), and
        how many items of lists and members of collections it compares after `in` within one; also, anywhere, the whole
        KiB of each text that a comparison takes, 8 times those of each that a function takes, and 16 times those of
        each that a function makes.
        """
        return Judge(self, now, bound)


class Judge(_Held):
    """What judges rows by a filter, which it keeps: `Filter.judge` makes it."""

    def __init__(self, by_filter: Filter, now: Optional[str] = None, bound: Optional[int] = None) -> None:
        self._filter, self._one_call, self._is_in_call = by_filter._open(), threading.RLock(), False
        library = self._filter.library
        owned = _Owned(library, "new_judge_of", (self._filter.handle,))
        if now is not None and library._call("set_moment", owned.handle, _borrowed_text(now, "a moment")) != OK:
            raise library._worded(NotAMoment(), NOT_A_MOMENT, _Answer(), now)
        if bound is not None:
            library._call("set_bound", owned.handle, _bound_of(bound))
        self._owned = owned

    def verdict(self, row: BytesOrText) -> Optional[bool]:
        """Whether the filter is true on a row, one JSON object; None where it is null.

        Raises RowFault, MomentNeeded, TooCostly.
        """
        owned = self._open()
        return _VERDICTS[self._answer(owned, "judge_next", owned.handle, _borrowed(row, "a row")).verdict]

    def filter_file(
        self,
        rows: FileOrPath,
        out: FileOrPath,
        on_fault: Optional[Callable[[Union[RowFault, TooCostly], bytes], Any]] = None,
        progress: Optional[Callable[[Tally], Any]] = None,
    ) -> Tally:
        """Writes the lines of a file on which the filter is true to another; each is a path or a binary file.

        Both being one file is a ValueError, and an output that takes less than it is given an OSError.
        The first line at fault raises RowFault, or TooCostly, after what is kept before it has been written. With
        `on_fault` the run goes on after that line: it calls `on_fault(fault, line)`, where `fault.line` counts the
        lines of the file from 1, and a line of more than 1,048,576 bytes is cut to one more than these.
        `progress(tally)` is called after each piece of about 1 MiB. What either raises ends the run.
        """
        return filter_file(self, rows, out, on_fault, progress)

    def filter_lines(self, rows: BytesOrText) -> Kept:
        """Of rows, one JSON object a line, those on which the filter is true, unchanged and each with a line feed.

        Blank lines are passed over. The first line at fault raises RowFault, or TooCostly, which has what is kept
        before it; also raises MomentNeeded.
        """
        owned, borrowed = self._open(), _borrowed(rows, "rows")
        room, kept = _buffer_of(borrowed.length + 1)
        answer = self._answer(owned, "filter_lines", self._filter.handle, owned.handle, borrowed, kept, room=room)
        return Kept(bytes(memoryview(room)[: answer.length]), answer.rows, answer.kept)

    def _answer(self, owned: _Owned, call: str, *given: Any, room: Optional[bytearray] = None) -> _Answer:
        """What a call by the judge answers; `room` has what a run over lines has written. Calls wait for one another.

        One that a handler of a signal makes, while it interrupts another one of its thread, would wait for ever.
        """
        answer = _Answer()
        with self._one_call:
            if self._is_in_call:
                raise RuntimeError("the judge is used within a call of its own")
            try:
                self._is_in_call = True
                status = owned.library._call(call, *given, ctypes.byref(answer))
                if status != OK:
                    line, kept = (1, b"") if room is None else (answer.number, bytes(memoryview(room)[: answer.length]))
                    raise self._fault(owned, status, answer, line, kept)
            finally:
                self._is_in_call = False
        return answer

    def _fault(self, owned: _Owned, status: int, answer: _Answer, line: int, kept: bytes) -> Error:
        library = owned.library
        if status == MOMENT_NEEDED:
            return library._worded(MomentNeeded(), status, answer, "")
        if status == TOO_COSTLY:
            return library._worded(TooCostly(line, kept), status, answer, "")
        path = library._text("path", owned.handle) if status == ROW_FAULT else ""
        fault = RowFault(library._fault(status, answer.fault), path, line, kept)
        return library._worded(fault, status, answer, path)


def _bound_of(bound: int) -> int:
    """The bound as the library takes it; what no row can cost is as good as none."""
    bound = operator.index(bound)
    if bound < 0:
        raise ValueError("a bound is not negative")
    return min(bound, (1 << 64) - 1)


def _filter_text(query: BytesOrText) -> str:
    """The decoded text of the option `filter` or `$filter` of a query; the empty one where there is none."""
    for option in (query.encode() if isinstance(query, str) else bytes(query)).split(b"&"):
        name, _, text = option.partition(b"=")
        if unquote_to_bytes(name).lower() in (b"filter", b"$filter"):
            return unquote_to_bytes(text).decode()
    return ""


def _names_in(room: bytearray, answer: _Answer) -> tuple[str, ...]:
    """The names that a schema's fault carries, one directly after the other."""
    names = room[: answer.first].decode(), room[answer.first : answer.length].decode()
    return names[: _NAMES_OF[answer.fault]]
