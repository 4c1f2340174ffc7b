"""The C library, loaded: what include/odfilter.h has, over ctypes, and what its calls borrow."""
from __future__ import annotations

import ctypes
import functools
import mmap
import os
from typing import Any, Optional, TypeVar, Union

from ._errors import Error, LibraryNotFound, NotUtf8

BytesOrText = Union[bytes, bytearray, memoryview, mmap.mmap, str]

# the statuses of odfilter.h
OK, NULL, OTHER_KIND, NOT_UTF8, TOO_SMALL, MEMORY, UNKNOWN_TYPE, NO_FILTER, MOMENT_NEEDED, NOT_A_MOMENT = range(10)
SCHEMA_FAULT, TEXT_FAULT, SYNTAX_FAULT, TYPE_FAULT, QUERY_FAULT = range(16, 21)
JSON_FAULT, ROW_FAULT, EVAL_FAULT, LINE_TOO_LONG, TOO_COSTLY, UNSAYABLE, TOO_DEEP, UNKNOWN_COLUMN = range(21, 29)
# its verdicts
FALSE, TRUE, NO_TRUTH_VALUE = range(3)


class _Bytes(ctypes.Structure):
    """Bytes that a call borrows."""

    _fields_ = [("at", ctypes.c_char_p), ("length", ctypes.c_size_t)]


class _PyBuffer(ctypes.Structure):
    """Where the bytes of a Python object are: the interpreter's own Py_buffer."""

    _fields_ = [("at", ctypes.c_void_p), ("owner", ctypes.c_void_p), ("length", ctypes.c_ssize_t)]
    _fields_ += [("item_size", ctypes.c_ssize_t), ("readonly", ctypes.c_int), ("ndim", ctypes.c_int)]
    _fields_ += [(name, ctypes.c_void_p) for name in ("format", "shape", "strides", "suboffsets", "internal")]


class _BufferBytes(_Bytes):
    """The bytes of a bytearray, a memoryview or an mmap, which stay where they are as long as this is held."""

    def __init__(self, given: Any) -> None:
        self._buffer = _PyBuffer()
        ctypes.pythonapi.PyObject_GetBuffer(ctypes.py_object(given), ctypes.byref(self._buffer), 0)
        super().__init__(ctypes.c_char_p(self._buffer.at), self._buffer.length)

    def __del__(self, release: Any = ctypes.pythonapi.PyBuffer_Release, byref: Any = ctypes.byref) -> None:
        release(byref(self._buffer))


class _Buffer(ctypes.Structure):
    """A buffer that a call writes a text into."""

    _fields_ = [("at", ctypes.c_void_p), ("length", ctypes.c_size_t)]


class _Answer(ctypes.Structure):
    """What a call answers besides its status."""

    _fields_ = [("fault", ctypes.c_uint32), ("verdict", ctypes.c_uint32), ("start", ctypes.c_size_t)]
    _fields_ += [("stop", ctypes.c_size_t), ("number", ctypes.c_uint64), ("length", ctypes.c_size_t)]
    _fields_ += [("first", ctypes.c_size_t), ("rows", ctypes.c_uint64), ("kept", ctypes.c_uint64)]
    _fields_ += [("piece_start", ctypes.c_size_t), ("piece_stop", ctypes.c_size_t)]
    _fields_ += [("value_start", ctypes.c_size_t), ("value_stop", ctypes.c_size_t)]


_AnError = TypeVar("_AnError", bound=Error)
_HANDLE, _PLACE, _ANSWER = ctypes.c_void_p, ctypes.POINTER(ctypes.c_void_p), ctypes.POINTER(_Answer)
_NUMBER = ctypes.c_uint32
_COUNT = ctypes.c_uint64
# the calls of odfilter.h, without odfilter_: what each is given
_CALLS: dict[str, list[Any]] = {
    "read_schema": [_Bytes, _Buffer, _PLACE, _ANSWER],
    "types": [_HANDLE, _Buffer, _ANSWER],
    "find_type": [_HANDLE, _Bytes, _PLACE],
    "check": [_HANDLE, _Bytes, _PLACE, _ANSWER],
    "check_query": [_HANDLE, _Bytes, _PLACE, _ANSWER],
    "check_url": [_HANDLE, _Bytes, _Buffer, _PLACE, _ANSWER],
    "canonical": [_HANDLE, _Buffer, _ANSWER],
    "explain": [_HANDLE, _Buffer, _ANSWER],
    "needs_moment": [_HANDLE, _ANSWER],
    "lambda_depth": [_HANDLE, _ANSWER],
    "node_count": [_HANDLE, _ANSWER],
    "property_paths": [_HANDLE, _Buffer, _ANSWER],
    "sql": [_HANDLE, _NUMBER, _Bytes, _Buffer, _ANSWER],
    "new_sql": [_HANDLE, _NUMBER, _Bytes, _PLACE, _ANSWER],
    "sql_text": [_HANDLE, _NUMBER, _Buffer, _ANSWER],
    "sql_value": [_HANDLE, _NUMBER, _NUMBER, _Buffer, _ANSWER],
    "new_judge": [_PLACE],
    "new_judge_of": [_HANDLE, _PLACE],
    "set_moment": [_HANDLE, _Bytes],
    "set_bound": [_HANDLE, _COUNT],
    "judge": [_HANDLE, _HANDLE, _Bytes, _ANSWER],
    "judge_next": [_HANDLE, _Bytes, _ANSWER],
    "filter_lines": [_HANDLE, _HANDLE, _Bytes, _Buffer, _ANSWER],
    "path": [_HANDLE, _Buffer, _ANSWER],
    "share": [_HANDLE, _PLACE],
    "free": [_PLACE],
    "fits": [_COUNT],
    "version": [_Buffer, _ANSWER],
    "status_name": [_NUMBER, _Buffer, _ANSWER],
    "fault_name": [_NUMBER, _NUMBER, _Buffer, _ANSWER],
    "fault_text": [_HANDLE, _NUMBER, _Bytes, _Buffer, _ANSWER, _ANSWER],
    "fault_json": [_HANDLE, _NUMBER, _Bytes, _Buffer, _ANSWER, _ANSWER],
}


class Library:
    """The C library: that of a path, else that of the variable ODFILTER_LIBRARY, else the one beside this module."""

    def __init__(self, path: Optional[Union[str, os.PathLike[str]]] = None) -> None:
        self.path = os.fspath(path or os.environ.get("ODFILTER_LIBRARY") or _beside())
        try:
            loaded = ctypes.CDLL(self.path)
            self._calls = {name: getattr(loaded, f"odfilter_{name}") for name in _CALLS}
        except (OSError, AttributeError) as fault:
            raise LibraryNotFound(f"no library odfilter at {self.path}: {fault}") from fault
        for name, given in _CALLS.items():
            self._calls[name].argtypes, self._calls[name].restype = given, _NUMBER
        if self._calls["fits"](ctypes.sizeof(_Answer)) != OK:
            raise LibraryNotFound(f"the library at {self.path} is newer than this module: its answers are longer")
        self._free = self._calls["free"]
        self._fault = functools.lru_cache(maxsize=None)(self._fault_name)

    @property
    def version(self) -> str:
        """The library's version."""
        return self._text("version")

    def _call(self, name: str, *given: Any) -> int:
        """The status of a call, unless it is one of those of any call."""
        status: int = self._calls[name](*given)
        if status == OK:
            return OK
        if status == MEMORY:
            raise MemoryError("odfilter")
        if status == NOT_UTF8:
            raise NotUtf8()
        if status in (NULL, OTHER_KIND):
            raise Error(f"odfilter_{name}: {self._text('status_name', status)}")
        return status

    def _number(self, name: str, handle: ctypes.c_void_p) -> int:
        """The number that a call answers of a handle."""
        answer = _Answer()
        self._call(name, handle, ctypes.byref(answer))
        number: int = answer.number
        return number

    def _text(self, name: str, *given: Any, about: tuple[Any, ...] = ()) -> str:
        """The text that a call writes; `about` is what it is given after the buffer."""
        size = 256
        while True:
            (room, borrowed), answer = _buffer_of(size), _Answer()
            if self._call(name, *given, borrowed, *about, ctypes.byref(answer)) != TOO_SMALL:
                return room[: answer.length].decode()
            size = answer.length

    def _fault_name(self, status: int, fault: int) -> str:
        return self._text("fault_name", status, fault)

    def _worded(self, error: _AnError, status: int, answer: _Answer, about: BytesOrText, of: Any = None) -> _AnError:
        """An error with its sentence and its object.

        `about` is the text at fault, `of` the handle of the type, where there is one.
        """
        borrowed = _borrowed(about, "a text")
        given = of, status, borrowed
        error.sentence = self._text("fault_text", *given, about=(ctypes.byref(answer),))
        error._object = self._text("fault_json", *given, about=(ctypes.byref(answer),))
        return error


def _buffer_of(size: int) -> tuple[bytearray, _Buffer]:
    """A buffer of our own, and as the argument of a call, which must not outlive it."""
    room = bytearray(max(size, 1))
    return room, _Buffer(ctypes.addressof(ctypes.c_char.from_buffer(room)), size)


def _beside() -> str:
    """Where the library is beside this module: in its folder, or in the one that holds that."""
    folder = os.path.dirname(os.path.realpath(__file__))
    paths = [os.path.join(it, "libodfilter.so") for it in (folder, os.path.dirname(folder))]
    return next((path for path in paths if os.path.exists(path)), paths[0])


@functools.lru_cache(maxsize=None)
def _found() -> Library:
    return Library()


def _borrowed(given: BytesOrText, what: str) -> _Bytes:
    """Bytes as a call borrows them; a str stands for its UTF-8. A class of one's own may say another length."""
    if isinstance(given, str):
        given = str.encode(given, "utf-8", "surrogatepass")
    if isinstance(given, bytes):
        return _Bytes(given, bytes.__len__(given))
    if isinstance(given, (bytearray, memoryview, mmap.mmap)) and len(given) > 0:
        return _BufferBytes(given)
    if isinstance(given, (bytearray, memoryview)):
        return _Bytes(b"", 0)
    raise TypeError(f"{what} is bytes or a str, not {type(given).__name__}")


def _borrowed_text(given: str, what: str) -> _Bytes:
    if not isinstance(given, str):
        raise TypeError(f"{what} is a str, not {type(given).__name__}")
    return _borrowed(given, what)


# It is the module's own, and shown so.
Library.__module__ = __package__
