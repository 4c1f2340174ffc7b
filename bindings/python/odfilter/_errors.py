"""The errors of the module: what each has, and the line that the program prints for it."""
from __future__ import annotations

import json
from typing import Any, Optional


class Error(Exception):
    """What this module raises. Its text is a sentence, where the library has one, else the program's line."""

    sentence = ""
    _object = ""

    def as_dict(self) -> dict[str, Any]:
        """The object that the program writes of it by `--format json`, and an empty one where it writes none."""
        whole: dict[str, Any] = json.loads(self._object) if self._object else {}
        return whole

    @property
    def program_line(self) -> str:
        """The line that the program prints for it, and nothing where it prints none."""
        return ""

    def __str__(self) -> str:
        return self.sentence or self.program_line or super().__str__()


class LibraryNotFound(Error, OSError):
    """There is no library where it was looked for, or it is another one."""

    def __str__(self) -> str:
        return str(self.args[0])


class Closed(Error, ValueError):
    """What was asked has been closed."""

    def __str__(self) -> str:
        return f"the {self.args[0]} is closed"


class NotUtf8(Error, ValueError):
    """A text has a surrogate by itself, and so no UTF-8."""

    def __str__(self) -> str:
        return "not UTF-8"


class SchemaFault(Error):
    """A document is no schema: the fault's `name`, and the `names` that it carries, none to two."""

    def __init__(self, name: str, names: tuple[str, ...]) -> None:
        super().__init__(name, names)
        self.name, self.names = name, names

    @property
    def program_line(self) -> str:
        return " ".join(["schema", self.name, *self.names])


class UnknownType(Error):
    """A schema has no entity type of that `name`."""

    def __init__(self, name: str) -> None:
        super().__init__(name)
        self.name = name

    @property
    def program_line(self) -> str:
        return f"schema UnknownType {self.name}"


class Refused(Error):
    """A filter is refused.

    `kind` is "text", "syntax" or "type", by what it has not; `name` is the fault's; `start` and `stop` are its span in
    the UTF-8 of the filter's `text`: its first byte, from 0, and the one after its last. Of `check_url`, `piece` and
    `value` are as those of a `Filter`.
    """

    piece: Optional[range] = None
    value: Optional[range] = None

    def __init__(self, kind: str, name: str, start: int, stop: int, text: str) -> None:
        super().__init__(kind, name, start, stop, text)
        self.kind, self.name, self.start, self.stop, self.text = kind, name, start, stop, text

    @property
    def program_line(self) -> str:
        return f"refused {self.name} {self.start}..{self.stop}"

    def pointed(self) -> str:
        """The text of the filter, and below it a caret under each character of the span, one at least.

        What is not printable, as a line feed, stands there as U+FFFD.
        """
        text = self.text.encode()
        before, within = len(text[: self.start].decode()), len(text[self.start : self.stop].decode())
        shown = "".join(it if it.isprintable() else "\N{REPLACEMENT CHARACTER}" for it in self.text)
        return f"{shown}\n{' ' * before}{'^' * max(within, 1)}"


class QueryRefused(Error):
    """A query is refused: the fault's `name`, and its `number`: of BadEscape the byte of the `%`, else the option.

    Both are counted from 0, options that are empty too.
    """

    def __init__(self, name: str, number: int) -> None:
        super().__init__(name, number)
        self.name, self.number = name, number

    @property
    def program_line(self) -> str:
        return f"refused query {self.name} {self.number}"


class NoFilter(Error):
    """No option of a query is the filter."""

    @property
    def program_line(self) -> str:
        return "usage no filter option"


class NotAMoment(Error, ValueError):
    """A text spells no moment."""

    @property
    def program_line(self) -> str:
        return "usage now is not a moment"


class MomentNeeded(Error):
    """A filter calls now(), and its judge was made without a moment."""

    @property
    def program_line(self) -> str:
        return "usage now is needed"


class TooCostly(Error):
    """A filter costs more on a row than the bound of its judge allows; `line` and `kept` are as of RowFault."""

    def __init__(self, line: int = 1, kept: bytes = b"") -> None:
        super().__init__(line, kept)
        self.line, self.kept = line, kept


class Unsayable(Error):
    """A filter has no conditions of SQL for an engine: `name` is "Nul" or "TooDeep".

    "Nul": a literal, or the name of a column that the filter need not ask, has U+0000. "TooDeep": the filter nests over
    100 levels, or the conditions more deeply than the engine's parser goes.
    """

    def __init__(self, name: str) -> None:
        super().__init__(name)
        self.name = name


class UnknownColumn(Error, ValueError):
    """A column was named for what is no property of the filter's type."""


class RowFault(Error):
    """A row has no verdict.

    `name` is the fault's, `path` leads from the row to the value at fault, as "Parts/0/Qty", and is empty where there
    is none. Of `filter_lines`, `line` is the line at fault, from 1, and `kept` what is kept of the lines before that;
    of a row by itself `line` is 1 and `kept` is empty.
    """

    def __init__(self, name: str, path: str = "", line: int = 1, kept: bytes = b"") -> None:
        super().__init__(name, path, line, kept)
        self.name, self.path, self.line, self.kept = name, path, line, kept

    @property
    def reported(self) -> str:
        """The name, and the path where there is one."""
        return f"{self.name} {self.path}" if self.path else self.name

    @property
    def program_line(self) -> str:
        return f"row {self.line} {self.reported}"


# They are the module's own: so are they shown, and sent to other processes.
for _kind in [Error, *Error.__subclasses__()]:
    _kind.__module__ = __package__
