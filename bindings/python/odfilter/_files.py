"""Rows from one file to another, piece by piece: what `Judge.filter_file` does."""
from __future__ import annotations

import contextlib
import errno
import io
import os
import stat
from typing import TYPE_CHECKING, Any, BinaryIO, Callable, Iterator, NamedTuple, Optional, Union

from ._errors import RowFault, TooCostly

if TYPE_CHECKING:
    from . import Judge

LINE_LIMIT = 1 << 20  # a longer line is at fault
BLOCK = 1 << 20  # bytes that are read at once
FEW = 1 << 12  # bytes that are judged at once after a fault

FileOrPath = Union[BinaryIO, str, os.PathLike[str]]


class Tally(NamedTuple):
    """What a run over a file has done so far: rows with a verdict, rows kept, rows at fault, and bytes read."""

    rows: int
    kept: int
    faults: int
    size: int


def blocks_of(read: Callable[[int], Optional[bytes]]) -> Iterator[bytes]:
    """What a file has, as it gives it."""
    while block := read(BLOCK):
        yield block
    if block is None:
        raise BlockingIOError(errno.EAGAIN, "the file of rows does not wait for what comes")


def pieces_of(blocks: Iterator[bytes]) -> Iterator[bytes]:
    """The text of a file in pieces of whole lines. A line over the limit is cut to one byte more than that."""
    rest, is_cut = bytearray(), False
    for block in blocks:
        if is_cut:
            # what follows the line feed of the line that was cut, if that is there yet
            _, found, block = block.partition(b"\n")
            is_cut = not found
        end = block.rfind(b"\n") + 1
        if end:
            yield bytes(rest) + block[:end]
            rest.clear()
        rest += block[end:]
        if len(rest) > LINE_LIMIT:
            yield bytes(rest[: LINE_LIMIT + 1]) + b"\n"
            rest.clear()
            is_cut = True
    if rest:
        yield bytes(rest)


class Run:
    """A run over a file: where it writes, and what it has done."""

    def __init__(
        self, judge: Judge, out: BinaryIO, on_fault: Optional[Callable[[Union[RowFault, TooCostly], bytes], Any]]
    ) -> None:
        self.judge, self.out, self.on_fault = judge, out, on_fault
        self.rows = self.kept = self.faults = self.size = self.lines = 0
        self.step = BLOCK

    def tally(self) -> Tally:
        return Tally(self.rows, self.kept, self.faults, self.size)

    def take(self, piece: bytes) -> None:
        """Judges the lines of a piece, and writes those that are kept."""
        start = 0
        while start < len(piece):
            stop = piece.find(b"\n", min(start + self.step, len(piece)) - 1) + 1 or len(piece)
            start = self.lines_between(piece, start, stop)
        self.out.flush()

    def lines_between(self, piece: bytes, start: int, stop: int) -> int:
        """Judges some lines, up to the first at fault, and returns where the next ones begin."""
        try:
            kept = self.judge.filter_lines(memoryview(piece)[start:stop])
        except (RowFault, TooCostly) as fault:
            return self.after_fault(fault, piece, start)
        self.write(kept.text)
        self.rows, self.kept = self.rows + kept.rows, self.kept + kept.kept
        self.lines += piece.count(b"\n", start, stop)
        # Each call has a buffer as long as its lines: after many faults in a row these are short.
        self.step = min(2 * self.step, BLOCK)
        return stop

    def write(self, kept: bytes) -> None:
        """Writes lines. A raw file may take less than it is given, and one that does not wait nothing."""
        taken = self.out.write(kept)
        if taken is None and isinstance(self.out, io.RawIOBase):
            taken = 0
        if taken is not None and taken < len(kept):
            raise OSError(errno.EIO, f"the output took {taken} bytes of {len(kept)}")

    def after_fault(self, fault: Union[RowFault, TooCostly], piece: bytes, start: int) -> int:
        """Writes what is kept before a fault, reports that, and returns where the line after it begins."""
        begin = start
        for _ in range(fault.line - 1):
            begin = piece.index(b"\n", begin) + 1
        end = piece.find(b"\n", begin)
        end = end if end >= 0 else len(piece)
        self.write(fault.kept)
        self.rows += sum(1 for line in piece[start:begin].split(b"\n") if line.strip(b" \t\r"))
        self.kept, self.faults = self.kept + fault.kept.count(b"\n"), self.faults + 1
        self.lines += fault.line
        fault.line, fault.kept = self.lines, b""
        fault.args = (*fault.args[:-2], fault.line, fault.kept)
        self.step = FEW
        if self.on_fault is None:
            self.out.flush()
            raise fault
        self.on_fault(fault, piece[begin:end])
        return end + 1


def status_of(file: FileOrPath) -> Optional[os.stat_result]:
    """What the system knows of a file, where it is there and is one of its own."""
    try:
        return os.stat(file if isinstance(file, (str, os.PathLike)) else file.fileno())
    except (OSError, AttributeError):
        return None


def are_one(rows: FileOrPath, out: FileOrPath) -> bool:
    """Whether what is written would go into the file that is read: a stream by itself, or a file by two names."""
    first, second = status_of(rows), status_of(out)
    if first is None or second is None:
        return rows is out
    return os.path.samestat(first, second) and stat.S_ISREG(first.st_mode)


def filter_file(
    judge: Judge,
    rows: FileOrPath,
    out: FileOrPath,
    on_fault: Optional[Callable[[Union[RowFault, TooCostly], bytes], Any]],
    progress: Optional[Callable[[Tally], Any]],
) -> Tally:
    if are_one(rows, out):
        raise ValueError("the rows and the output are one file")
    with contextlib.ExitStack() as stack:
        source = stack.enter_context(open(rows, "rb")) if isinstance(rows, (str, os.PathLike)) else rows
        target = stack.enter_context(open(out, "wb")) if isinstance(out, (str, os.PathLike)) else out
        run = Run(judge, target, on_fault)
        # What has come is judged before more is waited for, where the file can say what that is.
        for piece in pieces_of(blocks_of(getattr(source, "read1", None) or source.read)):
            run.take(piece)
            run.size += len(piece)
            if progress is not None:
                progress(run.tally())
    return run.tally()
