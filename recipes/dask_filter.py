#!/usr/bin/python3
"""Filters rows on many machines, by dask.distributed: each part of a file of rows is judged where a worker is free.

    dask_filter.py SCHEDULER --schema FILE --type NAME --filter TEXT [--now MOMENT] [--block BYTES] ROWS..

ROWS are files of one JSON object a line, or folders, whose files are taken in the order of their names. A file is cut
into equal parts of about so many bytes, by `odfilter filter --part K/N`. The kept lines are written to standard output
in the order of the input: what one `odfilter filter` over all of the files writes. The first row at fault ends the run:
what is kept before it is written, then `FILE: row 3 Missing Active` is reported, with the line in that file. The
statuses are those of docs/CLI.md.

A worker that dies loses nothing and doubles nothing: its parts are judged again, and each is written once. One that
joins takes part. With none left the run waits for the next.

On each machine: `apt-get install python3-distributed`, the program (`odfilter` on the path, or what the variable
ODFILTER names), and the schema and the rows by the same paths. Then, with one thread for each core of the workers:

    dask-scheduler --port 8786                            # on one of them
    dask-worker tcp://HOST:8786 --nthreads 4              # on each
    recipes/dask_filter.py tcp://HOST:8786 --schema ..    # where the lines are wanted

It is Debian's Python that has dask, so that runs this file. Whoever reaches the port of a scheduler can run programs on
its workers: keep it within a network that you trust, or use dask's TLS.
"""
import argparse
import collections
import logging
import os
import subprocess
import sys

from distributed import Client
from distributed.scheduler import KilledWorker

BLOCK = 16 << 20  # bytes of rows that one task judges
PIECE = 1 << 20  # bytes that are read at once to count lines
WAIT = 60  # seconds for the first worker to join

# one of so many equal parts of a file that has so many bytes
Part = collections.namedtuple("Part", "path size number parts")
# what the program wrote about a part, and its status
Answer = collections.namedtuple("Answer", "kept reported status")


class Stop(Exception):
    """What ends a run early: the line that is reported, and the status."""

    def __init__(self, line, status):
        super().__init__(line)
        self.status = status


def answer_of(words, path, *more):
    """What the program says of the rows of a file."""
    line = [os.environ.get("ODFILTER", "odfilter"), "filter", *words, "--hints=never", f"--rows={path}", *more]
    done = subprocess.run(line, stdin=subprocess.DEVNULL, capture_output=True, check=False)
    return done.stdout, done.stderr.decode(errors="replace").rstrip("\n"), done.returncode


def answer_of_part(words, path, size, number, parts):
    """What the program says of a part of a file, on a worker."""
    if os.stat(path).st_size != size:
        raise OSError("its length has changed")
    return answer_of(words, path, f"--part={number}/{parts}")


def opened(path):
    try:
        return open(path, "rb")
    except OSError as fault:
        raise Stop(f"read {path}", 5) from fault


def files_of(paths):
    """The files that are named, and those in the folders, in the order of their names; each can be read."""
    for path in paths:
        inner = [entry.path for entry in os.scandir(path)] if os.path.isdir(path) else [path]
        for file in sorted(map(os.path.abspath, inner), key=os.fsencode):
            with opened(file):
                yield file


def parts_of(path, block):
    """The parts of a file, of about so many bytes."""
    with opened(path) as file:
        size = os.fstat(file.fileno()).st_size
    parts = -(-size // block)
    for number in range(1, parts + 1):
        yield Part(path, size, number, parts)


def lines_before(part):
    """How many lines of its file begin before a part."""
    left = part.size * (part.number - 1) // part.parts - 1
    if left < 0:
        return 0
    lines = 1
    with opened(part.path) as file:
        while left and (piece := file.read(min(PIECE, left))):
            lines, left = lines + piece.count(b"\n"), left - len(piece)
    return lines


def judged(client, words, parts):
    """Each part with its answer to come, in order; under way are no more than two for each thread of the workers."""
    waiting = collections.deque()
    for part in parts:
        # not pure: in the next run the same part may have other rows
        waiting.append((part, client.submit(answer_of_part, words, *part, pure=False)))
        if len(waiting) >= 2 * max(1, sum(client.nthreads().values())):
            yield waiting.popleft()
    yield from waiting


def settle(part, future):
    try:
        return Answer(*future.result())
    except OSError as fault:
        raise Stop(f"read {part.path}: {fault}", 5) from fault
    except KilledWorker as fault:
        lost = f"each worker died that judged part {part.number}/{part.parts}"
        raise Stop(f"{part.path}: {lost}", 5) from fault


def stop_of(part, reported, status):
    """What ends the run at a part: a row at fault by its line in the file, or as the program reports it."""
    line = reported.removeprefix(f"part {part.number}/{part.parts}: ")
    if status == 4:
        _, number, fault = line.split(" ", 2)
        line = f"row {lines_before(part) + int(number)} {fault}"
    if status == 5:
        return Stop(f"read {part.path}", status)
    return Stop(line if status == 6 else f"{part.path}: {line}", status)


def write_kept(answers, out):
    """Writes what is kept, up to the first fault."""
    for part, future in answers:
        kept, reported, status = settle(part, future)
        try:
            out.write(kept)
            out.flush()
        except OSError as failed:
            raise Stop("write", 5) from failed
        if status:
            raise stop_of(part, reported, status)


def run(words, out):
    given = [f"--schema={os.path.abspath(words.schema)}", f"--type={words.type}", f"--filter={words.filter}"]
    given += [] if words.now is None else [f"--now={words.now}"]
    # what is refused is reported before a worker is asked
    _, reported, status = answer_of(given, os.devnull)
    if status:
        raise Stop(reported, status)
    files = list(files_of(words.rows))
    with Client(words.scheduler, set_as_default=False) as client:
        client.wait_for_workers(1, timeout=WAIT)
        parts = (part for file in files for part in parts_of(file, words.block))
        write_kept(judged(client, given, parts), out)


def words_of(line):
    parser = argparse.ArgumentParser(usage=__doc__.split("\n")[2].strip())
    parser.add_argument("scheduler")
    parser.add_argument("rows", nargs="+")
    for name in ("--schema", "--type", "--filter"):
        parser.add_argument(name, required=True)
    parser.add_argument("--now")
    parser.add_argument("--block", type=int, default=BLOCK)
    words = parser.parse_args(line)
    if words.block < 1:
        parser.error("a block has one byte at least")
    return words


def main():
    words = words_of(sys.argv[1:])
    logging.disable()  # what dask says by itself, as of a worker that dies
    try:
        run(words, os.fdopen(1, "wb", closefd=False))
        return 0
    except Stop as stop:
        line, status = stop, stop.status
    except Exception as fault:  # pylint: disable=broad-except
        line, status = f"{type(fault).__name__}: {fault}", 5
    print(line, file=sys.stderr)
    return status


if __name__ == "__main__":
    sys.exit(main())
