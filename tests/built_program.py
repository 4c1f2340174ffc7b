"""The built program, by both compilers, and the ways to run it: for tests/program, tests/great_texts,
tests/drawn_lines, tests/drawn_rows and tests/damaged_rows. A group of checks takes a folder of its own and gives names,
whether all is well, and what was said.
"""
import itertools
import os
import resource
import subprocess
import sys
import tempfile
import traceback

TOP = os.path.dirname(os.path.dirname(os.path.realpath(__file__)))
PROGRAM = f"{TOP}/crates/odfilter/out/odfilter"
# the program as the second compiler makes it, which `rt ci` leaves beside the first; with --first it is not asked for
SECOND = f"{PROGRAM}.by-rattle"
MEMORY_STEP = 1 << 16


def programs():
    """Both programs, with `--first` the first alone, or the one that stands after `--program`."""
    if "--program" in sys.argv:
        return [sys.argv[sys.argv.index("--program") + 1]]
    return [PROGRAM] if "--first" in sys.argv else [PROGRAM, SECOND]


def are_there():
    """A check for each program: without one nothing is shown."""
    return [(f"{os.path.basename(program)} is there", os.path.exists(program), program) for program in programs()]


def write(path, text):
    with open(path, "w", encoding="utf-8") as out:
        out.write(text)
    return path


def in_utf8(words):
    """The words as bytes, whatever the locale is."""
    return [word.encode("utf-8", "surrogateescape") if isinstance(word, str) else word for word in words]


def run(words, rows="", program=f"{TOP}/odfilter", **how):
    """The answer of a run; `rows` is the text of standard input, its bytes or an open file."""
    rows = rows.encode() if isinstance(rows, str) else rows
    source = {"input": rows} if isinstance(rows, bytes) else {"stdin": rows}
    streams = {"stdout": subprocess.PIPE, "stderr": subprocess.PIPE}
    done = subprocess.run(in_utf8([program, *words]), timeout=120, **{**streams, **source, **how})
    return (done.stdout or b"").decode(), (done.stderr or b"").decode(), done.returncode


def limited(kind, size):
    """Options of a run that has so many bytes of a resource."""
    return {"preexec_fn": lambda: resource.setrlimit(kind, (size, size))}


def within(size):
    """Options of a run that has so many bytes of memory."""
    return limited(resource.RLIMIT_AS, size)


def on_stack(size):
    """Options of a run that has so many bytes of stack."""
    return limited(resource.RLIMIT_STACK, size)


def on_small_stack(program):
    """Options of a run of that program on the least stack on which it works: the second compiler's frames are larger."""
    return on_stack(512 << 10 if program.endswith(".by-rattle") else 256 << 10)


def answers_as_memory_grows(words, rows="", program=PROGRAM):
    """The answers of runs with more and more memory, from the first of the program's own: each change, its size."""
    answers = []
    for size in range(0, 1 << 24, MEMORY_STEP):
        try:
            said = run(words, rows, program, **within(size))
        except OSError:
            continue
        is_loaded = 0 <= said[2] < 127
        if (answers or is_loaded) and (not answers or answers[-1][0] != said):
            answers.append((said, size))
    return answers


def until_it_breaks(group, room):
    """The checks of a group; an exception is one more, which fails, and the next group goes on."""
    try:
        yield from group(room)
    except Exception:  # pylint: disable=broad-except
        yield f"{group.__name__} broke off", False, traceback.format_exc()


def count(groups, shown=10_000):
    """Runs groups of checks and prints what fails, of what was said so many characters; then counts of both."""
    sys.stdout.reconfigure(encoding="utf-8", errors="backslashreplace")
    passed = failed = 0
    with tempfile.TemporaryDirectory() as room:
        for name, is_well, said in itertools.chain.from_iterable(until_it_breaks(group, room) for group in groups):
            passed, failed = passed + is_well, failed + (not is_well)
            if not is_well:
                print(f"FAILED {name}: {said!r}"[:shown])
    return passed, failed


def end(passed, failed):
    """The last line of a script, and its status."""
    print(f"{passed} passed, {failed} failed")
    return 1 if failed else 0
