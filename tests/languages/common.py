"""What the languages have in common: commands, the suite, and the program of a README."""
import functools
import os
import re
import shutil
import subprocess
import time

from built_program import TOP
from library_cases import Suite

__all__ = ["CLIENTS", "EXAMPLES", "TOP", "answers_suite", "environment_with", "has_done", "has_figures", "is_there"]
__all__ += ["kit", "kit_of", "on_stack", "prints_page", "run", "text_of"]
CLIENTS = f"{TOP}/tests/clients"
EXAMPLES = f"{TOP}/examples"
DATA = f"{TOP}/crates/odfilter/data"
LIMIT = 600  # seconds that only a hang takes


def kit_of(library):
    """The folder that bindings/c/build made, by the shared library in it."""
    return os.path.dirname(os.path.dirname(library))


def kit():
    return kit_of(os.environ["ODFILTER_LIBRARY"])


def is_there(path):
    return os.path.exists(path)


def text_of(path):
    with open(path, encoding="utf-8") as file:
        return file.read()


def environment_with(more):
    """The environment of a command: this one, and more variables. No server is asked by way of a proxy."""
    return {**os.environ, "no_proxy": "*", **more}


def run(words, **how):
    """The status of a command, and all that it said; `more` is added to its environment."""
    env = environment_with(how.pop("more", {}))
    done = subprocess.run(words, capture_output=True, stdin=subprocess.DEVNULL, timeout=LIMIT, env=env, **how)
    return done.returncode, done.stdout, done.stderr.decode(errors="backslashreplace")


def has_done(words, **how):
    """Whether a command ended well and had nothing to warn of."""
    status, out, err = run(words, **how)
    return status == 0 and not err, (status, out.decode(errors="backslashreplace"), err)


def on_stack(size):
    """The words before a command that has its main thread, and the threads of C, on so many KiB of stack."""
    return ["prlimit", f"--stack={size << 10}"]


def has_figures(name, count, out):
    """What a binding's tests have measured is printed: so many lines that begin with `figure: `."""
    figures = re.findall(r"figure: (.*)", out.decode(errors="backslashreplace"))
    for figure in figures:
        print(f"{name}: {figure}")
    yield f"{name}: figures", len(figures) == count, figures


@functools.lru_cache(maxsize=None)
def suite():
    return Suite()


def answers_suite(room, name, words, **how):
    """The suite's cases, each with its differences from what a client answers."""
    path, began = f"{room}/{name}.questions", time.monotonic()
    with open(path, "wb") as out:
        out.write(suite().wire())
    status, out, err = run([*words, path], **how)
    yield f"{name} answers the suite", status == 0 and not err, (status, out[-500:], err)
    different = 0
    for case, differences in suite().compared(out).items() if status == 0 else ():
        different += bool(differences)
        yield f"{name}: {case}", not differences, differences[:5]
    seconds = time.monotonic() - began
    print(f"{name}: {suite().questions.count:,} questions, {different} cases differ, {seconds:.0f} s")


def blocks(page):
    """The blocks of a page: the language of each and its text."""
    return re.findall(r"^```(\w*)\n(.*?)^```$", text_of(page), re.MULTILINE | re.DOTALL)


def program_of(page, language):
    """The first block of a README in a language, and the plain block after it, which is what it prints."""
    found = blocks(page)
    at = next(number for number, (named, _) in enumerate(found) if named == language)
    return found[at][1], next(text for named, text in found[at + 1 :] if named == "")


def prints_page(room, page, language, place, words, **how):
    """The program of a README, put into a file and run beside a schema and rows, prints what stands there."""
    source, wanted = program_of(page, language)
    with open(place, "w", encoding="utf-8") as out:
        out.write(source)
    for name in ("schema.json", "rows.json"):
        shutil.copy(f"{DATA}/{name}", room)
    status, out, err = said = run(words, cwd=room, **how)
    yield f"the program of {os.path.relpath(page, TOP)}", (status, out.decode(), err) == (0, wanted, ""), said
