"""The npm package: the addon compiled without a warning, node's own test runner, and tsc --strict."""
import glob
import re
import shutil

from .common import CLIENTS, EXAMPLES, TOP, answers_suite, has_done, has_figures, kit, on_stack, prints_page, run
from .served import checks_of_server

BINDING = f"{TOP}/bindings/node"
# Debian's compiler has no types of Node, so a file of the test declares those few that are used
# KiB of stack on which the process judges by the deepest filters
STACK = 1024
TYPES = ["index.d.ts", "test/types.ts", "test/node.d.ts"]
STRICT = ["--strict", "--noEmit", "--target", "es2020", "--lib", "es2020", "--moduleResolution", "node"]


def package(room):
    return f"{room}/node_modules/odfilter"


def is_built(room):
    for words in ([], [kit()], [room, package(room)]):
        yield f"bindings/node/build with {len(words)} words", run([f"{BINDING}/build", *words])[0] == 2, words
    yield "bindings/node/build", *has_done([f"{BINDING}/build", kit(), package(room)])
    shutil.copytree(f"{BINDING}/test", f"{package(room)}/test")
    files = sorted(glob.glob("test/*.test.js", root_dir=package(room)))
    status, out, err = run(["node", "--test", *files], cwd=package(room))
    counts = re.search(rb"^# pass (\d+)\n# fail 0$", out, re.MULTILINE)
    yield "node --test", status == 0 and counts is not None and int(counts[1]) > 2, (status, out[-3_000:], err)
    yield from has_figures("Node", 3, out)
    words = [*on_stack(STACK), "node", "--test", "test/figures.test.js"]
    yield f"on a stack of {STACK} KiB", run(words, cwd=package(room))[0] == 0, words
    yield "tsc --strict", *has_done(["tsc", *STRICT, *TYPES], cwd=package(room))


def answers(room):
    yield from answers_suite(room, "suite.js", ["node", f"{CLIENTS}/suite.js", package(room)])


def page(room):
    yield from prints_page(room, f"{BINDING}/README.md", "js", f"{room}/page.js", ["node", "page.js"])


def example(room):
    """Debian has Express for all programs, beside which the package is linked."""
    shutil.copytree(f"{EXAMPLES}/express", f"{room}/express")
    words = ["node", f"{room}/express/server.js"]
    yield from checks_of_server("examples/express", words, room, more={"NODE_PATH": "/usr/share/nodejs"})


def checks(room):
    for group in (is_built, answers, page, example):
        yield from group(room)


GROUPS = [checks]
