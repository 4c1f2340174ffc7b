"""The Go module: gofmt, go vet and go test, without a network."""
import os
import shutil

from .common import CLIENTS, EXAMPLES, TOP, answers_suite, has_done, has_figures, kit, on_stack, prints_page, run
from .served import checks_of_server

BINDING = f"{TOP}/bindings/go"
MODULE = "example.org/odfilter"
# KiB of stack of a thread of C that judges by the deepest filters
STACK = 256


def environment(room):
    """What the tool `go` is given: its caches in a folder of this test, and no network."""
    return {
        "GOFLAGS": "-mod=mod", "GOPROXY": "off", "GOTOOLCHAIN": "local", "GOCACHE": f"{room}/go-cache",
        "GOPATH": f"{room}/go-path", "CGO_ENABLED": "1", "GODEBUG": "cgocheck=2",
    }


def program(room, name, *sources):
    """A module of a program that uses the package, in a folder of its own."""
    folder = f"{room}/{name}"
    os.makedirs(folder, exist_ok=True)
    lines = ["module example.org/program", "go 1.19", f"require {MODULE} v0.1.0", f"replace {MODULE} => {room}/go"]
    with open(f"{folder}/go.mod", "w", encoding="utf-8") as out:
        out.write("\n".join(lines) + "\n")
    for source in sources:
        shutil.copy(source, folder)
    return folder


def is_built(room):
    for words in ([], [kit()], [room, f"{room}/go"]):
        yield f"bindings/go/build with {len(words)} words", run([f"{BINDING}/build", *words])[0] == 2, words
    yield "bindings/go/build", *has_done([f"{BINDING}/build", kit(), f"{room}/go"])
    formatted = run(["gofmt", "-l", BINDING, f"{CLIENTS}/suite.go", f"{EXAMPLES}/nethttp"])
    yield "gofmt changes nothing", formatted[:2] == (0, b""), formatted
    more = environment(room)
    yield "go vet", *has_done(["go", "vet", "./..."], cwd=f"{room}/go", more=more)
    yield "the tests are built", *has_done(["go", "test", "-c", "-o", "tests", "."], cwd=f"{room}/go", more=more)
    status, out, err = run(["./tests"], cwd=f"{room}/go", more=more)
    yield "go test", status == 0 and out.endswith(b"PASS\n"), (status, out, err)
    yield from has_figures("Go", 3, out)
    words = [*on_stack(STACK), "./tests", "-test.run", "TestDeepest"]
    yield f"on threads of {STACK} KiB", *has_done(words, cwd=f"{room}/go", more=more)


def answers(room):
    more, folder = environment(room), program(room, "go-suite", f"{CLIENTS}/suite.go")
    yield "the client in Go", *has_done(["go", "build", "-o", f"{room}/suite-go", "."], cwd=folder, more=more)
    yield from answers_suite(room, "suite.go", [f"{room}/suite-go"], more=more)


def page(room):
    folder, words = program(room, "go-page"), ["go", "run", "."]
    yield from prints_page(folder, f"{BINDING}/README.md", "go", f"{folder}/main.go", words, more=environment(room))


def example(room):
    more = environment(room)
    folder = program(room, "nethttp", f"{EXAMPLES}/nethttp/filter.go", f"{EXAMPLES}/nethttp/main.go")
    yield "go vet of examples/nethttp", *has_done(["go", "vet", "."], cwd=folder, more=more)
    yield "examples/nethttp is built", *has_done(["go", "build", "-o", "server", "."], cwd=folder, more=more)
    yield from checks_of_server("examples/nethttp", [f"{folder}/server"], room)


def checks(room):
    for group in (is_built, answers, page, example):
        yield from group(room)


GROUPS = [checks]
