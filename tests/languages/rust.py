"""The Rust crates: cargo without a network, warnings as errors, the tests and the examples of the documentation."""
import os
import re
import shutil

from .common import CLIENTS, EXAMPLES, TOP, answers_suite, has_done, has_figures, kit, prints_page, run
from .served import checks_of_server

BINDING = f"{TOP}/bindings/rust"
PACKAGE = """[package]
name = "program"
version = "0.1.0"
edition = "2021"

[dependencies]
odfilter = {{ path = "{room}/rust/odfilter" }}

[[bin]]
name = "program"
path = "{source}"
"""


def environment(room):
    """What cargo is given: a folder of this test for all that it makes, and no network."""
    return {"CARGO_TARGET_DIR": f"{room}/rust-target", "CARGO_NET_OFFLINE": "true", "RUSTFLAGS": "-D warnings"}


def program(room, name, *sources):
    """Builds a program of the crate, of which the last source has `main`, and returns its path with the check."""
    folder = f"{room}/{name}"
    os.makedirs(folder, exist_ok=True)
    for source in sources:
        shutil.copy(source, folder)
    with open(f"{folder}/Cargo.toml", "w", encoding="utf-8") as out:
        out.write(PACKAGE.format(room=room, source=os.path.basename(sources[-1])))
    built = run(["cargo", "build", "-q", "--offline", "--release"], cwd=folder, more=environment(room))
    path = f"{folder}/program"
    if built[0] == 0:
        shutil.copy(f"{room}/rust-target/release/program", path)
    return path, (f"{name} is built", built[0] == 0 and not built[2], built)


def is_built(room):
    for words in ([], [kit()], [room, f"{room}/rust"]):
        yield f"bindings/rust/build with {len(words)} words", run([f"{BINDING}/build", *words])[0] == 2, words
    yield "bindings/rust/build", *has_done([f"{BINDING}/build", kit(), f"{room}/rust"])
    if shutil.which("rustfmt"):
        sources = [f"{CLIENTS}/suite_crate.rs", f"{EXAMPLES}/rust_http/main.rs", f"{room}/rust/odfilter/src/lib.rs"]
        sources += [f"{room}/rust/odfilter-sys/{name}.rs" for name in ("build", "src/lib")]
        how = ["--config-path", f"{BINDING}/rustfmt.toml"]
        yield "rustfmt changes nothing", *has_done(["rustfmt", "--check", "--edition", "2021", *how, *sources])
    words = ["cargo", "test", "-q", "--offline", "--release", "--", "--nocapture"]
    status, out, err = run(words, cwd=f"{room}/rust", more=environment(room))
    counts = [tuple(map(int, it)) for it in re.findall(rb"^test result: ok\. (\d+) passed; (\d+) failed", out, re.M)]
    is_well = status == 0 and sum(passed for passed, _ in counts) > 10
    yield "cargo test", is_well, (status, out[-2_000:], err[-2_000:])
    yield from has_figures("Rust", 4, out)


def answers(room):
    path, built = program(room, "rust-suite", f"{CLIENTS}/suite_crate.rs")
    yield built
    yield from answers_suite(room, "suite_crate.rs", [path])


def page(room):
    folder = f"{room}/rust-page"
    os.makedirs(folder)
    with open(f"{folder}/Cargo.toml", "w", encoding="utf-8") as out:
        out.write(PACKAGE.format(room=room, source="main.rs"))
    words = ["cargo", "run", "-q", "--offline", "--release"]
    yield from prints_page(folder, f"{BINDING}/README.md", "rust", f"{folder}/main.rs", words, more=environment(room))


def example(room):
    sources = [f"{EXAMPLES}/rust_http/{name}.rs" for name in ("checked", "main")]
    path, built = program(room, "rust_http", *sources)
    yield built
    yield from checks_of_server("examples/rust_http", [path], room)


def checks(room):
    for group in (is_built, answers, page, example):
        yield from group(room)


GROUPS = [checks]
