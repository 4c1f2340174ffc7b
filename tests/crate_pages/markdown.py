"""What the made pages share: docs and signatures of the sources as Markdown."""
import re

MADE = "<!-- Made by docs/make from the sources of the crates: edit those, and run it again. -->"


def plain(text):
    """A doc or a comment: without the links of Rust, and with no mark outside code that Markdown takes for its own."""
    unlinked = re.sub(r"\[(`[^`]+`)\](?:\(\w+::[\w:]+\)|(?!\())", r"\1", text)
    parts = re.split(r"(`[^`]*`)", unlinked)
    return "".join(part if part.startswith("`") else re.sub(r"([*<])", r"\\\1", part) for part in parts)


def first_sentence(doc):
    text = " ".join(doc[: doc.index("")] if "" in doc else doc)
    return re.match(r".*?\.(?= [A-Z`]|$)|.*", text)[0]


def dedented(lines):
    margin = len(lines[0]) - len(lines[0].lstrip())
    return [line[margin:] for line in lines]


def fenced(lines):
    return ["```rust", *lines, "```", ""]


def paragraph(text):
    return [text, ""] if text else []


def index_of(crates):
    return " · ".join(f"[`{crate.name}`](#{crate.name})" for crate in crates)


def page_of(lines):
    return "\n".join(lines).rstrip("\n") + "\n"


def reexports(crate):
    """What a root passes on of the crates below it."""
    for head, names in crate.passed_on.items():
        yield from paragraph(f"Re-exports from [`{head}`](#{head}): {', '.join(f'`{name}`' for name in names)}.")
