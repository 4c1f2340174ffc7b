"""What the packages of several languages have in common: a zip file, and a page that stands alone.

`packed.py PAGE..` leaves the words of a link where it leads to another file, which no package has.
"""
import os
import re
import sys
import zipfile

__all__ = ["files_below", "standing_alone", "zipped"]


def files_below(folder):
    """The files below a folder: where each stands in it, and what it holds."""
    for inner, folders, names in os.walk(folder):
        folders.sort()
        for name in sorted(names):
            with open(f"{inner}/{name}", "rb") as file:
                yield os.path.relpath(f"{inner}/{name}", folder), file.read()


def zipped(path, files):
    """A zip file of some files: of the same ones the same, byte for byte."""
    with zipfile.ZipFile(path, "w", zipfile.ZIP_DEFLATED) as archive:
        for name, content in files:
            # one date for all, so that one file is made of one content
            entry = zipfile.ZipInfo(name, (1980, 1, 1, 0, 0, 0))
            entry.external_attr = 0o100644 << 16
            archive.writestr(entry, content, zipfile.ZIP_DEFLATED)


def standing_alone(page):
    """Writes a page anew, without its links to other files."""
    with open(page, encoding="utf-8") as file:
        text = re.sub(r"\[([^\[\]]*)\]\((?!https?:|#)[^)\s]*\)", r"\1", file.read())
    with open(page, "w", encoding="utf-8") as out:
        out.write(text)


if __name__ == "__main__":
    for each in sys.argv[1:]:
        standing_alone(each)
