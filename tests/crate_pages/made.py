"""The pages that are made from the sources, and the data of the header, each by its path."""
from . import api, clauses, header


def pages(crates):
    return {"docs/clauses.md": clauses.page(crates), "docs/api.md": api.page(crates), header.DATA: header.page()}
