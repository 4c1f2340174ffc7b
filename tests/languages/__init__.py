"""What tests/bindings tries of each language: the groups of checks of each, by the language's name."""
from . import csharp, go, java, node, rust
from .common import is_there, kit_of, text_of

__all__ = ["ALL", "is_there", "kit_of", "text_of"]
ALL = {"go": go.GROUPS, "node": node.GROUPS, "java": java.GROUPS, "csharp": csharp.GROUPS, "rust": rust.GROUPS}
