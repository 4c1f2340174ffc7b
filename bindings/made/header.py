"""The header as data, and how texts are laid out."""

__all__ = ["FROM", "Header", "camel", "joined", "member", "shown"]
FROM = "Made by bindings/make from include/odfilter.json."
WIDTH = 120


class Header:
    """What the bindings take of include/odfilter.json."""

    def __init__(self, data):
        self.statuses = [(it["name"], it["number"]) for it in data["statuses"]]
        self.verdicts = [(it["name"], it["number"]) for it in data["verdicts"]]
        self.forms = [(it["name"], it["number"]) for it in data["forms"]]
        self.statements = [(it["name"].removeprefix("SQL_"), it["number"]) for it in data["statements"]]
        self.values = [(it["name"].removeprefix("VALUE_"), it["number"]) for it in data["values"]]
        number_of = dict(self.statuses)
        self.faults = sorted((number_of[it["status"]], it["number"], it["name"]) for it in data["faults"])
        of_schema = {it["number"]: len(it["names"]) for it in data["faults"] if it["status"] == "SCHEMA_FAULT"}
        self.schema_names = ", ".join(str(of_schema.get(number, 0)) for number in range(max(of_schema) + 1))
        self.schema_count = max(of_schema) + 1
        self.answer = next(it["fields"] for it in data["structs"] if it["name"] == "odfilter_answer")
        self.calls = [(it["name"], [(one["name"], one["type"]) for one in it["parameters"]]) for it in data["calls"]]
        # of each call that takes structs its second name, by which it takes addresses and lengths, where it has one
        self.flat = {it["name"]: it["flat"] for it in data["calls"] if "flat" in it}

    def plain_calls(self):
        """The calls by their first names."""
        return [(name, given) for name, given in self.calls if name not in self.flat.values()]

    def names_by_status(self):
        """The numbers and names of faults by their status."""
        found = {}
        for status, number, name in self.faults:
            found.setdefault(status, []).append((number, name))
        return found


def camel(name):
    """NOT_UTF8 and not_utf8 as NotUtf8."""
    return "".join(word.capitalize() for word in name.split("_"))


def member(name):
    """The field piece_start as pieceStart."""
    first, *rest = name.split("_")
    return first + "".join(word.capitalize() for word in rest)


def joined(words, indent, end=""):
    """Words in lines of at most so many columns, each line indented."""
    lines = [""]
    for word in words:
        if lines[-1] and len(indent) + len(lines[-1]) + len(word) + 1 > WIDTH:
            lines.append("")
        lines[-1] += f"{' ' if lines[-1] else ''}{word}"
    return "".join(f"{indent}{line}\n" for line in lines) + end


def shown(start, words, end, indent="            "):
    """A declaration, of which what is too long for a line goes on in the next ones."""
    line = start + ", ".join(words) + end
    if len(line) <= WIDTH:
        return f"{line}\n"
    return f"{start}\n" + joined([f"{it}," for it in words[:-1]] + [words[-1] + end], indent)
