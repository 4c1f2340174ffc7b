"""The header of the C library as data, include/odfilter.json, and what the header has in common with the sources.

The data has what a binding in another language declares: calls with their parameters, structs with their fields,
statuses, faults by their status, forms, statements, kinds of values and verdicts, each with its number. It is made of include/odfilter.h; the names
of faults, the types of parameters and fields and the numbers of statuses are compared with the crates.
"""
import json
import re

from .sources import text_of

__all__ = ["DATA", "checks", "page"]
HEADER, DATA = "include/odfilter.h", "include/odfilter.json"
SOURCES = "c_types exports fault_exports filter_exports judge_exports line_exports sql_exports type_exports"
EXPORTS = [f"crates/odfilter_c/src/{it}.rt" for it in SOURCES.split()]
SIZES = {"uint32_t": 4, "uint64_t": 8, "size_t": 8, "const char *": 8, "char *": 8}
# the one fault of a status that goes by another name than its status
LONE = {"UNSAYABLE": "Nul"}
# what stands for a struct in a flat call: the type of its address
FLAT = {"odfilter_bytes": "const char *", "odfilter_buffer": "char *"}
# the types of C beside those of the sources
TYPES = {"u32": "uint32_t", "u64": "uint64_t", "usize": "size_t", "*const u8": "const char *", "*mut u8": "char *"}
# what a parameter of an export is in the header: a handle is an address of bytes there
PARAMETERS = {"u32": {"uint32_t"}, "u64": {"uint64_t"}, "Bytes": {"odfilter_bytes"}, "Buffer": {"odfilter_buffer"}}
PARAMETERS |= {"*mut Owned": {"odfilter_handle **"}, "*mut Answer": {"odfilter_answer *"}}
PARAMETERS |= {"*const Answer": {"const odfilter_answer *"}, "usize": {"size_t"}}
PARAMETERS |= {"*const u8": {"const odfilter_handle *", "const char *"}, "*mut u8": {"odfilter_handle *", "char *"}}
PARAMETERS |= {"*mut u64": {"uint64_t *"}, "*const u64": {"const uint64_t *"}, "*mut usize": {"size_t *"}}


def camel(name):
    return "".join(word.capitalize() for word in name.split("_"))


def plain(comment):
    """A comment's words, on one line."""
    return re.sub(r"\s*\n *\*? *", " ", comment).strip()


def constants(part):
    """The constants of a part of the header: name without ODFILTER_, number, comment."""
    for name, number, comment in re.findall(r"^#define ODFILTER_(\w+) (\d+)u *(?:/\*(.*?)\*/)?$", part, re.MULTILINE):
        yield name, int(number), plain(comment)


def parts(header):
    """The parts of the header by the first word of their titles."""
    found = re.split(r"/\* ---- (\w+)[^*]*\*/", header)
    return dict(zip(found[1::2], found[2::2]))


def faults(statuses, part):
    """The faults under each status, in the order of the header; then those of statuses that have one alone."""
    for status, block in re.findall(r"/\* ODFILTER_(\w+_FAULT)[^/]*\*/\n((?:#define.*\n)+)", part):
        for constant, number, about in constants(block):
            name = camel(constant.partition("_")[2])
            fault = {"status": status, "number": number, "name": name, "constant": f"ODFILTER_{constant}"}
            if status == "SCHEMA_FAULT":
                fault["names"] = [word.removeprefix("the ") for word in about.split(", ") if word]
            elif status == "QUERY_FAULT":
                fault["counts"] = re.search(r"\w+", about.removeprefix("the "))[0]
            yield fault
    with_faults = set(re.findall(r"/\* ODFILTER_(\w+_FAULT)", part))
    for status in statuses:
        if status["number"] >= 6 and status["name"] not in with_faults | {"UNKNOWN_NUMBER"}:
            name = LONE.get(status["name"], camel(status["name"].removesuffix("_FAULT")))
            yield {"status": status["name"], "number": 0, "name": name, "constant": f"ODFILTER_{status['name']}"}


def fields(body):
    """The fields of a struct, each with its offset."""
    offset = 0
    declared = re.compile(r"^    ([\w ]+?[ *]+)(\w+);(?: */\*(.*?)\*/)?", re.DOTALL | re.MULTILINE)
    for kind, name, comment in declared.findall(body):
        kind = kind.strip()
        offset += -offset % SIZES[kind]
        yield {"name": name, "type": kind, "offset": offset, "size": SIZES[kind], "about": plain(comment)}
        offset += SIZES[kind]


def structs(part):
    for name, body in re.findall(r"typedef struct (\w+) \{\n(.*?)\n\} \1;", part, re.DOTALL):
        listed = [*fields(body)]
        last = listed[-1]
        yield {"name": name, "size": last["offset"] + last["size"], "fields": listed}


def calls(header):
    """The calls with their parameters, and the comment that stands above each, or above the ones before it."""
    about = ""
    declared = re.compile(r"(?:/\*((?:(?!\*/).)*)\*/\n)?^uint32_t (\w+)\(([^)]*)\);", re.DOTALL | re.MULTILINE)
    for comment, name, given in declared.findall(plain_lines(header)):
        about = plain(comment) or about
        parameters = []
        for it in given.split(","):
            kind, word = re.fullmatch(r"(.*?[ *])(\w+)", " ".join(it.split())).groups()
            parameters.append({"name": word, "type": kind.strip()})
        call = {"name": name, "returns": "uint32_t", "parameters": parameters, "about": about}
        if any(it["type"] in FLAT for it in parameters):
            call["flat"] = name.replace("odfilter_", "odfilter_flat_", 1)
        yield call


def plain_lines(header):
    """The header from its types on, without the titles of its parts."""
    return re.sub(r"/\* ----.*?\*/\n", "", header[header.index("/* ---- Types") :])


def numbered(part):
    return [{"name": name, "number": number, "about": about} for name, number, about in constants(part)]


def data():
    header = text_of(HEADER)
    by_title = parts(header)
    statuses = numbered(by_title["Statuses"])
    version = re.search(r'VERSION: &str = "([^"]+)"', text_of("crates/report_calls/src/name_calls.rt"))[1]
    library = re.search(r"soname,(libodfilter\.so\.\d+)", text_of("bindings/c/build"))[1]
    return {
        "about": "The calls of include/odfilter.h as data; docs/make writes this file.",
        "version": version, "library": library, "statuses": statuses, "faults": [*faults(statuses, by_title["Faults"])],
        "forms": numbered(by_title["Forms"]), "statements": numbered(by_title["Statements"]),
        "values": numbered(by_title["Kinds"]), "verdicts": numbered(by_title["Verdicts"]),
        "structs": [*structs(by_title["Types"])], "calls": [*calls(header)],
    }


def lines_of(value, depth=0):
    """JSON with an item of a list, or a field of the whole, a line each."""
    if depth > 2 or not isinstance(value, (dict, list)):
        return json.dumps(value, ensure_ascii=False)
    inner = "\n" + " " * (depth + 1)
    if isinstance(value, list):
        return "[" + ",".join(inner + lines_of(it, depth + 2) for it in value) + "\n" + " " * depth + "]"
    if depth == 0:
        return "{" + ",".join(f"{inner}{json.dumps(key)}: {lines_of(it, 1)}" for key, it in value.items()) + "\n}"
    about = [f"{json.dumps(key)}: {lines_of(it, 3)}" for key, it in value.items() if not isinstance(it, list)]
    listed = [f"{json.dumps(key)}: [" + ",".join(f"\n    {lines_of(each, 3)}" for each in it) + "]"
              if it and isinstance(it[0], dict) else f"{json.dumps(key)}: {lines_of(it, 3)}"
              for key, it in value.items() if isinstance(it, list)]
    return "{" + ", ".join(about + listed) + "}"


def page():
    return lines_of(data()) + "\n"


def exports():
    """The calls of the sources: of each the types of what C gives it, and their names."""
    for path in EXPORTS:
        for name, given in re.findall(r'pub (?:unsafe )?extern "C" fn (\w+)\(([^)]*)\)', text_of(path)):
            pairs = [[word.strip() for word in it.split(":")] for it in given.split(",") if it.strip()]
            yield name, [kind for word, kind in pairs if word != "alloc"]


def flattened(call):
    """The parameters of a call as its flat one has them."""
    for it in call["parameters"]:
        kind = FLAT.get(it["type"])
        yield (it["name"], kind or it["type"])
        if kind:
            yield f"{it['name']}_length", "size_t"


def names_of_statuses():
    text = text_of("crates/report_calls/src/name_calls.rt")
    listed = re.findall(r'^        (\d+) => Ok\("([A-Z_0-9]+)"\)', text, re.MULTILINE)
    return {int(number): name for number, name in listed}


def names_of_faults():
    """The names of faults that the sources have, by what is at fault."""
    text = text_of("crates/fault_numbers/src/fault_number.rt")
    for kind, body in re.findall(r"const (\w+)_NAMES: &\[&str\] = &\[(.*?)\];", text, re.DOTALL):
        names = re.findall(r'"(\w*)"', body)
        yield {"TYPING": "TYPE", "EVALUATION": "EVAL"}.get(kind, kind), dict(enumerate(names, 1))


def fields_of(path, name):
    """The fields of a struct of the sources, as C has them."""
    body = re.search(rf"pub struct {name} \{{\n(.*?)\n\}}", text_of(path), re.DOTALL)[1]
    return [(word, TYPES[kind]) for word, kind in re.findall(r"pub (\w+): ([^,]+),", body)]


def checks():
    """The header, its data and the sources are one."""
    found = data()
    numbers = {it["number"]: it["name"] for it in found["statuses"]}
    yield f"{HEADER}: its statuses are not those of handle_calls", numbers == names_of_statuses() and len(numbers) > 20
    for kind, names in names_of_faults():
        has = {it["number"]: it["name"] for it in found["faults"] if it["status"] == f"{kind}_FAULT"}
        if kind == "QUERY":
            names[5] = "Disguised"
        wanted = {number: name for number, name in names.items() if name}
        yield f"{HEADER}: the faults of {kind} are not those of fault_numbers", has == wanted
    for name, path in (("answer", "call_handles/src/answer"), ("bytes", "odfilter_c/src/c_types"),
                       ("buffer", "odfilter_c/src/c_types")):
        struct = next(it for it in found["structs"] if it["name"] == f"odfilter_{name}")
        has = [(it["name"], it["type"]) for it in struct["fields"]]
        is_well = has == fields_of(f"crates/{path}.rt", name.capitalize())
        yield f"{HEADER}: the fields of odfilter_{name} are not the sources'", is_well
    flat = {it["name"]: [(each["name"], each["type"]) for each in it["parameters"]] for it in found["calls"]}
    declared = {it["name"]: [each["type"] for each in it["parameters"]] for it in found["calls"]}
    for call in found["calls"]:
        if "flat" in call:
            fits = flat.get(call["flat"]) == [*flattened(call)]
            yield f"{HEADER}: {call['flat']} is not {call['name']} with its structs apart", fits
            declared.pop(call["flat"], None)
    exported = dict(exports())
    yield f"{HEADER}: its calls are not those of odfilter_c", declared.keys() == exported.keys() and len(declared) > 20
    for name, kinds in declared.items():
        given = exported.get(name, [])
        fits = len(kinds) == len(given) and all(kind in PARAMETERS[it] for kind, it in zip(kinds, given))
        yield f"{HEADER}: the parameters of {name} are not the sources'", fits
    documented = len(re.findall(r"^uint32_t odfilter_", text_of(HEADER), re.MULTILINE))
    is_well = documented == len(found["calls"]) and all(it["about"] for it in found["calls"])
    yield f"{HEADER}: a call that its data lacks, or that has no comment", is_well
