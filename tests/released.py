"""What the archives of a release have: files, pages with links into them, a list of what is inside (SPDX). For
tests/release."""
import glob
import gzip
import hashlib
import io
import json
import os
import re
import subprocess
import tarfile
import uuid
import zipfile

from built_library import MODULE, TOP

__all__ = ["BILL", "PAGES", "made", "made_for_arm64", "made_for_windows"]
PAGES = "share/doc/odfilter"
BILL = f"{PAGES}/odfilter.spdx.json"
TOP_PAGES = ["README.md", "CHANGELOG.md", "SECURITY.md"]
UNKNOWN = {"licenseConcluded": "NOASSERTION", "copyrightText": "NOASSERTION"}


# what bindings/c/build leaves beside the header, on Linux and for Windows
LIBRARY = ("lib/libodfilter.a", "lib/libodfilter.so", "lib/libodfilter.so.0", "lib/pkgconfig/odfilter.pc")
WINDOWS = ("bin/odfilter.dll", "lib/libodfilter.dll.a")


def files_of_library(kit, names=LIBRARY):
    """The library and the pages: where each stands in an archive, and where it is."""
    yield from ((name, f"{kit}/{name}") for name in names)
    yield from ((f"include/odfilter.{kind}", f"{TOP}/include/odfilter.{kind}") for kind in ("h", "json"))
    for path in [*(f"{TOP}/{name}" for name in TOP_PAGES), *sorted(glob.glob(f"{TOP}/docs/*.*"))]:
        yield f"{PAGES}/{os.path.relpath(path, TOP)}", path


def files(program, kit, extension):
    """The files of the archive for x86-64."""
    yield "bin/odfilter", program
    yield from files_of_library(kit)
    yield "lib/sqlite/odfilter.so", extension
    for path in sorted(it for kind in ("*.py", "*.sql", "py.typed") for it in glob.glob(f"{MODULE}/odfilter/{kind}")):
        yield f"lib/odfilter/{os.path.basename(path)}", path
    yield "share/odfilter/postgresql.sql", f"{MODULE}/odfilter/postgresql.sql"
    yield "share/odfilter/lua/odfilter.lua", f"{TOP}/bindings/lua/odfilter.lua"
    for folder, _, names in sorted(os.walk(f"{TOP}/share")):
        yield from ((os.path.relpath(f"{folder}/{name}", TOP), f"{folder}/{name}") for name in sorted(names))
    for name in ("schema.json", "rows.json"):
        yield f"share/odfilter/{name}", f"{TOP}/crates/odfilter/data/{name}"
    for name in ("numbers.js", "calls.js", "page_engine.js"):
        yield f"{PAGES}/examples/{name}", f"{TOP}/bindings/wasm/{name}"
    for folder in ("recipes", "examples"):
        paths = sorted(path for path in glob.glob(f"{TOP}/{folder}/**", recursive=True) if os.path.isfile(path))
        yield from ((f"{PAGES}/{os.path.relpath(it, TOP)}", it) for it in paths if "__pycache__" not in it)


def linked(path, place, places):
    """A page whose links lead to where the release has what they name; one that it has not leaves its words alone."""
    def link(found):
        words, target, anchor = found.groups(default="")
        if "://" in target or not target:
            return found[0]
        there = places.get(os.path.normpath(os.path.join(os.path.dirname(path), target)))
        return words if there is None else f"[{words}]({os.path.relpath(there, os.path.dirname(place))}{anchor})"

    with open(path, encoding="utf-8") as file:
        return re.sub(r"(?<!!)\[([^\[\]]*)\]\(([^)\s#]*)(#[^)\s]*)?\)", link, file.read()).encode()


def content(path, place, places):
    if path.endswith(".md"):
        return linked(path, place, places)
    with open(path, "rb") as file:
        return file.read()


def crates_below(roots):
    """The names of the libraries that some crates stand on, and their own: those of this repository, and others."""
    stands_on = {}
    with open(f"{TOP}/crates.txt", encoding="utf-8") as file:
        for name, names in re.findall(r"^(\w+)[^:\n]*:(.*)$", file.read(), re.MULTILINE):
            stands_on[name] = names.split()
    found, waiting = set(), [*roots]
    while waiting:
        name = waiting.pop()
        if name not in found:
            found.add(name)
            waiting += stands_on.get(name, [])
    return sorted(found & stands_on.keys()), sorted(found - stands_on.keys())


def bill_of(name, version, crates, contents):
    """What is inside, as SPDX 2.3: the files by their checksums, and the libraries that were compiled in."""
    listed = []
    for number, (place, text) in enumerate(sorted(contents.items())):
        sums = [{"algorithm": of, "checksumValue": hashlib.new(of, text).hexdigest()} for of in ("SHA1", "SHA256")]
        listed.append({"SPDXID": f"SPDXRef-File-{number}", "fileName": f"./{place}", "checksums": sums, **UNKNOWN})
    whole = hashlib.sha1("".join(sorted(it["checksums"][0]["checksumValue"] for it in listed)).encode()).hexdigest()
    general = {"downloadLocation": "NOASSERTION", "licenseDeclared": "NOASSERTION", **UNKNOWN}
    code = {"packageVerificationCodeValue": whole, "packageVerificationCodeExcludedFiles": [f"./{BILL}"]}
    packages = [{"SPDXID": "SPDXRef-odfilter", "name": "odfilter", "versionInfo": version, "filesAnalyzed": True,
                 "packageVerificationCode": code, **general}]
    for crate, of in crates:
        reference = "SPDXRef-crate-" + crate.replace("_", "-")
        packages.append({"SPDXID": reference, "name": crate, "versionInfo": of, "filesAnalyzed": False, **general})
    pairs = [("SPDXRef-DOCUMENT", "DESCRIBES", "SPDXRef-odfilter")]
    pairs += [("SPDXRef-odfilter", "CONTAINS", it["SPDXID"]) for it in packages[1:] + listed]
    keys = ("spdxElementId", "relationshipType", "relatedSpdxElement")
    about = {"spdxVersion": "SPDX-2.3", "dataLicense": "CC0-1.0", "SPDXID": "SPDXRef-DOCUMENT", "name": name}
    about["documentNamespace"] = f"urn:uuid:{uuid.uuid5(uuid.NAMESPACE_OID, f'{name} {whole}')}"
    about["creationInfo"] = {"created": "1970-01-01T00:00:00Z", "creators": ["Tool: odfilter-tests-release"]}
    parts = {"packages": packages, "files": listed, "relationships": [dict(zip(keys, it)) for it in pairs]}
    return json.dumps({**about, **parts}, indent=1).encode() + b"\n"


def made(folder, program, kit, version, extension):
    """Makes the archive for x86-64 in a folder: of the same files the same, byte for byte."""
    found = dict(files(program, kit, extension))
    linked = [("liblibc_c", said_by("rt", "version")), ("libgcc", said_by("gcc", "-dumpfullversion"))]
    return packed(folder, f"odfilter-{version}-x86_64", found, version, ["odfilter", "odfilter_c"], linked)


def made_for_arm64(folder, kit, version):
    """Makes the archive of the library for ARM64."""
    linked = [("libgcc", said_by("aarch64-linux-gnu-gcc", "-dumpfullversion"))]
    return packed(folder, f"odfilter-{version}-aarch64", dict(files_of_library(kit)), version, ["odfilter_c"], linked)


def made_for_windows(folder, kit, version):
    """Makes the archive of the library for Windows."""
    name = f"odfilter-{version}-windows-x86_64"
    linked = [("libgcc", said_by("x86_64-w64-mingw32-gcc", "-dumpfullversion"))]
    linked += [("mingw-w64", said_by("dpkg-query", "-W", "-f", "${Version}", "mingw-w64-x86-64-dev"))]
    contents, bill = inside(name, dict(files_of_library(kit, WINDOWS)), version, ["odfilter_c"], linked)
    with zipfile.ZipFile(f"{folder}/{name}.zip", "w") as archive:
        for place, text in [*contents.items(), (BILL, bill)]:
            # one date for all, so that one file is made of one content
            entry = zipfile.ZipInfo(f"{name}/{place}", (1980, 1, 1, 0, 0, 0))
            archive.writestr(entry, text, zipfile.ZIP_DEFLATED)
    return f"{folder}/{name}.zip", name


def said_by(*words):
    return subprocess.run(words, capture_output=True, check=True, timeout=60).stdout.decode().strip()


def inside(name, found, version, roots, linked):
    """What the files of an archive hold, and the list of them and of what was compiled or linked in."""
    places = {os.path.normpath(path): place for place, path in found.items()}
    contents = {it: content(path, it, places) for it, path in found.items() if not os.path.islink(path)}
    own, others = crates_below(roots)
    kit_version = said_by("rt", "version")
    crates = [(it, version) for it in own] + [(it, kit_version) for it in others]
    return contents, bill_of(name, version, [*crates, *linked], contents)


def packed(folder, name, found, version, roots, linked):
    contents, bill = inside(name, found, version, roots, linked)
    written = io.BytesIO()
    with gzip.GzipFile("", "wb", 9, written, mtime=0) as squeezed, tarfile.open(fileobj=squeezed, mode="w") as archive:
        for place, path in [*found.items(), (BILL, f"{TOP}/README.md")]:
            text = bill if place == BILL else contents.get(place, b"")
            entry = archive.gettarinfo(path, f"{name}/{place}")
            entry.uid = entry.gid = entry.mtime = 0
            entry.uname = entry.gname = ""
            entry.mode, entry.size = 0o755 if entry.mode & 0o100 else 0o644, len(text)
            archive.addfile(entry, io.BytesIO(text))
    archive_path, text = f"{folder}/{name}.tar.gz", written.getvalue()
    with open(archive_path, "wb") as out:
        out.write(text)
    return archive_path, name
