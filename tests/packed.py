"""What each bindings/NAME/pack makes, as people install it: from a folder, without a network. The program of the
binding's README runs over it, and prints what stands there. For tests/release."""
import fnmatch
import glob
import hashlib
import json
import os
import re
import shutil
import tarfile
import zipfile

from languages.common import TOP, has_done, prints_page, run

__all__ = ["PACKAGES", "checks_of_package"]
# before a command: no variable names another library than the one in the package
UNNAMED = ["env", "-u", "ODFILTER_LIBRARY"]
JNA = "/usr/share/java/jna.jar"
MODULE = "example.org/odfilter"
CRATE = '[package]\nname = "program"\nversion = "0.1.0"\nedition = "2021"\n\n[dependencies]\nodfilter = "0.1.0"\n\n'
CRATE += '[[bin]]\nname = "program"\npath = "main.rs"\n'
SOURCES = '[source.crates-io]\nreplace-with = "folder"\n\n[source.folder]\ndirectory = "crates"\n'


def written(path, text):
    os.makedirs(os.path.dirname(path), exist_ok=True)
    with open(path, "w", encoding="utf-8") as out:
        out.write(text)
    return path


def bytes_of(path):
    with open(path, "rb") as file:
        return file.read()


def page_of(name):
    return f"{TOP}/bindings/{name}/README.md"


def has_library(room, path, wanted):
    """A package has the library as it was built."""
    yield f"{os.path.relpath(path, room)} is the library", bytes_of(path) == bytes_of(wanted), os.path.getsize(path)


def stands_alone(room, page):
    """A package's page has no link to a file, which would lead nowhere."""
    links = re.findall(r"\]\((?!https?:|#)([^)\s]*)\)", bytes_of(page).decode())
    yield f"{os.path.relpath(page, room)} has no link that leads nowhere", not links, links


def of_python(room, _, wheel):
    with zipfile.ZipFile(wheel) as file:
        file.extractall(f"{room}/site")
    words = [*UNNAMED, "python3", "-B", "-c", "import odfilter; print(odfilter.Library().version)"]
    status, out, err = run(words, more={"PYTHONPATH": f"{room}/site"})
    yield "the wheel's module finds its library", (status, bool(out), err) == (0, True, ""), (status, out, err)


def of_npm(name):
    def checks(room, _, package):
        words = ["npm", "install", "--offline", "--no-audit", "--no-fund", "--silent", package]
        yield f"npm installs {os.path.basename(package)}", *has_done(words, cwd=room)
        yield from stands_alone(room, *glob.glob(f"{room}/node_modules/*/README.md"))
        yield from prints_page(room, page_of(name), "js", f"{room}/page.js", ["node", "page.js"])

    return checks


def of_go(room, kit, package):
    """A folder is the proxy of modules."""
    with zipfile.ZipFile(package) as file:
        whole = file.namelist()[0].split("/")
        head = "/".join(whole[: next(at for at, part in enumerate(whole) if "@" in part) + 1])
        module = file.read(f"{head}/go.mod").decode()
    version, offered = head.partition("@")[2], f"{room}/proxy/{MODULE}/@v"
    yield "the module's path and version", head == f"{MODULE}@{version}" and f"module {MODULE}\n" in module, head
    written(f"{offered}/{version}.mod", module)
    written(f"{offered}/{version}.info", json.dumps({"Version": version}))
    shutil.copy(package, f"{offered}/{version}.zip")
    more = {"GOFLAGS": "-mod=mod -modcacherw", "GOPROXY": f"file://{room}/proxy", "GOSUMDB": "off"}
    more |= {"GOCACHE": f"{room}/go-cache", "GOPATH": f"{room}/go-path", "CGO_ENABLED": "1", "GOTOOLCHAIN": "local"}
    written(f"{room}/program/go.mod", "module example.org/program\n\ngo 1.19\n")
    done = run(["go", "get", f"{MODULE}@{version}"], cwd=f"{room}/program", more=more)
    yield "go get takes it from a proxy", done[0] == 0, done
    installed = f"{room}/go-path/pkg/mod/{head}"
    yield from has_library(room, f"{installed}/lib/linux_amd64/libodfilter.a", f"{kit}/lib/libodfilter.a")
    on_arm64 = f"{installed}/lib/linux_arm64/libodfilter.a"
    yield from has_library(room, on_arm64, f"{os.environ['ODFILTER_ARM64']}/lib/libodfilter.a")
    yield from stands_alone(room, f"{installed}/README.md")
    words, to = ["go", "run", "."], f"{room}/program"
    yield from prints_page(to, page_of("go"), "go", f"{to}/main.go", words, more=more)


def of_rust(room, kit, *crates):
    """A folder of crates is where cargo finds them."""
    for path in crates:
        with tarfile.open(path) as file:
            file.extractall(f"{room}/crates")
        sums = {"files": {}, "package": hashlib.sha256(bytes_of(path)).hexdigest()}
        folder = os.path.basename(path).removesuffix(".crate")
        written(f"{room}/crates/{folder}/.cargo-checksum.json", json.dumps(sums))
    yield from stands_alone(room, *glob.glob(f"{room}/crates/odfilter-[0-9]*/README.md"))
    archive, = glob.glob(f"{room}/crates/odfilter-sys-*/lib/libodfilter.a")
    yield from has_library(room, archive, f"{kit}/lib/libodfilter.a")
    written(f"{room}/Cargo.toml", CRATE)
    written(f"{room}/.cargo/config.toml", SOURCES)
    more = {"CARGO_TARGET_DIR": f"{room}/target", "CARGO_NET_OFFLINE": "true"}
    words = ["cargo", "run", "-q", "--offline"]
    yield from prints_page(room, page_of("rust"), "rust", f"{room}/main.rs", words, more=more)


def of_java(room, kit, jar):
    with zipfile.ZipFile(jar) as file:
        file.extractall(room, [it for it in file.namelist() if it.startswith("native/")])
    for platform, wanted in (("x86-64", kit), ("aarch64", os.environ["ODFILTER_ARM64"])):
        path = f"{room}/native/linux-{platform}/libodfilter.so"
        yield from has_library(room, path, f"{wanted}/lib/libodfilter.so")
    words = [*UNNAMED, "java", "-cp", f"{jar}:{JNA}", "Page.java"]
    yield from prints_page(room, page_of("java"), "java", f"{room}/Page.java", words)


def of_csharp(room, kit, package):
    with zipfile.ZipFile(package) as file:
        names = file.namelist()
        file.extractall(room)
    wanted = {"[Content_Types].xml", "_rels/.rels", "odfilter.nuspec", "README.md"}
    yield "what NuGet reads first is there", wanted <= {*names}, names
    yield from stands_alone(room, f"{room}/README.md")
    native = f"{room}/runtimes/linux-x64/native"
    yield from has_library(room, f"{native}/libodfilter.so", f"{kit}/lib/libodfilter.so")
    for platform, variable, name in OTHER_PLATFORMS:
        at, wanted = f"{room}/runtimes/{platform}/native", f"{os.environ[variable]}/{name}"
        yield from has_library(room, f"{at}/{os.path.basename(name)}", wanted)
    shutil.copy(f"{room}/lib/netstandard2.0/Odfilter.dll", room)
    words = ["bash", "-c", "mcs -r:Odfilter.dll -out:Page.exe Page.cs && exec mono Page.exe"]
    more = {"LD_LIBRARY_PATH": native}
    yield from prints_page(room, page_of("csharp"), "csharp", f"{room}/Page.cs", words, more=more)


# what NuGet calls other platforms, and where the library for each is
OTHER_PLATFORMS = [("linux-arm64", "ODFILTER_ARM64", "lib/libodfilter.so")]
OTHER_PLATFORMS += [("win-x64", "ODFILTER_WINDOWS", "bin/odfilter.dll")]

# of each language what its script leaves, and what tries that
PACKAGES = {
    "csharp": (["Odfilter.*.nupkg"], of_csharp),
    "go": (["odfilter-go-v*.zip"], of_go),
    "java": (["odfilter-*.jar", "odfilter-*.pom"], lambda room, kit, jar, _: of_java(room, kit, jar)),
    "node": (["odfilter-[0-9]*.tgz"], of_npm("node")),
    "python": (["odfilter-*-manylinux2014_x86_64.whl"], of_python),
    "rust": (["odfilter-[0-9]*.crate", "odfilter-sys-*.crate"], of_rust),
    "wasm": (["odfilter-wasm-*.tgz"], of_npm("wasm")),
}


def checks_of_package(name, room, kit, made):
    """What a language's script has made in a folder: the files that it is to make, each tried."""
    names, tries = sorted(os.listdir(made)), PACKAGES[name][1]
    found = [fnmatch.filter(names, pattern) for pattern in PACKAGES[name][0]]
    are_all = all(len(it) == 1 for it in found) and len(names) == len(found)
    yield f"bindings/{name}/pack makes {' '.join(PACKAGES[name][0])}", are_all, names
    if are_all:
        os.makedirs(room)
        yield from tries(room, kit, *(f"{made}/{it}" for it, in found))
