"""The C# classes: mcs with warnings as errors, run by mono. .NET's own compiler and ASP.NET Core are not in Debian, so
the endpoint filter is compiled against stubs of the few types that it takes."""
import glob
import json
import re
import shutil
import xml.etree.ElementTree

from .common import CLIENTS, EXAMPLES, TOP, answers_suite, has_done, has_figures, kit, prints_page, run, text_of
from .served import checks_of_server

BINDING = f"{TOP}/bindings/csharp"
COMPILER = ["mcs", "-langversion:7.2", "-warnaserror", "-warn:4"]


def libraries(room):
    """Where mono finds the library: in the package, as .NET does by itself."""
    return {"LD_LIBRARY_PATH": f"{room}/csharp/runtimes/linux-x64/native"}


def compiled(room, name, sources):
    """A program over the assembly, beside which it stands."""
    shutil.copy(f"{room}/csharp/lib/netstandard2.0/Odfilter.dll", room)
    words = [*COMPILER, f"-r:{room}/Odfilter.dll", f"-out:{room}/{name}", *sources]
    return f"{name} is compiled", *has_done(words)


def is_built(room):
    for words in ([], [kit()], [room, room]):
        yield f"bindings/csharp/build with {len(words)} words", run([f"{BINDING}/build", *words])[0] == 2, words
    yield "bindings/csharp/build", *has_done([f"{BINDING}/build", kit(), f"{room}/csharp"])
    yield compiled(room, "Tests.exe", glob.glob(f"{BINDING}/test/*.cs"))
    status, out, err = run(["mono", f"{room}/Tests.exe"], more=libraries(room))
    last = out.decode().splitlines()[-1:]
    is_well = status == 0 and not err and re.fullmatch(r"[1-9]\d* passed, 0 failed", "".join(last)) is not None
    yield "the tests by mono", is_well, (status, out[-2_000:], err[-2_000:])
    yield from has_figures("C#", 4, out)
    wanted = json.loads(text_of(f"{TOP}/include/odfilter.json"))["version"]
    for path, name in (("odfilter.nuspec", "{*}metadata/{*}version"), ("Odfilter.csproj", "PropertyGroup/Version")):
        version = xml.etree.ElementTree.fromstring(text_of(f"{BINDING}/{path}")).find(name)
        yield f"the version of {path} is the library's", version.text == wanted, version.text


def answers(room):
    yield compiled(room, "Suite.exe", [f"{CLIENTS}/Suite.cs"])
    yield from answers_suite(room, "Suite.cs", ["mono", f"{room}/Suite.exe"], more=libraries(room))


def page(room):
    words = ["bash", "-c", f"{' '.join(COMPILER)} -r:Odfilter.dll -out:Page.exe Page.cs && exec mono Page.exe"]
    yield from prints_page(room, f"{BINDING}/README.md", "csharp", f"{room}/Page.cs", words, more=libraries(room))


def example(room):
    yield compiled(room, "Server.exe", glob.glob(f"{EXAMPLES}/aspnetcore/*.cs"))
    yield from checks_of_server("examples/aspnetcore", ["mono", f"{room}/Server.exe"], room, more=libraries(room))


def checks(room):
    for group in (is_built, answers, page, example):
        yield from group(room)


GROUPS = [checks]
