"""Debian's packages of a release: the program, the shared library, and what a program is built with. For tests/release.

They are made by dpkg-deb of the built files, for the architecture amd64. The licence and the address are the owner's to
name: the file copyright has a line instead of the first, DEBFULLNAME and DEBEMAIL name the second.
"""
import gzip
import hashlib
import os
import re
import subprocess
import tempfile

from built_library import TOP

__all__ = ["UNNAMED", "made"]
# what lintian says of an address that nobody has named yet
UNNAMED = ["bogus-mail-host", "bogus-mail-host-in-debian-changelog"]
MULTIARCH = "usr/lib/x86_64-linux-gnu"
OWNER = "The owner of odfilter"
MAINTAINER = f"{os.environ.get('DEBFULLNAME', OWNER)} <{os.environ.get('DEBEMAIL', 'nobody@localhost.localdomain')}>"
WHEN = 1795996800  # 30 November 2026, of all files
COPYRIGHT = """Format: https://www.debian.org/doc/packaging-manuals/copyright-format/1.0/
Upstream-Name: odfilter

Files: *
Copyright: 2026 the owner of odfilter
License: unnamed
 The owner has not named a licence yet. This line stands in its place.
"""
CONFIG = """prefix=/usr
includedir=${{prefix}}/include
libdir=${{prefix}}/lib/x86_64-linux-gnu

Name: odfilter
Description: Checks OData filters against a schema, and judges rows of JSON by them
Version: {version}
Cflags: -I${{includedir}}
Libs: -L${{libdir}} -lodfilter
"""
WHAT = """ odfilter reads $filter expressions of OData 4.01, checks them against a
 schema in CSDL JSON, and picks the rows of JSON on which they are true."""
PACKAGES = {
    "odfilter": ("utils", "check OData filters and pick rows of JSON by them", "This is the program."),
    "libodfilter0": ("libs", "check OData filters (shared library)", "This is the library that programs load."),
    "libodfilter-dev": ("libdevel", "check OData filters (development files)",
                        "These are the header, the static library and pkg-config's file."),
}


def read(path):
    with open(path, "rb") as file:
        return file.read()


def squeezed(text):
    return gzip.compress(text, 9, mtime=0)


def stripped(path, *how):
    """A built file without what only a debugger reads."""
    with tempfile.TemporaryDirectory() as room:
        subprocess.run(["strip", *how, "-o", f"{room}/file", path], check=True, timeout=60)
        return read(f"{room}/file")


def needed_glibc(text):
    """The newest version of the C library whose symbols a file asks for."""
    found = re.findall(rb"GLIBC_(\d+(?:\.\d+)+)\0", text)
    return max(found, key=lambda it: [*map(int, it.split(b"."))]).decode()


def newest(files):
    """The newest that any program or library among some files asks for."""
    built = [text for _, _, text in files if isinstance(text, bytes) and text.startswith(b"\x7fELF")]
    return max(map(needed_glibc, built), key=lambda it: [*map(int, it.split("."))])


def program_files(program):
    yield "usr/bin/odfilter", 0o755, stripped(program, "--strip-unneeded", "--remove-section=.comment")
    yield "usr/share/man/man1/odfilter.1.gz", 0o644, squeezed(read(f"{TOP}/share/man/man1/odfilter.1"))
    for name in ("bash-completion/completions/odfilter", "zsh/vendor-completions/_odfilter",
                 "fish/vendor_completions.d/odfilter.fish"):
        source = name.replace("zsh/vendor-completions", "zsh/site-functions")
        yield f"usr/share/{name}", 0o644, read(f"{TOP}/share/{source}")


def library_files(kit):
    how = ("--strip-unneeded", "--remove-section=.comment", "--remove-section=.note")
    yield f"{MULTIARCH}/libodfilter.so.0", 0o644, stripped(f"{kit}/lib/libodfilter.so.0", *how)


def header_files(kit, version):
    yield "usr/include/odfilter.h", 0o644, read(f"{TOP}/include/odfilter.h")
    yield f"{MULTIARCH}/libodfilter.a", 0o644, stripped(f"{kit}/lib/libodfilter.a", "--strip-debug", "-D")
    yield f"{MULTIARCH}/libodfilter.so", 0o777, "libodfilter.so.0"
    yield f"{MULTIARCH}/pkgconfig/odfilter.pc", 0o644, CONFIG.format(version=version).encode()


def control_of(name, version, files):
    """The fields of a package, and the files that dpkg has beside it."""
    section, short, more = PACKAGES[name]
    depends = {"libodfilter-dev": f"libodfilter0 (= {version}-1)"}.get(name)
    depends = depends or f"libc6 (>= {newest(files)})"
    size = sum(len(text) for _, _, text in files) // 1024 + 1
    lines = [f"Package: {name}", "Source: odfilter", f"Version: {version}-1", "Architecture: amd64"]
    lines += [f"Maintainer: {MAINTAINER}", f"Installed-Size: {size}", f"Depends: {depends}", f"Section: {section}"]
    lines += ["Priority: optional", *(["Multi-Arch: same"] if name != "odfilter" else [])]
    lines += [f"Description: {short}", WHAT, " .", f" {more}", ""]
    yield "control", "\n".join(lines)
    sums = [f"{hashlib.md5(text).hexdigest()}  {path}\n" for path, _, text in files if isinstance(text, bytes)]
    yield "md5sums", "".join(sums)
    if name == "libodfilter0":
        yield "shlibs", f"libodfilter 0 libodfilter0 (>= {version})\n"
        yield "triggers", "activate-noawait ldconfig\n"


def placed(root, files, controls):
    for path, mode, text in files:
        os.makedirs(os.path.dirname(f"{root}/{path}"), exist_ok=True)
        if isinstance(text, str):
            os.symlink(text, f"{root}/{path}")
            continue
        with open(f"{root}/{path}", "wb") as out:
            out.write(text)
        os.chmod(f"{root}/{path}", mode)
    os.makedirs(f"{root}/DEBIAN")
    for name, text in controls:
        with open(f"{root}/DEBIAN/{name}", "w", encoding="utf-8") as out:
            out.write(text)
    for folder, names, others in os.walk(root):
        for name in [*names, *others]:
            os.utime(f"{folder}/{name}", (WHEN, WHEN), follow_symlinks=False)
        os.chmod(folder, 0o755)
        os.utime(folder, (WHEN, WHEN))


def made(folder, program, kit, version):
    """Makes the packages in a folder: of the same files the same, byte for byte."""
    changes = f"odfilter ({version}-1) unstable; urgency=medium\n\n  * Release {version}.\n\n"
    changes += f" -- {MAINTAINER}  Mon, 30 Nov 2026 00:00:00 +0000\n"
    whole = {"odfilter": program_files(program), "libodfilter0": library_files(kit),
             "libodfilter-dev": header_files(kit, version)}
    for name, found in whole.items():
        files = [*found, (f"usr/share/doc/{name}/copyright", 0o644, COPYRIGHT.encode())]
        files.append((f"usr/share/doc/{name}/changelog.Debian.gz", 0o644, squeezed(changes.encode())))
        files.append((f"usr/share/doc/{name}/changelog.gz", 0o644, squeezed(read(f"{TOP}/CHANGELOG.md"))))
        path = f"{folder}/{name}_{version}-1_amd64.deb"
        with tempfile.TemporaryDirectory() as root:
            placed(root, files, control_of(name, version, files))
            words = ["dpkg-deb", "--build", "--root-owner-group", "-Zxz", root, path]
            env = {**os.environ, "SOURCE_DATE_EPOCH": str(WHEN)}
            subprocess.run(words, check=True, capture_output=True, timeout=300, env=env)
        yield path
