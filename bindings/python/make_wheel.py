"""Makes the wheel of the module odfilter, with the library in it: what `pip install bindings/python` calls.

The library is that of the variable ODFILTER_LIBRARY, else libodfilter.so beside this file, as `bindings/c/build FOLDER`
leaves it in FOLDER/lib. A wheel is a zip file with a list of its own contents (PEP 427), so the standard library makes
it, and pip builds offline. Its tag names any Python 3 and the platform of the library: this machine's, or that of the
variable WHEEL_PLATFORM.
"""
import base64
import hashlib
import os
import re
import sysconfig
import tarfile
import zipfile

TOP = os.path.dirname(os.path.realpath(__file__))
PACKAGE = f"{TOP}/odfilter"


def project():
    """The texts of pyproject.toml's section [project], by their names."""
    with open(f"{TOP}/pyproject.toml", encoding="utf-8") as file:
        section = file.read().partition("[project]\n")[2]
    return dict(re.findall(r'^([\w-]+) = "([^"]*)"$', section, re.MULTILINE))


def library():
    path = os.environ.get("ODFILTER_LIBRARY") or f"{TOP}/libodfilter.so"
    if not os.path.exists(path):
        wanted = "run bindings/c/build FOLDER, then set ODFILTER_LIBRARY to FOLDER/lib/libodfilter.so"
        raise SystemExit(f"no library odfilter at {path}: {wanted}")
    return path


def sources():
    """The files of the package, each with its name in it."""
    names = sorted(name for name in os.listdir(PACKAGE) if name.endswith((".py", ".sql", ".typed")))
    return [(f"odfilter/{name}", f"{PACKAGE}/{name}") for name in names]


def metadata():
    about = project()
    lines = ["Metadata-Version: 2.1", f"Name: {about['name']}", f"Version: {about['version']}"]
    lines += [f"Summary: {about['description']}", f"Requires-Python: {about['requires-python']}", ""]
    return "\n".join(lines).encode()


def bytes_of(path):
    with open(path, "rb") as file:
        return file.read()


def build_wheel(wheel_directory, config_settings=None, metadata_directory=None):
    """Makes the wheel in a folder, and returns its name (PEP 517)."""
    del config_settings, metadata_directory
    about, platform = project(), os.environ.get("WHEEL_PLATFORM") or re.sub(r"[-.]", "_", sysconfig.get_platform())
    tag, info = f"py3-none-{platform}", f"{about['name']}-{about['version']}.dist-info"
    files = {name: bytes_of(path) for name, path in [*sources(), ("odfilter/libodfilter.so", library())]}
    files[f"{info}/METADATA"] = metadata()
    files[f"{info}/WHEEL"] = f"Wheel-Version: 1.0\nGenerator: make_wheel\nRoot-Is-Purelib: false\nTag: {tag}\n".encode()
    record = [f"{name},sha256={digest(data)},{len(data)}\n" for name, data in files.items()]
    files[f"{info}/RECORD"] = "".join([*record, f"{info}/RECORD,,\n"]).encode()
    wheel = f"{about['name']}-{about['version']}-{tag}.whl"
    with zipfile.ZipFile(os.path.join(wheel_directory, wheel), "w", zipfile.ZIP_DEFLATED) as archive:
        for name, data in files.items():
            # one date for all, so that one wheel is made of one content
            entry = zipfile.ZipInfo(name, (1980, 1, 1, 0, 0, 0))
            entry.external_attr = 0o100644 << 16
            archive.writestr(entry, data, zipfile.ZIP_DEFLATED)
    return wheel


def digest(data):
    return base64.urlsafe_b64encode(hashlib.sha256(data).digest()).rstrip(b"=").decode()


def build_sdist(sdist_directory, config_settings=None):
    """Makes the archive of what a wheel is made of, and returns its name (PEP 517)."""
    del config_settings
    stem = f"{project()['name']}-{project()['version']}"
    own = [(name, f"{TOP}/{name}") for name in ("pyproject.toml", "make_wheel.py")]
    with tarfile.open(os.path.join(sdist_directory, f"{stem}.tar.gz"), "w:gz") as archive:
        for name, path in [*sources(), *own, ("libodfilter.so", library())]:
            archive.add(os.path.realpath(path), f"{stem}/{name}")
    return f"{stem}.tar.gz"
