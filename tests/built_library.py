"""The C library as tests and benches take it: the shared one, those for ARM64 and Windows, and the module of
WebAssembly. Each is the one that a variable names, or it is built."""
import contextlib
import glob
import hashlib
import os
import subprocess
import tempfile

TOP = os.path.dirname(os.path.dirname(os.path.realpath(__file__)))
MODULE = f"{TOP}/bindings/python"
WINE = "/usr/lib/wine/wine64"


def has_library(room):
    """Names the library for this process and those that it starts: what ODFILTER_LIBRARY names, or one built here."""
    if "ODFILTER_LIBRARY" not in os.environ:
        subprocess.run([f"{TOP}/bindings/c/build", f"{room}/kit"], check=True)
        os.environ["ODFILTER_LIBRARY"] = f"{room}/kit/lib/libodfilter.so"
    os.environ["ODFILTER_LIBRARY"] = os.path.realpath(os.environ["ODFILTER_LIBRARY"])
    return os.environ["ODFILTER_LIBRARY"]


def has_module(room):
    """The same of the module of WebAssembly: what ODFILTER_WASM names, or one built here."""
    if "ODFILTER_WASM" not in os.environ:
        subprocess.run([f"{TOP}/bindings/wasm/build", f"{room}/wasm"], check=True)
        os.environ["ODFILTER_WASM"] = f"{room}/wasm/odfilter.wasm"
    os.environ["ODFILTER_WASM"] = os.path.realpath(os.environ["ODFILTER_WASM"])
    return os.environ["ODFILTER_WASM"]


def has_arm64(room):
    """The same of the folder with the library for ARM64, which ODFILTER_ARM64 names."""
    return has_target(room, "ODFILTER_ARM64", "aarch64-unknown-linux-gnu")


def has_windows(room):
    """The same of the folder with the library for Windows, which ODFILTER_WINDOWS names."""
    return has_target(room, "ODFILTER_WINDOWS", "x86_64-w64-windows-gnu")


def in_wine(room):
    """How a program for Windows is run in a folder: the first one makes what wine stores there."""
    how = {"cwd": room, "env": {**os.environ, "WINEPREFIX": f"{room}/wine", "WINEDEBUG": "-all"}}
    if not os.path.exists(f"{room}/wine"):
        subprocess.run([WINE, "hostname"], capture_output=True, timeout=600, **how)
    return how


def has_target(room, variable, target):
    """The folder that the variable names, or one with the library for that target, built of the module of the proved
    build for x86-64 without a proof more. It stays beside the module, for the next test of the same sources."""
    if variable not in os.environ:
        subprocess.run([f"{TOP}/bindings/c/build", f"{room}/kit"], check=True)
        out = f"{TOP}/crates/odfilter_c/out"
        module = f"{out}/libodfilter_c.bc"
        to = f"{out}/{target}-{checksum_of(module)[:16]}"
        if not os.path.exists(to):
            with tempfile.TemporaryDirectory(dir=out) as part:
                words = [f"{TOP}/bindings/c/build", "--target", target, f"{part}/made"]
                subprocess.run(words, check=True, env={**os.environ, "MODULE": module})
                # where another test was first, its folder stays
                with contextlib.suppress(OSError):
                    os.rename(f"{part}/made", to)
        os.environ[variable] = to
    os.environ[variable] = os.path.realpath(os.environ[variable])
    return os.environ[variable]


def checksum_of(module):
    """The checksum of all that a library for another platform is built of."""
    found, others = hashlib.sha256(), [f"{TOP}/include/odfilter.h", f"{TOP}/bindings/byte_shuffle.py"]
    for path in [module, *others, *sorted(glob.glob(f"{TOP}/bindings/c/*"))]:
        with open(path, "rb") as file:
            found.update(file.read())
    return found.hexdigest()
