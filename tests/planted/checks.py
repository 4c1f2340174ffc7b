"""Checks of edited crates by the kit's prover, over the libraries that `rt ci` or `rt lib` has built below them."""
import os
import shutil
import subprocess
import tempfile
import threading
import time

from loopback import end_with_parent

# a check takes no longer than this, in seconds, and mostly less memory than this, in bytes, for which it waits so long
LONGEST = 3600
LIMIT_OF_MEMORY = 5_000_000_000
LONGEST_WAIT = 600


def kit():
    """The folder of the kit, by the page that `rt doc` names."""
    said = subprocess.run(["rt", "doc"], stdin=subprocess.DEVNULL, stdout=subprocess.PIPE, check=True, timeout=60)
    return os.path.dirname(said.stdout.decode().strip())


class Repository:
    """A repository of crates, each over others of it and over libraries of the kit, as crates.txt lists them."""

    def __init__(self, top):
        self.top, self.kit, self.uses, self.kinds = top, kit(), {}, {}
        with open(f"{top}/crates.txt", encoding="utf-8") as lines:
            for line in lines:
                head, found, below = line.partition("#")[0].partition(":")
                if found:
                    name, *kind = head.split()
                    self.uses[name], self.kinds[name] = below.split(), kind

    def folder(self, name):
        return f"{self.top}/crates/{name}"

    def library(self, name):
        return f"{self.folder(name)}/out/rlib/{name}.rlib" if name in self.uses else f"{self.kit}/rlibs/{name}.rlib"

    def below(self, name, seen=()):
        """The crates of the repository below one, the lowest first."""
        seen = list(seen)
        for it in self.uses[name]:
            if it in self.uses and it not in seen:
                seen = [*self.below(it, seen), it]
        return seen

    def lacking(self, name):
        return [it for it in self.below(name) if not os.path.isdir(self.library(it))]

    def lines(self, name):
        """How much there is to prove: lines of code, definitions and proofs."""
        parts = [f"{self.folder(name)}/{it}" for it in ("src", "specs", "proofs")]
        files = [os.path.join(at, it) for part in parts for at, _, names in os.walk(part) for it in names]
        return sum(data.count(b"\n") for data in map(bytes_of, files))

    def words(self, name):
        """The command that checks a crate, in a folder with its files."""
        root = next(it for it in ("src/main.rt", "src/lib.rt") if os.path.isfile(f"{self.folder(name)}/{it}"))
        line = [f"{self.kit}/bin/rattle", "check", "--crate-name", name, root]
        line += ["--crate-type", "staticlib"] if "staticlib" in self.kinds[name] else []
        for it in dict.fromkeys(["std", *self.uses[name]]):
            line += ["--extern", f"{it}={self.library(it)}"]
        for folder in [f"{self.kit}/rlibs", *(os.path.dirname(self.library(it)) for it in self.below(name))]:
            line += ["-L", f"dependency={folder}"]
        line += ["--antt-project", f"{self.kit}/rattle/logic/antt-project.json"]
        return [*line, "--logic-built", f"{self.kit}/logic_built", "--links", f"{name}=", "--jobs", "1"]


def bytes_of(path):
    with open(path, "rb") as data:
        return data.read()


class Said:
    """What a check has said, how it ended, and the seconds of the processor that it took."""

    def __init__(self, status, lines, seconds):
        self.status, self.lines, self.seconds = status, lines, seconds


def check(repository, name, texts, kept, flags):
    """Checks a copy of a crate with other texts, none for a file that goes, over what earlier checks of it have kept in
    a folder."""
    with tempfile.TemporaryDirectory(prefix="planted-") as room:
        for part in ("src", "specs", "proofs"):
            if os.path.isdir(f"{repository.folder(name)}/{part}"):
                shutil.copytree(f"{repository.folder(name)}/{part}", f"{room}/{part}")
        for path, text in texts.items():
            put(f"{room}/{path}", text)
        return run([*repository.words(name), "--incremental", kept, *flags], room)


def put(path, text):
    if text is None:
        os.remove(path)
        return
    os.makedirs(os.path.dirname(path), exist_ok=True)
    with open(path, "w", encoding="utf-8") as out:
        out.write(text)


def run(line, folder):
    """Runs a command after all others of the machine that want the processor; it ends with this process."""
    with tempfile.TemporaryFile() as said:
        how = {"cwd": folder, "stdin": subprocess.DEVNULL, "stdout": said, "stderr": subprocess.STDOUT}
        process = subprocess.Popen(["nice", "-n", "15", *line], preexec_fn=end_with_parent, **how)
        late = threading.Timer(LONGEST, process.kill)
        late.start()
        try:
            _, status, used = os.wait4(process.pid, 0)
            process.returncode = os.waitstatus_to_exitcode(status)
        finally:
            late.cancel()
        said.seek(0)
        text = said.read().decode(errors="replace")
    return Said(process.returncode, text.split("\n"), used.ru_utime + used.ru_stime)


def wait_for_room(is_pressing, has_place, moment=2):
    """Waits for memory; and while nothing presses for a place, twice the memory and a processor that was idle."""
    late = None
    while True:
        before = idle_seconds()
        time.sleep(moment)
        is_idle = idle_seconds() - before > 0.8 * moment
        if is_pressing():
            late = late or time.monotonic() + LONGEST_WAIT
            if free_memory() >= LIMIT_OF_MEMORY or time.monotonic() > late:
                return
        elif is_idle and has_place() and free_memory() >= 2 * LIMIT_OF_MEMORY:
            return


def idle_seconds():
    """The seconds for which the processors of this process have been idle, one after another."""
    mine, ticks = os.sched_getaffinity(0), 0
    with open("/proc/stat", encoding="ascii") as lines:
        for line in lines:
            name, *counts = line.split()
            if name.startswith("cpu") and name[3:].isdigit() and int(name[3:]) in mine:
                ticks += int(counts[3]) + int(counts[4])
    return ticks / os.sysconf("SC_CLK_TCK")


def free_memory():
    with open("/proc/meminfo", encoding="ascii") as lines:
        return next(1024 * int(line.split()[1]) for line in lines if line.startswith("MemAvailable:"))
