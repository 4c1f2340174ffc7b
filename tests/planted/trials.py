"""Trials of planted bugs: those of a crate many at once, those of several crates side by side."""
import concurrent.futures
import contextlib
import os
import re
import shutil
import tempfile
import threading

from .checks import LIMIT_OF_MEMORY, check, free_memory, wait_for_room
from .edits import Batch, Edit, FaultyEdit, batches_of, files_of
from .sources import Sources
from .stand_ins import StandIns
from .verdicts import is_accepted, is_judged, refusal


class Trial:
    """The planted bugs of a crate, or some of them: what each was refused at, and what did not go as it must."""

    def __init__(self, repository, name, wanted=(), is_planted=True):
        self.repository, self.name, self.wanted = repository, name, set(wanted)
        self.judge = self.judge_planted if is_planted else self.judge_unplanted
        self.passed, self.failed, self.lines = 0, 0, []
        self.checks, self.seconds, self.counting = 0, 0.0, threading.Lock()

    def run(self, place=contextlib.nullcontext):
        """Tries all, each check in a place of the machine."""
        self.place = place
        edits, lacking = self.edits(), self.repository.lacking(self.name)
        if lacking:
            for edit in edits:
                self.fails(edit.name, f"the library {lacking[0]} is not built: run rt ci, or rt lib in its folder")
        elif edits:
            with tempfile.TemporaryDirectory(prefix="planted-kept-") as kept:
                first, *others = sorted(batches_of(edits, self.sources), key=lambda it: -len(it.edits))
                self.judge(first, kept)
                with concurrent.futures.ThreadPoolExecutor(len(others) or 1) as pool:
                    list(pool.map(lambda it: self.judge_apart(it, kept), others))
            seconds = f"{self.seconds:.0f} seconds of the processor"
            self.lines.append(f"{self.name}: {len(edits)} planted bugs, {self.checks} checks, {seconds}")
        return self

    def edits(self):
        """The edits that fit the sources; each of the others has failed."""
        self.sources, found, left = Sources(self.repository.folder(self.name)), [], set(self.wanted)
        for path in files_of(self.repository.folder(self.name)):
            name = os.path.basename(path).removesuffix(".edit")
            if self.wanted and name not in self.wanted:
                continue
            left.discard(name)
            try:
                found.append(Edit(path, self.sources))
            except FaultyEdit as fault:
                self.fails(name, f"FAULTY EDIT: {fault}")
        for name in sorted(left):
            self.fails(name, "there is no such edit")
        return found

    def judge_unplanted(self, batch, kept):
        """Checks the functions of a batch as they are, by the contracts of what they call: none may be refused so."""
        said = self.check(batch, kept, StandIns(self.name, self.sources, batch.functions()), self.sources.texts)
        for edit in batch.edits:
            refused = [it.name for it in edit.functions if not is_judged(said) or not is_accepted(it, said)]
            if refused:
                self.fails(edit.name, f"REFUSED WITHOUT IT: {', '.join(refused)}")
            else:
                self.passes(edit.name, "not refused without it")

    def judge_planted(self, batch, kept):
        """Checks a batch by the contracts of what it calls. Edits that are not refused so are tried with all as it is,
        and those that are not refused then alone."""
        said = self.check(batch, kept, StandIns(self.name, self.sources, batch.functions()))
        left = self.without_refused(batch, said, "")
        if len(left) > 1:
            batch = Batch(left)
            left = self.without_refused(batch, self.check(batch, kept), ", with all as it is")
        for edit in left:
            said = self.check(Batch([edit]), kept)
            if self.without_refused(Batch([edit]), said, ", tried alone"):
                self.fails(edit.name, why_not(edit, said))

    def without_refused(self, batch, said, how):
        """The edits of a batch that a check does not show to be refused; the others have passed."""
        goals = {edit: refusal(edit, said, batch.edits) for edit in batch.edits}
        for edit in filter(goals.get, batch.edits):
            more = f" and {len(goals[edit]) - 2} more" if len(goals[edit]) > 2 else ""
            self.passes(edit.name, f"refused at {', '.join(goals[edit][:2])}{more}{how}")
        return [edit for edit in batch.edits if not goals[edit]]

    def judge_apart(self, batch, kept):
        """Checks a batch beside others, over what the first one has kept, and keeps nothing for them."""
        with tempfile.TemporaryDirectory(prefix="planted-kept-") as room:
            shutil.copytree(kept, f"{room}/kept", copy_function=link_or_copy)
            self.judge(batch, f"{room}/kept")

    def check(self, batch, kept, stand_ins=None, texts=None):
        """Checks the functions of a batch alone, with those that they call."""
        functions = dict.fromkeys(it.name for it in batch.functions())
        texts, flags = texts or batch.texts, ["--allow-holes"] if stand_ins else []
        texts = stand_ins.texts(texts) if stand_ins else texts
        flags += [word for it in functions for word in ("--only", it)]
        with self.place():
            said = check(self.repository, self.name, texts, kept, flags)
        with self.counting:
            self.checks, self.seconds = self.checks + 1, self.seconds + said.seconds
        return said

    def passes(self, name, what):
        with self.counting:
            self.passed += 1
            self.lines.append(f"{self.name}/{name}: {what}")

    def fails(self, name, why):
        with self.counting:
            self.failed += 1
            self.lines.append(f"FAILED {self.name}/{name}: {why}")


def link_or_copy(path, to):
    """What a check has proved is replaced by another one, and never written to, so that a link will do."""
    return os.link(path, to) if path.endswith(".oantt") else shutil.copy2(path, to)


def why_not(edit, said):
    """Why a check does not show that an edit is refused."""
    if said.status == 0:
        return "NOT REFUSED: its functions are still proved"
    if not is_judged(said):
        errors = [line for line in said.lines if re.search(r"error\b|fits no|fits nothing|PATH|--only", line)]
        return f"no verdict (status {said.status}): {(errors or [''.join(said.lines[-3:])])[0][:300]}"
    shorts = "|".join(re.escape(it.short) for it in edit.functions)
    about = [line for line in said.lines if re.search(rf"\b({shorts})\b.*(?:not proved|no proof|error)", line)]
    return f"NOT REFUSED at a goal of its own: {(about or ['nothing is said of it'])[0][:300]}"


class Lanes:
    """Trials side by side: so many checks at once, and half as many while others prove."""

    def __init__(self, most, is_pressing=lambda: True):
        self.most, self.is_pressing = most, is_pressing
        self.places, self.running = threading.Semaphore(most), 0
        self.starting, self.counting = threading.Lock(), threading.Lock()

    @contextlib.contextmanager
    def place(self):
        """A place for a check. One begins at a time, so that each sees what the one before it takes."""
        with self.places:
            with self.starting:
                wait_for_room(self.is_pressing, lambda: self.running < max(1, self.most // 2))
                self.add(1)
            try:
                yield
            finally:
                self.add(-1)

    def add(self, more):
        with self.counting:
            self.running += more

    def run(self, trials, report):
        """Runs trials as they come, and reports each at its end."""
        with concurrent.futures.ThreadPoolExecutor(self.most) as pool:
            for done in [*[pool.submit(self.one, it, report) for it in trials]]:
                done.result()

    def one(self, trial, report):
        report(trial.run(self.place))


def checks_at_once():
    """As many as RT_JOBS says, or one a processor, each with its memory."""
    asked = os.environ.get("RT_JOBS", "")
    if asked.isdigit() and int(asked):
        return int(asked)
    return max(1, min(len(os.sched_getaffinity(0)), free_memory() // LIMIT_OF_MEMORY))
