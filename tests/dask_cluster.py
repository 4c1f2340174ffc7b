"""A scheduler and workers of dask.distributed on loopback: for tests/dask_recipe and bench/cluster."""
import json
import os
import subprocess
import time

from built_program import PROGRAM, TOP

PYTHON = "/usr/bin/python3"  # Debian's, which has dask
LIMIT = 300  # seconds that only a hang takes


class Cluster:
    """A scheduler and so many workers; what they say stands in files of the folder, which nothing else uses."""

    def __init__(self, room, workers, threads=1, program=PROGRAM):
        self.room, self.threads, self.workers = room, threads, []
        os.makedirs(f"{room}/config")
        self.env = {**os.environ, "ODFILTER": program, "PYTHONDONTWRITEBYTECODE": "1", "DASK_CONFIG": f"{room}/config"}
        self.scheduler_file = f"{room}/scheduler.json"
        self.scheduler = self.started("scheduler", "dask_scheduler", "--port", "0")
        try:
            self.address = self.wait_for(self.address_known)
            for _ in range(workers):
                self.add_worker()
        except BaseException:
            self.__exit__()
            raise

    def started(self, name, module, *words):
        line = [PYTHON, "-m", f"distributed.cli.{module}", "--host", "127.0.0.1", "--no-dashboard", *words]
        with open(f"{self.room}/{name}", "wb") as said:
            to_file = ["--scheduler-file", self.scheduler_file]
            streams = {"stdin": subprocess.DEVNULL, "stdout": said, "stderr": said}
            return subprocess.Popen([*line, *to_file], env=self.env, cwd=self.room, **streams)

    def add_worker(self):
        """One more worker, when it has joined."""
        number = len(self.workers)
        words = ["--no-nanny", "--nthreads", str(self.threads), "--local-directory", f"{self.room}/local{number}"]
        self.workers.append(self.started(f"worker{number}", "dask_worker", *words))
        self.wait_for(lambda: "Registered to" in self.said_by(number))

    def said_by(self, number):
        with open(f"{self.room}/worker{number}", encoding="utf-8", errors="replace") as said:
            return said.read()

    def address_known(self):
        try:
            with open(self.scheduler_file, encoding="utf-8") as file:
                return json.load(file)["address"]
        except (OSError, ValueError):
            return None

    @staticmethod
    def wait_for(question):
        end = time.monotonic() + LIMIT
        while time.monotonic() < end:
            answer = question()
            if answer:
                return answer
            time.sleep(0.05)
        raise TimeoutError(f"no answer in {LIMIT} seconds")

    def recipe(self):
        """The words of a run of the recipe but for its own."""
        return [PYTHON, f"{TOP}/recipes/dask_filter.py", self.address]

    def start(self, *words, **streams):
        """A run of the recipe."""
        return subprocess.Popen([*self.recipe(), *words], env=self.env, stdin=subprocess.DEVNULL, **streams)

    def run(self, *words):
        """The answer of a run: its output, what it reported, and its status."""
        process = self.start(*words, stdout=subprocess.PIPE, stderr=subprocess.PIPE)
        return answer_of(process)

    def __enter__(self):
        return self

    def __exit__(self, *_):
        for process in [*self.workers, self.scheduler]:
            process.terminate()
        for process in [*self.workers, self.scheduler]:
            try:
                process.wait(10)
            except subprocess.TimeoutExpired:
                process.kill()
                process.wait()


def answer_of(process):
    """What is still to come of a run, which is ended where it takes too long."""
    try:
        out, err = process.communicate(timeout=LIMIT)
    except subprocess.TimeoutExpired:
        process.kill()
        out, err = process.communicate()
    return out, err.decode(errors="replace"), process.returncode
