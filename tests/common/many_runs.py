"""A program that is started once and runs many times (tests/shims/many_runs.c). It takes less processor time than starting each run."""

import contextlib
import mmap
import os
import queue
import subprocess
import sys

# If the C library takes memory in large pages, the system has less to do for a process.
TUNED = {"GLIBC_TUNABLES": "glibc.malloc.hugetlb=1:glibc.malloc.top_pad=16777216"}


def built(folder, *names):
    """Builds libraries from some C files in a folder, and returns their paths by name."""
    paths = {name: os.path.join(folder, name + ".so") for name in names}
    for name, path in paths.items():
        subprocess.run(["cc", "-O1", "-shared", "-fPIC", "-o", path, f"tests/shims/{name}.c"], check=True)
    return paths


def shared_numbers(path, count):
    """`count` numbers in a new file, shared with a program (tests/shims/shared_numbers.h)."""
    with open(path, "w+b") as file:
        file.truncate(8 * count)
        return memoryview(mmap.mmap(file.fileno(), 8 * count)).cast("l")


class ManyRuns:
    """A program with words that loads these libraries and runs as often as it is asked to, one run after the other. All runs are in one process,
    or each is in a copy of it. Its input and its output are files. `found` is what it finds in the environment."""

    def __init__(self, words, given, output, libraries, seconds, is_apart=False, found={}):
        self.words, self.output, self.is_apart = words, output, is_apart
        self.environment = {**os.environ, **TUNED, "LD_PRELOAD": " ".join(libraries), "RUNS_INPUT": given, "RUNS_OUTPUT": output,
                            "RUNS_SECONDS": str(seconds), **({"RUNS_APART": "1"} if is_apart else {}), **found}
        self.begin()

    def begin(self):
        self.process = subprocess.Popen(self.words, env=self.environment, stdin=subprocess.PIPE, stdout=subprocess.PIPE, bufsize=0)
        if self.is_apart:
            self.next_status()

    def next_status(self):
        """The next status. If the process of all runs has ended it is that of the process, and another process begins."""
        if data := self.process.stdout.read(4):
            return os.waitstatus_to_exitcode(int.from_bytes(data, sys.byteorder))
        status = self.end()
        self.begin()
        return status

    def run(self):
        """How a run ended, and what it printed."""
        self.process.stdin.write(b"\0")
        status = self.next_status()
        with open(self.output, "rb") as file:
            return status, file.read().decode()

    def end(self):
        """Ends the process of all runs, and returns its status."""
        self.process.stdin.close()
        self.process.stdout.close()
        return self.process.wait()


class Shared:
    """Things of which each thread has one at a time."""

    def __init__(self, things):
        self.things, self.idle = list(things), queue.SimpleQueue()
        for thing in self.things:
            self.idle.put(thing)

    @contextlib.contextmanager
    def one(self):
        thing = self.idle.get()
        try:
            yield thing
        finally:
            self.idle.put(thing)
