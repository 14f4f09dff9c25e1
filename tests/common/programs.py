"""The programs that a script runs, and what it needs to run them. A script that imports this ends here if there is no `mdstore`."""

import collections
import os
import resource
import signal
import socket
import subprocess
import sys

from common.checks import not_run, trying

# What builds a program.
BUILDERS = {"bin/mdstore": "make", "crates/mdstore/out/mdstore": "make test", "crates/mds_trials/out/mds_trials": "make test"}

# How many programs run at the same time. If two threads share a core, one program for each core takes less processor time and is as quick.
WORKERS = max(1, (os.cpu_count() or 1) // 2)

# The ports that were returned last. Two threads of a script may ask before the service of the first one listens.
GIVEN_PORTS = collections.deque(maxlen=100)


def program(number, otherwise):
    """The path of a program: the argument of this number, or another path if it isn't given. A script ends here if it isn't there."""
    path = sys.argv[number] if len(sys.argv) > number else otherwise
    if not os.access(path, os.X_OK) or os.path.isdir(path):
        builder = BUILDERS.get(os.path.relpath(path))
        not_run(path, f"`{builder}` builds it" if builder else f"`make` builds bin/mdstore, `make test` {list(BUILDERS)[-1]}")
    return os.path.abspath(path)


MDSTORE = program(1, "bin/mdstore")


def mdstore(*words, given=None, **more):
    """Runs the program with words, and these bytes on standard input, or none. Returns what it prints, and its status."""
    trying(["mdstore", *words], given)
    source = {"stdin": subprocess.DEVNULL} if given is None else {"input": given}
    return subprocess.run([MDSTORE, *words], capture_output=True, **source, **more)


def limited(most):
    """What a process does before it runs the program (`preexec_fn`), so that it can't write a file of more bytes. None is no limit."""
    def limit():
        if most is not None:
            signal.signal(signal.SIGXFSZ, signal.SIG_IGN)
            resource.setrlimit(resource.RLIMIT_FSIZE, (most, most))

    return limit


def free_port():
    """A port of 127.0.0.1 that is free, and that wasn't returned of late. Another process may take it before it is used."""
    while True:
        with socket.socket() as probe:
            probe.bind(("127.0.0.1", 0))
            port = probe.getsockname()[1]
        if port not in GIVEN_PORTS:
            GIVEN_PORTS.append(port)
            return port


def is_listening(port):
    """Whether a process listens on a port of 127.0.0.1. The table lists those that listen before the many connections that were closed."""
    with open("/proc/net/tcp") as table:
        next(table)
        for line in table:
            _, address, _, state, *_ = line.split()
            if state != "0A":
                return False
            if address == f"0100007F:{port:04X}":
                return True
    return False
