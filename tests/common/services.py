"""The services that scripts ask: `mdstore serve` over a store in a file, and `mds_trials` over keepers of its own."""

import contextlib
import os
import shutil
import socket
import subprocess
import tempfile
import time

from common.checks import check, trying
from common.programs import MDSTORE, free_port, is_listening, limited, mdstore

DIR = tempfile.mkdtemp()
processes = []


def command(*words, file=b""):
    """The status of a command, and what it prints."""
    ran = mdstore(*words, given=file)
    return ran.returncode, ran.stdout.decode()


class Service:
    """A process that serves, unless it ends before it listens. It can't write a file of more than `most` bytes."""

    def __init__(self, words, environment=None, most=None):
        self.port = free_port()
        self.process = subprocess.Popen(words(str(self.port)), env=environment, stdin=subprocess.DEVNULL, stdout=subprocess.PIPE,
                                        stderr=subprocess.DEVNULL, preexec_fn=limited(most) if most else None)
        processes.append(self.process)
        while self.process.poll() is None and not is_listening(self.port):
            time.sleep(0.002)
        self.is_there = self.process.poll() is None

    def send(self, data):
        """The bytes of the answer to these bytes, after which the peer ends its side. A connection that is reset may lose the last ones."""
        trying("bytes to the service", data)
        answered = b""
        with socket.create_connection(("127.0.0.1", self.port)) as peer, contextlib.suppress(ConnectionError):
            peer.settimeout(60)
            with contextlib.suppress(ConnectionError):
                peer.sendall(data)
                peer.shutdown(socket.SHUT_WR)
            while more := peer.recv(65536):
                answered += more
        return answered

    def ask(self, request):
        """The answer to a request, or None if the connection is closed without one."""
        method, target, body = request
        trying(f"{method} {target}", body)
        head = f"{method} {target} HTTP/1.1\r\nHost: x\r\n"
        if body is not None:
            head += f"Content-Length: {len(body)}\r\n"
        try:
            with socket.create_connection(("127.0.0.1", self.port)) as peer:
                peer.settimeout(60)
                peer.sendall(head.encode() + b"\r\n" + (body or b""))
                data = peer.makefile("rb").read()
        except ConnectionError:
            return None
        if not data:
            return None
        head, _, text = data.partition(b"\r\n\r\n")
        line, kind, *_ = head.decode().split("\r\n")
        return int(line.split()[1]), kind.removeprefix("Content-Type: "), text.decode()

    def ended(self):
        """The status that it ends with, and what it printed."""
        out, _ = self.process.communicate(timeout=60)
        return self.process.returncode, out


def started(words, most=None):
    """A service that listens. Another process may take its port before it does, so it is tried several times."""
    for _ in range(20):
        service = Service(words, most=most)
        if service.is_there:
            return service
    raise RuntimeError(f"no service listens: {words('PORT')}")


def over_file(store, count, most=None):
    return started(lambda port: [MDSTORE, "serve", "--store", store, "--port", port, "--count", str(count)], most)


def in_memory(trials, count):
    return started(lambda port: [trials, "serve", port, str(count)])


def new_store(name):
    store = os.path.join(DIR, name)
    check(f"init of {name}", command("init", "--store", store), (0, "created\n"))
    return store


def clear():
    """Ends the services that still run, and removes the files."""
    for process in processes:
        process.kill()
    shutil.rmtree(DIR)
