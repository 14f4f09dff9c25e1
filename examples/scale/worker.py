#!/usr/bin/env python3
"""Takes parts from a store's queue, a stream of Redis, and sends them to the store. A part is taken off once it is answered.

    STORE_PASSWORD=.. worker.py SOCKET STREAM NAME URL USER

SOCKET is Redis', NAME the worker's own, URL the store's and USER who asks there. What happens to a part:

    200                   it is taken off
    400, 409, 413, 422    it goes to the stream `refused` with its answer, and is taken off: sent again it would be refused again
    no answer, any other  it stays pending, and whichever worker comes by after a while claims it and sends it again

So a part may be sent several times, and in any order. A worker that is killed leaves its part pending."""

import base64
import http.client
import os
import socket
import sys
import time
import urllib.error
import urllib.request

GROUP = "workers"
REFUSED = {400, 409, 413, 422}

# How long a part is pending before it is claimed, in milliseconds. One whose worker still waits for the answer is then sent twice.
PENDING_MS = 1000

# How long a worker rests after a part without an answer, and waits for its answer at most, in seconds.
PAUSE, PATIENCE = 0.2, 600


class Redis:
    """A connection to Redis: called with the words of a command, it gives the answer."""

    def __init__(self, path):
        self.socket = socket.socket(socket.AF_UNIX)
        self.socket.connect(path)
        self.answers = self.socket.makefile("rb")

    def __call__(self, *words):
        texts = [word if isinstance(word, bytes) else str(word).encode() for word in words]
        self.socket.sendall(b"*%d\r\n" % len(texts) + b"".join(b"$%d\r\n%s\r\n" % (len(text), text) for text in texts))
        return self.answer()

    def answer(self):
        line = self.answers.readline()
        if not line:
            raise ConnectionError("Redis has ended the connection")
        kind, rest = line[:1], line[1:-2]
        if kind == b"-":
            raise RuntimeError(rest.decode())
        if kind == b"+":
            return rest.decode()
        if kind == b":" or int(rest) < 0:
            return int(rest) if kind == b":" else None
        if kind == b"$":
            return self.answers.read(int(rest) + 2)[:-2]
        return [self.answer() for _ in range(int(rest))]


def fields_of(names_and_values):
    """The fields of an entry, which come as names and values in turn."""
    return {name.decode(): value for name, value in zip(names_and_values[::2], names_and_values[1::2])}


def make_group(redis, stream):
    """The group of workers that shares a stream, from the stream's beginning."""
    try:
        redis("XGROUP", "CREATE", stream, GROUP, "0", "MKSTREAM")
    except RuntimeError as error:
        if not str(error).startswith("BUSYGROUP"):
            raise


def take(redis, stream, name):
    """A part that has been pending for a while, or else the next one; or None."""
    _, claimed, *_ = redis("XAUTOCLAIM", stream, GROUP, name, PENDING_MS, "0-0", "COUNT", 1)
    if not claimed:
        read = redis("XREADGROUP", "GROUP", GROUP, name, "COUNT", 1, "BLOCK", 200, "STREAMS", stream, ">")
        claimed = read[0][1] if read else []
    for number, fields in claimed:
        redis("HINCRBY", "deliveries", stream, 1)
        return number, fields_of(fields)
    return None


def ask(url, user=None, password=None, body=None, more=None):
    """The status and the body of an answer; the status is None where none comes. With a body it is a POST."""
    request = urllib.request.Request(url, data=body, headers=more or {})
    if user is not None:
        request.add_header("Authorization", "Basic " + base64.b64encode(f"{user}:{password}".encode()).decode())
    try:
        with urllib.request.urlopen(request, timeout=PATIENCE) as answer:
            return answer.status, answer.read()
    except urllib.error.HTTPError as error:
        return error.code, error.read()
    except (OSError, http.client.HTTPException):
        return None, b""


def settle(redis, stream, number, part, status, answer):
    """Takes a part off, and keeps its answer, both or neither."""
    kept = ["stream", stream, "name", part["name"], "status", status, "answer", answer]
    redis("MULTI")
    redis("XADD", "answers", "*", *kept)
    if status in REFUSED:
        redis("XADD", "refused", "*", *kept, "target", part["target"], "body", part["body"])
    redis("XACK", stream, GROUP, number)
    redis("XDEL", stream, number)
    redis("EXEC")


def work(redis, stream, name, url, user, password):
    make_group(redis, stream)
    while True:
        taken = take(redis, stream, name)
        if taken is None:
            continue
        number, part = taken
        status, answer = ask(url + part["target"].decode(), user, password, part["body"])
        if status == 200 or status in REFUSED:
            settle(redis, stream, number, part, status, answer)
        else:
            time.sleep(PAUSE)


if __name__ == "__main__":
    if sys.argv[1:] in (["-h"], ["--help"]):
        print(__doc__)
        sys.exit(0)
    if len(sys.argv) != 6:
        sys.exit(__doc__)
    path, stream, name, url, user = sys.argv[1:]
    work(Redis(path), stream, name, url, user, os.environ["STORE_PASSWORD"])
