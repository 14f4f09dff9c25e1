"""What `mds_trials` reads: numbers, bytes after their length, limits of readers and writers, and steps with a store."""

import struct

MOST = 2**32 - 1


def part(data):
    """Some bytes after their length."""
    return struct.pack(">I", len(data)) + data


def parts(*data):
    return b"".join(map(part, data))


def limit(step=MOST, calls=MOST, fails=True):
    """A reader or a writer that takes `step` bytes in each of `calls` calls. Each further call fails, or takes no byte."""
    return struct.pack(">III", step, calls, fails)


def over_http(request):
    """A request as it is sent over HTTP."""
    method, target, body = request
    length = "" if body is None else f"Content-Length: {len(body)}\r\n"
    return f"{method} {target} HTTP/1.1\r\nHost: x\r\n{length}\r\n".encode() + (body or b"")


# Steps. A store is created or adopted, and serves requests. Or it is adopted for lists of requests, each of which one run answers, or for a
# request over a limited reader and writer. Other bytes may follow such a request.

def create(*requests):
    return b"c" + parts(*map(over_http, requests))


def adopt(*requests):
    return b"a" + parts(*map(over_http, requests))


def run_lists(*lists):
    return b"r" + parts(*(parts(*(text for _, target, body in requests for text in (target.encode(), body or b""))) for requests in lists))


def talk(request, reads=limit(), writes=limit(), behind=b""):
    return b"t" + reads + writes + part(over_http(request) + behind)
