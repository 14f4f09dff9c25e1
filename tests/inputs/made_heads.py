"""Random heads of requests with the bytes after them, most of them valid. Each run makes the same ones."""

import random

from inputs.service_rows import EMPTY_FILE

# What a head is made of. Likely parts are listed more often.
BLANKS = [b""] * 20 + [b"\r\n", b"\n\r\n", b"\r\r\n"]
LINES = [b"GET /v1/streams", b"POST /v1/imports"] * 20 + [
    b"POST /v1/streams", b"GET /v1/imports", b"HEAD /v1/imports", b"PUT /v1/imports", b"get /v1/streams", b"M-S! /v1/streams", b" /v1/streams",
    b"GE\xffT /v1/streams", b"GET /", b"GET /v2", b"HEAD /v1/streams/", b"OPTIONS *", b"GET http://x/v1/streams", b"GET /v1/\xc3\xa9",
    b"GET /v1/\xff", b"POST /v1/imp\xc3", b"GET "]
VERSIONS = [b"HTTP/1.1"] * 30 + [b"HTTP/1.0"] * 6 + [b"HTTP/1.2", b"HTTP/2.0", b"http/1.1", b""]
ENDS = [b"\r\n"] * 160 + [b"\n"] * 10 + [b"\r"]
HOSTS = [[b"Host: x"]] * 30 + [[b"host:x"], [b"HOST:\t"], [], [b"Host: x", b"hOSt: y"], [b"Host : x"], [b" Host: x"], [b"Host"]]
LENGTHS = [b"41"] * 15 + [b"0041", b"0", b"40", b"42", b"45", b"46", b"8388608", b"8388609", b"9" * 30, b"", b"+1", b"-1", b"4 1", b"0x1", b"\xb2"]
OTHERS = [b"A: b", b"Accept: */*", b"Content-Type:text/csv ", b"X-:\xff\xc3", b"B:" + b" \t" * 20]
RARE = [b"Transfer-Encoding: chunked", b"transfer-encoding:"] * 2 + [b"A:\x00", b":b", b"A\x00: b", b"A: b\x7f"]
BODIES = [EMPTY_FILE.encode()] * 4 + [EMPTY_FILE.encode() + b"rest", EMPTY_FILE.encode()[:-1], b""]


def fields_of(made):
    """The fields of a head, in any order. Some heads have about as many as a head can have."""
    fields = list(made.choice(HOSTS))
    fields += [b"Content-Length: " + made.choice(LENGTHS) for _ in range(made.choice([0] + [1] * 12 + [2]))]
    fields += made.choices(OTHERS, k=made.choice([0, 1, 2, 3]))
    if made.random() < 0.1:
        fields.append(made.choice(RARE))
    if made.random() < 0.1:
        fields += [b"A: b"] * max(0, made.randint(63, 66) - len(fields))
    made.shuffle(fields)
    return fields


def damaged(made, data):
    """Mostly the request as it is. Else it is cut, or has a byte more, a byte less, or another byte."""
    place, byte = made.randrange(len(data) + 1), bytes([made.choice(b"\r\n \t:/\x00\x7f\xffAx1")])
    return made.choice([data] * 8 + [data[:place], data[:place] + byte + data[place:], data[:place] + data[place + 1:],
                                     data[:place] + byte + data[place + 1:]])


def made_head(made):
    """A request, made from random numbers."""
    lines = [made.choice(LINES) + b" " + made.choice(VERSIONS), *fields_of(made), b""]
    data = made.choice(BLANKS) + b"".join(line + made.choice(ENDS) for line in lines)
    return damaged(made, data + made.choice(BODIES))


def made_heads(count):
    """`count` requests."""
    made = random.Random(1)
    return [made_head(made) for _ in range(count)]
