"""The answer to the bytes of a connection, straight from "The service" of docs/FORMATS.md and from RFC 9112, sections 2 to 5, and slow: for
tests/service. It shares no code with the program. It knows a store that keeps nothing, and two routes."""

from inputs.service_rows import (
    BAD, CLOSED, HEAD_TOO_LONG, NOT_IMPLEMENTED, NO_LENGTH, NO_ROUTE, TOO_LONG, UNPROCESSABLE, json_answer, not_allowed, refused)
from oracles import slow_check

MOST_BYTES, MOST_FIELDS, MOST_BODY = 16_384, 64, 8_388_608
DIGITS = frozenset(b"0123456789")
TOKEN = frozenset(b"ABCDEFGHIJKLMNOPQRSTUVWXYZabcdefghijklmnopqrstuvwxyz!#$%&'*+-.^_`|~") | DIGITS
TARGET = frozenset(range(0x21, 0x100)) - {0x7F}
VALUE = TARGET | frozenset(b" \t")
METHODS = {b"/v1/streams": "GET", b"/v1/imports": "POST"}


class Ended(Exception):
    """The bytes end before the head does."""


class NoHead(Exception):
    """However the bytes go on, they don't begin a head with so few fields."""


class Text:
    """Bytes that are read one by one."""

    def __init__(self, data):
        self.data, self.at = data, 0

    def take(self):
        if self.at == len(self.data):
            raise Ended
        self.at += 1
        return self.data[self.at - 1]

    def take_run(self, first, allowed):
        """The allowed bytes from a first one on, and the byte after them. There has to be one."""
        begin, byte = self.at - 1, first
        while byte in allowed:
            byte = self.take()
        return self.data[begin:self.at - 1], byte

    def take_end(self, first):
        """The end of a line, CR LF or LF, from its first byte on."""
        must(first in b"\r\n")
        must(first != 0x0D or self.take() == 0x0A)


def must(holds):
    if not holds:
        raise NoHead


def is_text(data):
    try:
        data.decode()
    except UnicodeDecodeError:
        return False
    return True


def field_of(text, first):
    """The name of a field in lower case, and its value, from its first byte on."""
    name, byte = text.take_run(first, TOKEN)
    must(name and byte == 0x3A)
    value, byte = text.take_run(text.take(), VALUE)
    text.take_end(byte)
    return name.lower(), value.strip(b" \t")


def head_of(text):
    """Method, target, minor version and fields. A target is checked for UTF-8 at its end, and the fields are counted at theirs."""
    byte = text.take()
    while byte in b"\r\n":
        text.take_end(byte)
        byte = text.take()
    method, byte = text.take_run(byte, TOKEN)
    must(method and byte == 0x20)
    target, byte = text.take_run(text.take(), TARGET)
    must(target and byte == 0x20 and is_text(target))
    for wanted in b"HTTP/1.":
        must(text.take() == wanted)
    minor = text.take()
    must(minor in b"01")
    text.take_end(text.take())
    fields = []
    while (byte := text.take()) not in b"\r\n":
        fields.append(field_of(text, byte))
        must(len(fields) <= MOST_FIELDS)
    text.take_end(byte)
    return method, target, minor - 0x30, fields


def judged(method, target, minor, fields):
    """The answer to a head, or None if its route and its method are right."""
    values = {name: [value for found, value in fields if found == name] for name in [b"host", b"transfer-encoding"]}
    if len(values[b"host"]) > 1 or (minor == 1 and not values[b"host"]):
        return BAD
    if values[b"transfer-encoding"]:
        return refused(NOT_IMPLEMENTED)
    if not target.startswith(b"/"):
        return BAD
    wanted = METHODS.get(target.partition(b"?")[0])
    if wanted is None:
        return NO_ROUTE
    return None if method == wanted.encode() else not_allowed(wanted)


def of_length(fields, rest):
    """The answer to an import. Its body begins `rest`, the bytes after the head."""
    lengths = [value for name, value in fields if name == b"content-length"]
    if not lengths:
        return refused(NO_LENGTH)
    if len(lengths) > 1 or not lengths[0] or not DIGITS.issuperset(lengths[0]):
        return BAD
    size = int(lengths[0])
    if size > MOST_BODY:
        return refused(TOO_LONG)
    return CLOSED if len(rest) < size else of_file(rest[:size])


def of_file(body):
    """The answer to a file that states nothing, or is faulty."""
    printed, _ = slow_check.printed(body)
    if not printed:
        return json_answer(added=0, known=0)
    code, _, line, *field = printed.split()
    return refused(UNPROCESSABLE, error=code, line=int(line), **({"field": int(field[1])} if field else {}))


def answered(data):
    """The answer to everything that a peer sends before it ends its side. Targets have no query."""
    text = Text(data[:MOST_BYTES])
    try:
        method, target, minor, fields = head_of(text)
    except NoHead:
        return BAD
    except Ended:
        return refused(HEAD_TOO_LONG) if len(data) >= MOST_BYTES else CLOSED
    found = judged(method, target, minor, fields)
    if found is not None:
        return found.partition("\r\n\r\n")[0] + "\r\n\r\n" if method == b"HEAD" else found
    return json_answer(streams=[]) if method == b"GET" else of_length(fields, data[text.at:])
