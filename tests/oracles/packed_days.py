"""Packs the readings of a day by hand, as "Packed days" of docs/FORMATS.md says. It shares no code with examples/unpack.py."""

import itertools
import struct

COUNTS = {5: 288, 15: 96, 30: 48}


def run_bytes(first, last, quality, code, text):
    """A run: its first and last interval, and its mark. A missing code is -1."""
    flag, method = ord(quality[0]), int(quality[1:] or "0")
    text = text.encode()
    return struct.pack(">HHBBHH", first, last, flag, method, 0xFFFF if code == -1 else code, len(text)) + text


def body_of(readings):
    """The body of a day's readings. Each interval has a quality, code, text and value, or `None` if it has no reading. A missing code is -1. A
    value is in millionths, and ignored if the quality is N."""
    runs = []
    for mark, places in itertools.groupby(range(len(readings)), lambda place: readings[place] and readings[place][:3]):
        if mark is not None:
            places = list(places)
            runs.append(run_bytes(places[0] + 1, places[-1] + 1, *mark))
    values = [struct.pack(">q", reading[3]) for reading in readings if reading is not None and reading[0] != "N"]
    return struct.pack(">BHH", 1, len(readings), len(runs)) + b"".join(runs) + b"".join(values)


def actual(value):
    """A reading of quality A, without a reason."""
    return "A", -1, "", value


def rows_of(versions, counts):
    """The rows of mds_pack, in order, for rows of mds_version: nmi, suffix, day, interval, moment, quality, code, text, value. `counts` says how
    many intervals a day has under an update, by nmi, suffix, day and moment."""
    days = {}
    for nmi, suffix, day, interval, moment, *reading in versions:
        key = nmi, suffix, day, moment
        days.setdefault(key, counts[key] * [None])[interval - 1] = tuple(reading)
    return [(*key, body_of(readings)) for key, readings in sorted(days.items())]
