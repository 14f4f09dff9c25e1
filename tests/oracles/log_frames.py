"""The log of an SQLite database, as "The Write-Ahead Log" of its file format describes it: which frames count, and what they make of the
database."""

import struct

# The bytes of the log's header and of a frame's head, the place in such a head that a writer fills last, and the bytes of an emptied log.
HEADER, FRAME, GATE, EMPTIED = 32, 24, 8, 41


class Frame:
    """A page in the log: its number, its bytes, how many pages the database has if the frame ends a commit, else 0, and where the frame ends."""

    def __init__(self, number, page, commits, end):
        self.number, self.page, self.commits, self.end = number, page, commits, end


def summed(order, start, data):
    """The checksum of the log, from what it was before these bytes."""
    first, second = start
    for one, other in struct.iter_unpack(order + "II", data):
        first = (first + one + second) & 0xffffffff
        second = (second + other + first) & 0xffffffff
    return first, second


def frames_of(log):
    """The frames that count. Each has the salt of the header, and the checksum of everything before it. A log with a wrong header has none."""
    if len(log) < HEADER:
        return []
    magic, _, size, _, *salt = struct.unpack(">6I", log[:24])
    order = ">" if magic & 1 else "<"
    sums = summed(order, (0, 0), log[:24])
    if magic & ~1 != 0x377f0682 or sums != struct.unpack(">II", log[24:HEADER]):
        return []
    found, at = [], HEADER
    while at + FRAME + size <= len(log):
        head, page = log[at:at + FRAME], log[at + FRAME:at + FRAME + size]
        number, commits, *others = struct.unpack(">6I", head)
        sums = summed(order, summed(order, sums, head[:8]), page)
        if others != [*salt, *sums]:
            break
        at += FRAME + size
        found.append(Frame(number, page, commits, at))
    return found


def commits_of(log):
    """The frames that count, in one list for each commit. Frames after the last commit don't count."""
    found, open_frames = [], []
    for frame in frames_of(log):
        open_frames.append(frame)
        if frame.commits:
            found.append(open_frames)
            open_frames = []
    return found


def applied(data, commits):
    """A database after these commits were written into it."""
    data = bytearray(data)
    for frames in commits:
        size = len(frames[-1].page)
        for frame in frames:
            at = (frame.number - 1) * size
            data += bytes(max(0, at - len(data)))
            data[at:at + size] = frame.page
        del data[frames[-1].commits * size:]
    return bytes(data)
