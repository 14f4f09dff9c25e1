#!/usr/bin/env python3
"""The checksums that SQLite's extension cksumvfs keeps in the last eight bytes of each page, by its source and its page cksumvfs.html.

    tests/oracles/page_sums.py FILE

Run as a program it writes the right sum into each page of a database that has room for it.
"""

import struct
import sys

# How many bytes a sum has, and where the header of a database says how many bytes of each page are reserved.
SIZE, RESERVED = 8, 20


def page_size(data):
    """The size of a database's pages, from its header."""
    size = int.from_bytes(data[16:18], "big")
    return 65536 if size == 1 else size


def has_room(data):
    """Whether each page of a database has room for a sum."""
    return data[RESERVED] == SIZE


def sum_of(page):
    """The sum of a page without its last eight bytes."""
    first = second = 0
    words = struct.iter_unpack("<II", page[:-SIZE])
    for one, other in words:
        first = (first + one + second) & 0xffffffff
        second = (second + other + first) & 0xffffffff
    return struct.pack("<II", first, second)


def pages_of(data):
    """The pages of a database, in order."""
    size = page_size(data)
    return [data[at:at + size] for at in range(0, len(data), size)]


def sealed(data):
    """A database with the right sum in each page."""
    return b"".join(page[:-SIZE] + sum_of(page) for page in pages_of(data))


def main():
    with open(sys.argv[1], "rb+") as file:
        data = file.read()
        if not has_room(data):
            sys.exit(f"{sys.argv[1]}: its pages leave no room for sums")
        file.seek(0)
        file.write(sealed(data))


if __name__ == "__main__":
    if len(sys.argv) == 2 and sys.argv[1] not in ("-h", "--help"):
        main()
    else:
        print(__doc__.strip())
