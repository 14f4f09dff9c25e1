"""Random NEM12 files that are well formed, and what is left of them after one damage. Each run makes the same files."""

import random

from inputs.file_parts import HEADER, block
from inputs.made_exports import DATES, exported_day

# What a file is made of. What is listed several times comes more often.
LENGTHS = [("30", 48)] * 6 + [("15", 96), ("5", 288)]
UNITS = ["kWh", "kVArh", "pf"]
VALUES = ["0", "1.5", "-2", "1000.000001", ".1", "0007.50"]
MARKS = [("A", "", ""), ("A", "", ""), ("N", "", ""), ("S14", "53", "Zähler gewechselt"), ("E52", "", ""), ("F14", "076", "")]
EVENTS = ["500,O,S1,20240102010203,15.5\n", "500,,,,\n", "500\n"]
ENDS = ["\n", "\n", "\r\n"]


def made_day(numbers, count):
    """The records of a day: it has one mark or a few, and sometimes events."""
    marks = []
    for stretch in [count] if numbers.randrange(2) else [3, count // 2, count - 3 - count // 2]:
        marks += stretch * [numbers.choice(MARKS)]
    few = numbers.choices(VALUES, k=3)
    day = exported_day(numbers.choice(DATES), marks, [few[place % 3] for place in range(count)])
    return day + "".join(numbers.choices(EVENTS, k=numbers.choice([0, 0, 0, 1, 2])))


def well_formed(numbers):
    """A file of one to three blocks with one to four days in all. Its lines end in LF or in CR LF, and some may be empty."""
    blocks, days = numbers.randint(1, 3), numbers.randint(1, 4)
    text = HEADER
    for place in range(blocks):
        length, count = numbers.choice(LENGTHS)
        text += block(suffix=f"E{place}", unit=numbers.choice(UNITS), length=length)
        for _ in range((days + place) // blocks):
            text += made_day(numbers, count)
    lines = (text + "900").split("\n")
    for _ in range(numbers.choice([0, 0, 1, 3])):
        lines.insert(numbers.randint(0, len(lines)), "")
    end = numbers.choice(ENDS)
    return (end.join(lines) + numbers.choice([end, ""])).encode()


# Damages.

def place_in(numbers, parts):
    return numbers.randrange(len(parts))


def byte_changed(numbers, file):
    place = place_in(numbers, file)
    return file[:place] + bytes([numbers.randrange(256)]) + file[place + 1:]


def byte_dropped(numbers, file):
    place = place_in(numbers, file)
    return file[:place] + file[place + 1:]


def byte_doubled(numbers, file):
    place = place_in(numbers, file)
    return file[:place + 1] + file[place:]


def cut_off(numbers, file):
    return file[:place_in(numbers, file)]


def line_dropped(numbers, file):
    lines = file.splitlines(keepends=True)
    lines.pop(place_in(numbers, lines))
    return b"".join(lines)


def line_moved(numbers, file):
    lines = file.splitlines(keepends=True)
    line = lines.pop(place_in(numbers, lines))
    lines.insert(place_in(numbers, lines), line)
    return b"".join(lines)


DAMAGES = [byte_changed, byte_dropped, byte_doubled, cut_off, line_dropped, line_moved]


def damaged(numbers):
    """A file with one damage. It may still be well formed."""
    return numbers.choice(DAMAGES)(numbers, well_formed(numbers))


def made_files(count, make, seed):
    """`count` files, well formed or damaged."""
    numbers = random.Random(seed)
    return [make(numbers) for _ in range(count)]
