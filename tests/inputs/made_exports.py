"""Random meters: what files state about each, what jobs fill in, and its export, written by an independent slow writer."""

import random

from inputs.file_parts import *

SUFFIXES = ["A1", "B1", "E1"]
DATES = ["20240101", "20240102", "20240229", "20250203"]
# Marks as a 300 and a 400 write them: quality, code and text.
MARKS = [("A", "", ""), ("N", "", ""), ("S14", "53", "meter changed"), ("E52", "", "")]
VALUES = ["0", "1.5", "-2", "1000.000001", "0.1"]
COUNTS = {"30": 48, "15": 96, "5": 288}
UPDATE, OLDER = "20240501000102", "20240401000102"

# The moments of headers, in order, and the details of days: configuration, register, data stream, meter and next read.
MOMENTS = ["202401030000", "202401030001", "20240103000101"]
DETAILS = [("C", "1", "N1", "", "20240301"), ("C", "1", "N1", "", ""), ("C", "1", "N1", "M-2", ""), ("C", "", "", "M-2", "20240301"),
           ("", "", "", "", "")]
NO_DETAILS = DETAILS[-1]


def made_marks(numbers, count):
    """A mark for each interval: one for all, or a new one after about eight intervals."""
    mark = numbers.choice(MARKS)
    has_many = numbers.randrange(3) > 0
    marks = []
    for _ in range(count):
        if has_many and numbers.randrange(8) == 0:
            mark = numbers.choice(MARKS)
        marks.append(mark)
    return marks


def stretches(marks):
    """The longest stretches of equal marks: first, last and mark."""
    first = 1
    for place, mark in enumerate(marks, 1):
        if place == len(marks) or marks[place] != mark:
            yield first, place, mark
            first = place + 1


def stated_day(date, marks, values, update=UPDATE):
    """A day as a file states it, with a 400 for each interval."""
    runs = [f"400,{place},{place},{','.join(mark)}\n" for place, mark in enumerate(marks, 1)]
    values = ["" if mark[0] == "N" else value for mark, value in zip(marks, values)]
    return day(date, values, "V", update=update) + "".join(runs)


def exported_day(date, marks, values):
    """A day as an export states it. A single mark is written in the 300, several marks in as few 400s as possible."""
    values = ["0" if mark[0] == "N" else value for mark, value in zip(marks, values)]
    runs = list(stretches(marks))
    if len(runs) == 1:
        return day(date, values, *marks[0], update=UPDATE)
    return day(date, values, "V", update=UPDATE) + "".join(f"400,{first},{last},{','.join(mark)}\n" for first, last, mark in runs)


class Day:
    """A random day: its length and unit, the mark and the value of each interval, and the moments and details of the 200s that state it. One day
    in ten also has another length under an older update. A day that no 200 states is filled in by a job."""

    def __init__(self, numbers, date):
        self.date, self.length, self.unit = date, numbers.choice(list(COUNTS)), numbers.choice(["kWh", "kVArh"])
        count = COUNTS[self.length]
        if numbers.randrange(4):
            self.marks = made_marks(numbers, count)
            self.values = [numbers.choice(VALUES) for _ in self.marks]
            self.stated = [(numbers.choice(MOMENTS), numbers.choice(DETAILS)) for _ in range(numbers.choice([1, 1, 2, 3]))]
            self.texts = [(self.length, stated_day(date, self.marks, self.values))]
            if numbers.randrange(10) == 0:
                self.texts.insert(numbers.randrange(2), self.older_text(numbers))
        else:
            self.first = numbers.randint(1, count)
            self.marks = (self.first - 1) * [("N", "", "")] + (count + 1 - self.first) * [("S19", "", "")]
            self.values, self.stated = count * ["0"], []

    def older_text(self, numbers):
        """Another length, and the records that state the day with it."""
        length = numbers.choice([other for other in COUNTS if other != self.length])
        marks = made_marks(numbers, COUNTS[length])
        return length, stated_day(self.date, marks, [numbers.choice(VALUES) for _ in marks], OLDER)

    def block(self, nmi, suffix, details, length=None):
        configuration, register, datastream, meter, read = details
        return block(nmi, configuration, register, suffix, datastream, meter, self.unit, length or self.length, read)

    def job(self, nmi, suffix):
        """The job that fills in the day, from an interval on."""
        return {"nmi": nmi, "suffix": suffix, "date": self.date, "first": self.first, "last": len(self.marks), "length": int(self.length),
                "unit": self.unit, "update": UPDATE}


class Meter:
    """A random meter of up to three streams with up to four days each."""

    def __init__(self, numbers, nmi):
        self.nmi = nmi
        self.streams = {suffix: [Day(numbers, date) for date in DATES if numbers.randrange(2)] for suffix in SUFFIXES if numbers.randrange(2)}

    def files(self):
        """The files that state it, one for each moment, the latest first. A 200 isn't repeated if it is the same as the one before."""
        for moment in reversed(MOMENTS):
            records, last = [], None
            for suffix, day, details in [(suffix, day, details) for suffix, days in self.streams.items() for day in days
                                         for of, details in day.stated if of == moment]:
                for length, text in day.texts:
                    head = day.block(self.nmi, suffix, details, length)
                    records += [head] if head != last else []
                    records.append(text)
                    last = head
            yield file_of(*records, header=f"100,NEM12,{moment},MDP1,RETAILER\n")

    def jobs(self):
        return [day.job(self.nmi, suffix) for suffix, days in self.streams.items() for day in days if not day.stated]

    def export(self):
        """The export of the whole meter. A day has its latest details, under one moment the greatest, or those of the day before."""
        records = []
        for suffix, days in self.streams.items():
            details, last = NO_DETAILS, None
            for day in days:
                _, details = max(day.stated, default=(None, details))
                head = day.block(self.nmi, suffix, details)
                records += [head] if head != last else []
                records.append(exported_day(day.date, day.marks, day.values))
                last = head
        return file_of(*records, header="100,NEM12,202401040000,MDP1,RETAILER\n").replace("\n", "\r\n")


def made_meters(count):
    """`count` meters."""
    numbers = random.Random(12)
    return [Meter(numbers, f"MADE{number:06}") for number in range(count)]
