"""Random substitution jobs, and what is known about their streams.

Each job has its own NMI, with versions of the intervals that it looks at. An interval has no version, one of an earlier update, one of a later
update, or both. On some days the two have different lengths.
"""

import datetime
import random

from inputs.example_texts import SUFFIX, fill_in
from oracles.machine import Facts, Machine

EPOCH = datetime.date(1970, 1, 1)
LAST_DAY = (datetime.date.max - EPOCH).days

# The update of every job, in seconds.
UPDATE = 1000

GREATEST = 999_999_999_999_999_999


class MadeJob:
    """A job and the facts that are known about its stream, by date. Days are numbers from 1 January 1970, updates are seconds."""

    def __init__(self, number):
        self.nmi = f"NEM2{number:06}"
        made = random.Random(number)
        self.method = made.choice([14, 15, 17, 19])
        self.length = made.choice([5, 15] + 18 * [30])
        self.day = made.choice([made.randrange(3), made.randrange(30), LAST_DAY] + 17 * [20_000 + made.randrange(400)])
        self.count = 1440 // self.length
        size = made.randint(1, 6)
        last_first = self.count + 1 - size
        self.first = made.choice([1, last_first, made.randint(1, last_first), made.randint(1, last_first)])
        self.last = self.first + size - 1
        self.facts = {}
        for day in self.days():
            self.make_day(made, day)

    def days(self):
        """Its own day, the days before and after it, and the days of five weeks before it that are the same weekday or Sundays."""
        earlier = [day for day in range(self.day - 35, self.day) if is_sunday(day) or (self.day - day) % 7 == 0]
        return [day for day in sorted({*earlier, self.day - 1, self.day, self.day + 1}) if 0 <= day <= LAST_DAY]

    def make_day(self, made, day):
        """Makes the facts of a day. It isn't known, has another length or unit, has another length under some updates, or mostly fits the job."""
        form = made.randrange(16)
        if form == 0:
            return
        other = 15 if self.length == 30 else 30
        older, newer = {1: (other, other), 3: (other, self.length), 4: (self.length, other)}.get(form, (self.length, self.length))
        late = 1 if older == newer else 30
        facts = Facts("MWh" if form == 2 else "kWh")
        for interval in sorted({1, *range(self.first - 1, self.last + 2), self.count, 1440 // other}):
            is_target = day == self.day and self.first <= interval <= self.last
            versions = [(*self.make_version(made, is_target, is_newer, late), length)
                        for is_newer, often, length in [(False, 5, older), (True, 15, newer)]
                        if made.randrange(16) < often and 1 <= interval <= 1440 // length]
            for update, flag, value, length in versions:
                facts.lengths[moment_text(update)] = length
                facts.versions[moment_text(update)][interval] = reading_of(flag, value)
        if facts.lengths:
            self.facts[date_text(day)] = facts

    def make_version(self, made, is_target, is_newer, late):
        """A version of an interval. An interval that the job fills in is rarely of quality A or F, any other mostly is. `late` in 90 have a late
        update."""
        number = made.randrange(90 if is_target else 40)
        flag = "FANES"[number] if number < 5 else "S" if is_target else "A"
        is_late = is_target and made.randrange(90) < late
        older, newer = (UPDATE, UPDATE + 1) if is_late else (100, UPDATE - 1)
        value = made.choice([GREATEST, -GREATEST] + 38 * [made.randint(-1_000_000, 1_000_000)])
        return newer if is_newer else older, flag, value

    def request(self):
        return fill_in("J-" + self.nmi, date_text(self.day), self.first, self.last, self.method, "F", moment_text(UPDATE), nmi=self.nmi,
                       length=self.length, code="76")


def is_sunday(day):
    """1 January 1970 was a Thursday."""
    return day % 7 == 3


def date_text(day):
    return f"{EPOCH + datetime.timedelta(day):%Y%m%d}"


def moment_text(seconds):
    return f"{datetime.datetime(1970, 1, 1) + datetime.timedelta(seconds=seconds):%Y%m%d%H%M%S}"


def reading_of(flag, value):
    """A reading without a reason. Its method, if it has one, is 51."""
    return (flag, "", "", None) if flag == "N" else (flag if flag == "A" else flag + "51", "", "", value)


def machine_of(jobs):
    """A machine that keeps what is known about all streams. One in eight of the days that jobs may look at is a holiday."""
    machine, made = Machine(), random.Random("holidays")
    machine.holidays = {date_text(day) for day in sorted({day for job in jobs for day in job.days()}) if made.randrange(8) == 0}
    for job in jobs:
        machine.days[job.nmi, SUFFIX] = job.facts
    return machine
