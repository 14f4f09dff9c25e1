"""What a store has to keep about a meter, and what it has to answer about it, by docs/MODEL.md: for tests/soak. A meter belongs to one peer, so
its answers follow from what that peer was answered before. Days are numbers from 1 January 1970, updates are seconds, values are millionths."""

import datetime
import functools
import itertools

from inputs import service_rows as rows
from inputs.file_parts import HEADER, record_300
from oracles import packed_days

EPOCH = datetime.datetime(1970, 1, 1)
HEADER_MOMENT = 1_704_240_000
WEEK = 7

# How many intervals a day has mostly, and how many now and then.
COUNT, OTHER_COUNT = 48, 96

# A meter is exchanged after so many days.
STAND = 4

# A reading is its quality, the code and the text of its reason, and its value. A mark is a reading without its value.
NULL = "N", "", "", None


@functools.lru_cache(maxsize=100_000)
def date_text(number):
    return (EPOCH + datetime.timedelta(number)).strftime("%Y%m%d")


def moment_text(seconds):
    return (EPOCH + datetime.timedelta(seconds=seconds)).strftime("%Y%m%d%H%M%S")


@functools.lru_cache(maxsize=100_000)
def value_text(value):
    """The written form of a value, or an empty text if there is none."""
    if value is None:
        return ""
    whole, part = divmod(abs(value), 1_000_000)
    return "-" * (value < 0) + f"{whole}.{part:06}".rstrip("0").rstrip(".")


def reading_texts(reading):
    quality, code, text, value = reading
    return [quality, code, text, value_text(value)]


def stretches(marks):
    """The longest stretches of equal marks: the first and the last interval of each, and the mark."""
    place = 1
    for mark, run in itertools.groupby(marks):
        last = place + len(list(run)) - 1
        yield place, last, mark
        place = last + 1


def day_records(number, update, readings, absent=""):
    """The records that state these readings of a day. `absent` is the text of a missing value."""
    runs = list(stretches(it[:3] for it in readings))
    is_one = len(runs) == 1
    mark = runs[0][2] if is_one else ("V", "", "")
    values = [value_text(it[3]) or absent for it in readings]
    text = record_300(date_text(number), values, *mark, moment_text(update), "")
    return text if is_one else text + "".join(f"400,{first},{last},{','.join(it)}\n" for first, last, it in runs)


def row_body(readings):
    """The body of a row of mds_pack, with these readings."""
    return packed_days.body_of([it and (it[0], int(it[1] or "-1"), it[2], it[3]) for it in readings])


def minutes(count):
    """The length of the intervals of a day that has so many."""
    return 1440 // count


class Day:
    """The readings of a day by update, each a list with a reading or None for each interval. So each update has its own length. A day without an
    update isn't known."""

    def __init__(self, updates=()):
        self.updates = dict(updates)

    def count(self):
        """How many intervals it has under its latest update. If it isn't known it has as many as most days."""
        return len(self.updates[max(self.updates)]) if self.updates else COUNT

    def greatest_count(self):
        """How many intervals it has under the update with the most."""
        return max(map(len, self.updates.values()))

    def with_readings(self, update, readings):
        """The same day with more readings of an update."""
        held = self.updates.get(update, readings)
        return Day({**self.updates, update: [new or old for new, old in zip(readings, held)]})

    def current(self):
        """The current update and reading of each interval, or None. Updates of another length don't count."""
        found = [None] * self.count()
        for update, readings in sorted(self.updates.items()):
            if len(readings) == len(found):
                found = [(update, new) if new else old for old, new in zip(found, readings)]
        return found

    def readings(self):
        """The current readings. An interval without one is null."""
        return [it[1] if it else NULL for it in self.current()]

    def update(self):
        """The greatest update of the current readings."""
        return max(it[0] for it in self.current() if it)


UNKNOWN = Day()


def stated_details(number):
    """The details that files state for a day: configuration, register, datastream and meter. There is no next read."""
    return "E1", "1", "N1", f"M{number // STAND}"


class Meter:
    """The days of one stream of an interval meter, and which of them files stated."""

    def __init__(self, nmi):
        self.nmi, self.days, self.stated = nmi, {}, set()

    def details(self, number):
        """The current details of a day: those of the nearest day up to it that a file stated. A day that a job filled in states none."""
        nearest = max((it for it in self.stated if it <= number), default=None)
        return ("", "", "", "") if nearest is None else stated_details(nearest)

    def block(self, details, count):
        """The record before days with these details and so many intervals."""
        configuration, register, datastream, meter = details
        return f"200,{self.nmi},{configuration},{register},E1,{datastream},{meter},kWh,{minutes(count)},\n"

    def day(self, number):
        return self.days.get(number, UNKNOWN)

    def target(self, number, interval=None):
        """The target for a day, or for the versions of one of its intervals."""
        kind, end = ("days", "") if interval is None else ("versions", f"/{interval}")
        return f"/v1/{kind}/{self.nmi}/E1/{date_text(number)}{end}"

    def day_answer(self, number):
        day = self.day(number)
        if not day.updates:
            return rows.UNKNOWN_DAY
        return rows.json_answer(date=date_text(number), events=[], length=minutes(day.count()), nmi=self.nmi,
                         readings=[reading_texts(it) for it in day.readings()], suffix="E1", unit="kWh", update=moment_text(day.update()))

    def versions_answer(self, number, interval, day=None):
        """The answer with the versions of an interval of a day, as it is or as `day`."""
        day = day or self.day(number)
        if not day.updates or interval > day.greatest_count():
            return rows.UNKNOWN_DAY
        versions = [[moment_text(update), *reading_texts(readings[interval - 1]), str(minutes(len(readings)))]
                    for update, readings in sorted(day.updates.items()) if interval <= len(readings) and readings[interval - 1]]
        return rows.json_answer(date=date_text(number), interval=interval, nmi=self.nmi, suffix="E1", versions=versions)

    def gaps_answer(self, first, last):
        return rows.answer(rows.OK, rows.GAPS_HEAD + self.gap_rows(first, last))

    def gap_rows(self, first, last):
        text = ""
        for number in range(first, last + 1):
            is_known = self.day(number).updates
            found = stretches(it[0] for it in self.day(number).readings()) if is_known else [(0, 0, "N")]
            text += "".join(f"{self.nmi},E1,{date_text(number)},{begin},{end}\n" for begin, end, flag in found if flag == "N")
        return text

    def readings_answer(self, first, last):
        text = rows.READINGS_HEAD
        for number in range(first, last + 1):
            current = self.day(number).current() if self.day(number).updates else []
            for place, it in enumerate(current):
                begin = (EPOCH + datetime.timedelta(number, minutes=place * minutes(len(current)))).strftime("%Y-%m-%dT%H:%M")
                texts = [*reading_texts(it[1]), moment_text(it[0])] if it else [*reading_texts(NULL), ""]
                text += ",".join([self.nmi, "E1", begin, str(minutes(len(current))), "kWh", *texts]) + "\n"
        return rows.answer(rows.OK, text)

    def finals_answer(self, first, last):
        text = "nmi,suffix,date,first,last,method,code,text\n"
        for number in range(first, last + 1):
            for begin, end, (quality, code, note) in stretches(it[:3] for it in self.day(number).readings()):
                if quality[0] == "F":
                    text += f"{self.nmi},E1,{date_text(number)},{begin},{end},{quality[1:]},{code},{note}\n"
        return rows.answer(rows.OK, text)

    def export_answer(self, first, last):
        text, held = HEADER, None
        for number in range(first, last + 1):
            if self.day(number).updates:
                block = self.block(self.details(number), self.day(number).count())
                text += ("" if block == held else block) + self.exported(number)
                held = block
        return rows.answer(rows.OK, (text + "900\n").replace("\n", "\r\n"))

    def exported(self, number):
        """The records of a day, with its current readings. A missing value is 0."""
        day = self.day(number)
        return day_records(number, day.update(), day.readings(), "0")

    def heads(self):
        return {(self.nmi, "E1", number, 0, "kWh") for number in self.days}

    def forms(self):
        return {(self.nmi, "E1", number, update, minutes(len(readings))) for number, day in self.days.items()
                for update, readings in day.updates.items()}

    def detail_rows(self):
        return {(self.nmi, "E1", number, HEADER_MOMENT, *stated_details(number), -1) for number in self.stated}

    def packs(self):
        return {(self.nmi, "E1", number, update): row_body(readings) for number, day in self.days.items()
                for update, readings in day.updates.items()}


class Job:
    """A substitution job for some intervals of a day, by method 19 (zero) or 14 (like day). `day_count` is how many intervals the day has."""

    def __init__(self, name, meter, number, day_count, first, last, method, flag, update):
        self.name, self.meter, self.number, self.first, self.last, self.method, self.flag = name, meter, number, first, last, method, flag
        self.day_count, self.update = day_count, update

    def members(self):
        """What it says, in the order of the row that keeps it."""
        return {"nmi": self.meter.nmi, "suffix": "E1", "date": date_text(self.number), "first": self.first, "last": self.last,
                "length": minutes(self.day_count), "unit": "kWh", "method": self.method, "flag": self.flag, "code": "76", "text": "",
                "update": moment_text(self.update)}

    def row(self):
        """The row that keeps it."""
        return self.name, ",".join(str(it) for it in self.members().values()), self.count()

    def count(self):
        return self.last + 1 - self.first

    def places(self):
        return range(self.first - 1, self.last)

    def refusal(self):
        """Why it can't be done, or None: M1, M5, M6 or M7, in this order."""
        day = self.meter.day(self.number)
        current = day.current() if day.updates else [None] * self.day_count
        if {len(current), len(day.updates.get(self.update, current))} != {self.day_count}:
            return rows.refused(rows.CONFLICT, error="M1")
        for place in self.places():
            if current[place] and current[place][1][0][0] in "AF":
                return rows.refused(rows.CONFLICT, error="M5", interval=place + 1)
        for place in self.places():
            if current[place] and current[place][0] >= self.update:
                return rows.refused(rows.CONFLICT, error="M6", interval=place + 1)
        return None if self.values() else rows.refused(rows.UNPROCESSABLE, error="M7")

    def values(self):
        """The values that it fills in, or None."""
        if self.method == 19:
            return [0] * self.count()
        for weeks in [1, 2, 3, 4]:
            readings = self.meter.day(self.number - WEEK * weeks).readings()
            if len(readings) == self.day_count and all(readings[place][0][0] in "AF" for place in self.places()):
                return [readings[place][3] for place in self.places()]
        return None

    def readings(self):
        """The readings that it fills in, each at its place."""
        found = [None] * self.day_count
        for place, value in zip(self.places(), self.values()):
            found[place] = (f"{self.flag}{self.method}", "76", "", value)
        return found


class Register:
    """The accumulations of a register of a meter, from month to month. Each is the texts of its fields."""

    FIRST, MONTH = 1_600_000_000, 30 * 86_400

    def __init__(self, nmi):
        self.nmi, self.periods = nmi, []

    def new_fields(self, quantity, update):
        """The fields of the next accumulation. The last one is its update."""
        start = self.FIRST + self.MONTH * len(self.periods)
        return ["1141", "01", "11", "11", "METSER66", "E", "000021.2", moment_text(start), "A", "", "", "000534.5",
                moment_text(start + self.MONTH), "E64", "77", "", value_text(quantity), "kWh", "20240509", moment_text(update)]

    def file(self, fields):
        return f"{HEADER.replace('NEM12', 'NEM13')}250,{self.nmi},{','.join(fields)},\n900\n"

    def answer(self, periods):
        """The answer about the accumulations, if these are kept."""
        return rows.json_answer(nmi=self.nmi, periods=[{"fields": fields, "notes": []} for fields in periods], suffix="11")

    def rows(self):
        """The rows of the accumulations."""
        for place, fields in enumerate(self.periods):
            start = self.FIRST + self.MONTH * place
            update = datetime.datetime.strptime(fields[-1], "%Y%m%d%H%M%S") - EPOCH
            yield self.nmi, "11", "01", start, start + self.MONTH, int(update.total_seconds()), ",".join(fields)
