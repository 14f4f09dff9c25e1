"""The machine of docs/MODEL.md as a slow plain program: the answer to each request, over sets of facts.

It reads only well formed files, and only requests that have a meaning. It keeps texts as they are written: dates, and moments with their
seconds. A reading is its quality, its code, its text and its value. A value is a whole number of millionths, or None if the quality is N.
"""

import collections
import datetime
import decimal
import fractions
import json
import urllib.parse

from inputs.example_texts import CSV, added, filled, filled_before, json_answer, refused
from inputs.made_exports import stretches

BARE_N = ("N", "", "", None)
NO_DETAILS = ("", "", "", "", "")

MOST_DAYS, MOST_SUFFIXES, MOST_MINUTES = 400, 8, 120
WEEKS = [7, 14, 21, 28]

GAPS_HEAD = ["nmi", "suffix", "date", "first", "last"]


class Refused(Exception):
    """A refusal: its code, and the line and the interval that apply."""

    def __init__(self, code, **place):
        super().__init__(code)
        self.answer = refused(code, **place)


# Values and dates.

def millionths(text):
    """The millionths of a written number."""
    return int(decimal.Decimal(text).scaleb(6))


def written(value):
    """The written form of a number of millionths."""
    whole, rest = divmod(abs(value), 10**6)
    return ("-" if value < 0 else "") + str(whole) + (f".{rest:06}".rstrip("0") if rest else "")


def nearest(value):
    """The nearest whole number, or the one farther from zero of two."""
    whole = int(abs(value) + fractions.Fraction(1, 2))
    return -whole if value < 0 else whole


def date_of(text):
    return datetime.date(int(text[:4]), int(text[4:6]), int(text[6:]))


def moved(date, days):
    """The date `days` later, or None if that isn't from 1970 to 9999."""
    number = date_of(date).toordinal() + days
    if not datetime.date(1970, 1, 1).toordinal() <= number <= datetime.date.max.toordinal():
        return None
    return datetime.date.fromordinal(number).strftime("%Y%m%d")


def beginning(date, minutes):
    """The moment so many minutes after a day begins, as ISO 8601 writes it without a zone."""
    return f"{date[:4]}-{date[4:6]}-{date[6:]}T{minutes // 60:02}:{minutes % 60:02}"


def with_seconds(moment):
    return moment.ljust(14, "0")


def code_of(text):
    """The code of a reason, which is a number."""
    return text and str(int(text))


def texts_of(reading):
    """The four texts of a reading."""
    return [*reading[:3], "" if reading[3] is None else written(reading[3])]


# What files state.

class StatedDay(collections.namedtuple("StatedDay", "line stream date length unit update moment details marks values events")):
    """A day that a 300 states under its 200: the line of the 300, the moment of the 100, and a mark and a written value for each interval."""

    def readings(self):
        return [(*mark, None if mark[0] == "N" else millionths(value)) for mark, value in zip(self.marks, self.values)]


def lines_of(body):
    """The lines that aren't empty, each as its number and its fields."""
    for number, line in enumerate(body.decode().split("\n"), 1):
        fields = line.removesuffix("\r").split(",")
        if fields != [""]:
            yield number, fields


def stated_days(body):
    """The days that a NEM12 file states, in the order of the file."""
    stated = []
    for number, (kind, *fields) in lines_of(body):
        fields += 10 * [""]
        if kind == "100":
            moment = with_seconds(fields[1])
        elif kind == "200":
            nmi, configuration, register, suffix, datastream, meter, unit, length, next_read = fields[:9]
            block = (nmi, suffix), int(length), unit, (configuration, register, datastream, meter, next_read)
        elif kind == "300":
            stream, length, unit, details = block
            date, values, (quality, code, text, update) = fields[0], fields[1:1440 // length + 1], fields[1440 // length + 1:][:4]
            marks = len(values) * [(quality, code_of(code), text)]
            stated.append(StatedDay(number, stream, date, length, unit, update or moment, moment, details, marks, values, []))
        elif kind == "400":
            first, last, quality, code, text = fields[:5]
            for place in range(int(first) - 1, int(last)):
                stated[-1].marks[place] = quality, code_of(code), text
        elif kind == "500":
            stated[-1].events.append(tuple(fields[:4]))
    return stated


def stated_periods(body):
    """The accumulations that a NEM13 file states, in the order of the file: the line, the stream, the key, and the kept fields with the notes."""
    for number, (kind, *fields) in lines_of(body):
        if kind == "100":
            moment = with_seconds(fields[1])
        elif kind == "250":
            kept, notes = fields[1:21], []
            kept[9], kept[14], kept[16] = code_of(kept[9]), code_of(kept[14]), written(millionths(kept[16]))
            kept[19] = kept[19] or moment
            yield number, (fields[0], fields[3]), (kept[1], kept[7], kept[12], kept[19]), (kept, notes)
        elif kind == "550":
            notes.append(fields[:4])


class Facts:
    """What is known about a day: its unit, the length of each update, the reading of each interval that has one, pairs of a moment and details,
    and events."""

    def __init__(self, unit):
        self.unit, self.lengths, self.versions, self.details, self.events = unit, {}, collections.defaultdict(dict), set(), set()

    def length(self):
        """The length under the latest update."""
        return self.lengths[max(self.lengths)]

    def current(self, interval):
        """The latest update among those of the current length that have a version of the interval, or an empty text."""
        length = self.length()
        return max((update for update, readings in self.versions.items() if interval in readings and self.lengths[update] == length), default="")

    def reading(self, interval):
        """The reading of that update."""
        update = self.current(interval)
        return self.versions[update][interval] if update else BARE_N

    def readings(self):
        return [self.reading(interval) for interval in range(1, 1440 // self.length() + 1)]

    def marks(self):
        return [tuple(mark) for *mark, _ in self.readings()]


class Machine:
    """The World, and what it answers."""

    def __init__(self):
        # For each stream the facts of each known day, and the content of each accumulation's key; the holidays; for each id the job's content
        # and count.
        self.days, self.periods, self.holidays, self.jobs = collections.defaultdict(dict), collections.defaultdict(dict), set(), {}

    def answer(self, request):
        """The answer to a request."""
        _, target, body = request
        path, _, query = target.partition("?")
        _, _, route, *parts = path.split("/")
        words = urllib.parse.parse_qs(query, keep_blank_values=True)
        try:
            if route == "imports":
                return self.take_in_periods(body) if words.get("kind") == ["nem13"] else self.take_in(body)
            if route == "substitutions":
                return self.fill_in(json.loads(body))
            if route == "holidays":
                return self.list_holidays(body)
            if route == "days":
                return self.answer_day(*parts)
            if route == "versions":
                return self.answer_versions(*parts)
            if route == "periods":
                return self.answer_periods(*parts)
            if route == "streams":
                return self.answer_streams()
            days = days_from(words["from"][0], words["to"][0])
            if route == "missing":
                return self.missing(days, *words.get("since", []))
            nmi, suffixes = words["nmi"][0], words.get("suffix", [])
            if route == "exports":
                return self.export(nmi, suffixes, days, words)
            return {"gaps": self.gaps, "finals": self.finals, "readings": self.readings}[route](nmi, *suffixes, days)
        except Refused as fault:
            return fault.answer

    def details(self, stream, date):
        """The greatest details of a day, or of the nearest earlier day that has some."""
        days = [day for day, facts in self.days[stream].items() if day <= date and facts.details]
        return max(self.days[stream][max(days)].details)[1] if days else NO_DETAILS

    # Changes.

    def take_in(self, body):
        """Adds what the file states, or refuses it for its first conflict, by line."""
        stated, lengths, units, new, known = stated_days(body), {}, {}, {}, set()
        for day in stated:
            at = day.stream, day.date
            kept = self.days[day.stream].get(day.date) or Facts(day.unit)
            if lengths.setdefault((at, day.update), kept.lengths.get(day.update, day.length)) != day.length:
                raise Refused("M1", line=day.line)
            if units.setdefault(at, kept.unit) != day.unit:
                raise Refused("M2", line=day.line)
            for interval, reading in enumerate(day.readings(), 1):
                key, before = (at, day.update, interval), kept.versions.get(day.update, {}).get(interval)
                if (before or new.get(key, reading)) != reading:
                    raise Refused("M3", line=day.line, interval=interval)
                if before:
                    known.add(key)
                else:
                    new[key] = reading
        for day in stated:
            facts = self.days[day.stream].setdefault(day.date, Facts(day.unit))
            facts.lengths[day.update] = day.length
            facts.versions[day.update].update(enumerate(day.readings(), 1))
            facts.details.add((day.moment, day.details))
            facts.events.update(day.events)
        return added(len(new), len(known))

    def take_in_periods(self, body):
        """Adds what the file states, or refuses it for its first conflict, by line."""
        new, known = {}, set()
        for line, stream, key, content in list(stated_periods(body)):
            kept = self.periods.get(stream, {}).get(key, content)
            if kept != content or new.get((stream, key), content) != content:
                raise Refused("M3", line=line)
            if key in self.periods.get(stream, {}):
                known.add((stream, key))
            else:
                new[stream, key] = content
        for (stream, key), content in new.items():
            self.periods[stream][key] = content
        return added(len(new), len(known))

    def list_holidays(self, body):
        _, *days = body.decode().split()
        new = set(days) - self.holidays
        self.holidays |= new
        return added(len(new), len(set(days)) - len(new))

    def fill_in(self, job):
        """Refuses the job by the first rule that it breaks, or says how many intervals are filled in."""
        first, last, length, method, update = (job[name] for name in ("first", "last", "length", "method", "update"))
        stream, content, targets = (job["nmi"], job["suffix"]), {**job, "code": code_of(job["code"])}, range(first, last + 1)
        if first == 0 or last < first or last > 1440 // length or method not in (14, 15, 17, 19) or job["flag"] not in ("E", "F", "S"):
            raise Refused("M11")
        if job["id"] in self.jobs:
            kept, count = self.jobs[job["id"]]
            if kept != content:
                raise Refused("M4")
            return filled_before(count)
        facts = self.days[stream].get(job["date"]) or Facts(job["unit"])
        if facts.lengths and facts.length() != length or facts.lengths.get(update, length) != length:
            raise Refused("M1")
        if facts.unit != job["unit"]:
            raise Refused("M2")
        for interval in targets if facts.lengths else []:
            if facts.reading(interval)[0][0] in "AF":
                raise Refused("M5", interval=interval)
        for interval in targets:
            if any(of >= update and interval in readings and facts.lengths[of] == length for of, readings in facts.versions.items()):
                raise Refused("M6", interval=interval)
        if method == 17 and len(targets) * length > MOST_MINUTES:
            raise Refused("M8")
        values = self.values(job, targets)
        self.days[stream][job["date"]] = facts
        facts.lengths[update] = length
        facts.versions[update].update((interval, (f"{job['flag']}{method}", content["code"], job["text"], value))
                                      for interval, value in zip(targets, values))
        self.jobs[job["id"]] = content, len(targets)
        return filled(len(targets))

    def usable(self, job, date, interval):
        """The value of an interval if a job can use it, or None."""
        facts = self.days[job["nmi"], job["suffix"]].get(date)
        if not facts or facts.length() != job["length"] or facts.unit != job["unit"]:
            return None
        quality, _, _, value = facts.reading(interval)
        return value if quality[0] in "AF" else None

    def candidates(self, date):
        """The like days of this day, nearest first."""
        if date in self.holidays:
            since = date_of(date).isoweekday()
            return [moved(date, -since - weeks + 7) for weeks in WEEKS]
        days = [moved(date, -weeks) for weeks in WEEKS]
        return [day for day in days if day not in self.holidays]

    def values(self, job, targets):
        """The values by the job's method."""
        if job["method"] == 19:
            return [0 for _ in targets]
        if job["method"] == 17:
            before, after = self.neighbours(job, targets)
            step = fractions.Fraction(after - before, len(targets) + 1)
            return [nearest(before + step * place) for place in range(1, len(targets) + 1)]
        days = [[self.usable(job, day, interval) for interval in targets] for day in self.candidates(job["date"])]
        if job["method"] == 14:
            whole = [values for values in days if None not in values]
            if not whole:
                raise Refused("M7")
            return whole[0]
        values = [[value for value in those if value is not None] for those in zip(*days)]
        if not values or not all(values):
            raise Refused("M7")
        return [nearest(fractions.Fraction(sum(those), len(those))) for those in values]

    def neighbours(self, job, targets):
        """The values before and after the intervals, across midnight if needed."""
        count, date = 1440 // job["length"], job["date"]
        before = (date, targets[0] - 1) if targets[0] > 1 else (moved(date, -1), count)
        after = (date, targets[-1] + 1) if targets[-1] < count else (moved(date, 1), 1)
        values = [self.usable(job, *place) for place in (before, after)]
        if None in values:
            raise Refused("M9")
        return values

    # Questions.

    def known_day(self, nmi, suffix, date):
        facts = self.days[nmi, suffix].get(date)
        if not facts:
            raise Refused("M10")
        return facts

    def answer_day(self, nmi, suffix, date):
        facts = self.known_day(nmi, suffix, date)
        return json_answer({"date": date, "events": sorted(map(list, facts.events)), "length": facts.length(), "nmi": nmi,
                     "readings": [texts_of(reading) for reading in facts.readings()], "suffix": suffix, "unit": facts.unit,
                     "update": max(facts.lengths)})

    def answer_versions(self, nmi, suffix, date, interval):
        facts, interval = self.known_day(nmi, suffix, date), int(interval)
        if not 1 <= interval <= 1440 // min(facts.lengths.values()):
            raise Refused("M10")
        found = [[update, *texts_of(readings[interval]), str(facts.lengths[update])]
                 for update, readings in sorted(facts.versions.items()) if interval in readings]
        return json_answer({"date": date, "interval": interval, "nmi": nmi, "suffix": suffix, "versions": found})

    def answer_periods(self, nmi, suffix):
        periods = sorted(self.periods.get((nmi, suffix), {}).items())
        return json_answer({"nmi": nmi, "periods": [{"fields": fields, "notes": notes} for _, (fields, notes) in periods], "suffix": suffix})

    def answer_streams(self):
        names = ["configuration", "register", "datastream", "meter", "next"]
        known = {stream for facts in (self.days, self.periods) for stream, kept in facts.items() if kept}
        return json_answer({"streams": [{"nmi": stream[0], "suffix": stream[1],
                                  **dict(zip(names, self.details(stream, max(self.days[stream], default=""))))} for stream in sorted(known)]})

    def gaps(self, nmi, suffix, days):
        return register(GAPS_HEAD, self.gap_rows(nmi, suffix, days))

    def gap_rows(self, nmi, suffix, days):
        rows = []
        for date in days:
            facts = self.days[nmi, suffix].get(date)
            flags = [quality == "N" for quality, *_ in facts.readings()] if facts else []
            rows += [[date, first, last] for first, last, is_gap in stretches(flags) if is_gap] if facts else [[date, 0, 0]]
        return [[nmi, suffix, *row] for row in rows]

    def missing(self, days, since=""):
        """The gaps of each stream that has a known day, by NMI and suffix. A stream whose last known day is before `since` is left out."""
        known = [stream for stream, kept in self.days.items() if kept and max(kept) >= since]
        return register(GAPS_HEAD, [row for stream in sorted(known) for row in self.gap_rows(*stream, days)])

    def readings(self, nmi, suffix, days):
        """The current reading of each interval of each known day, with the moment when it begins, and with its update."""
        known, rows = self.days[nmi, suffix], []
        for date in days:
            if date in known:
                facts, length = known[date], known[date].length()
                rows += [[nmi, suffix, beginning(date, (interval - 1) * length), length, facts.unit, *texts_of(reading), facts.current(interval)]
                         for interval, reading in enumerate(facts.readings(), 1)]
        return register(["nmi", "suffix", "start", "minutes", "unit", "quality", "code", "text", "value", "update"], rows)

    def finals(self, nmi, suffix, days):
        rows = [[nmi, suffix, date, first, last, quality[1:], code, text]
                for date in days if date in self.days[nmi, suffix]
                for first, last, (quality, code, text) in stretches(self.days[nmi, suffix][date].marks()) if quality[0] == "F"]
        return register([*GAPS_HEAD, "method", "code", "text"], rows)

    def export(self, nmi, suffixes, days, words):
        if len(set(suffixes)) > MOST_SUFFIXES:
            raise Refused("M12")
        records = [["100", "NEM12", *(words[name][0] for name in ("moment", "sender", "receiver"))]]
        for suffix in sorted(set(suffixes)):
            last = None
            for date in days:
                if date in self.days[nmi, suffix]:
                    facts = self.days[nmi, suffix][date]
                    block = block_of(nmi, suffix, facts, self.details((nmi, suffix), date))
                    records += [block] if block != last else []
                    records += day_of(date, facts)
                    last = block
        return 200, CSV, "".join(",".join(fields) + "\r\n" for fields in [*records, ["900"]])


# What is written.

def block_of(nmi, suffix, facts, details):
    """The 200 of a day."""
    configuration, meter_register, datastream, meter, next_read = details
    return ["200", nmi, configuration, meter_register, suffix, datastream, meter, facts.unit, str(facts.length()), next_read]


def day_of(date, facts):
    """The 300 of a day, and its 400s, as few as possible."""
    values, runs = [written(value or 0) for *_, value in facts.readings()], list(stretches(facts.marks()))
    mark = runs[0][2] if len(runs) == 1 else ("V", "", "")
    day = ["300", date, *values, *mark, max(facts.lengths), ""]
    return [day, *(["400", str(first), str(last), *mark] for first, last, mark in runs if len(runs) > 1)]


def days_from(first, last):
    """The days of a range. A range that is too long is refused."""
    count = (date_of(last) - date_of(first)).days + 1
    if count > MOST_DAYS:
        raise Refused("M12")
    return [moved(first, days) for days in range(count)]


def register(head, rows):
    """A register as CSV. A text with a comma, a quotation mark or the end of a line is put into quotation marks, and its own are doubled."""
    quoted = [['"' + text.replace('"', '""') + '"' if set(text) & set(',"\r\n') else text for text in map(str, row)] for row in [head, *rows]]
    return 200, CSV, "".join(",".join(row) + "\n" for row in quoted)
