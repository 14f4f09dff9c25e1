"""The sample of the page: a house with solar panels for thirteen months, and a workshop whose meter is exchanged for one of 5 minutes. The
values are made by rules and a fixed seed, so the sample is the same each time. Used by `run` and `test`."""

import datetime
import itertools
import json
import math
import os
import random

EXAMPLES = os.path.join(os.path.dirname(os.path.abspath(__file__)), "..")
HOUSE, WORKSHOP = "4103000018", "4103000025"
MARKUP = "<script>window.reasonRan=1</script><img src=x onerror=window.reasonRan=1>"
FIVE_DAY = datetime.date(2024, 3, 6)  # of the workshop: it has a gap, a substitution and an event
TWICE_DAY = datetime.date(2024, 3, 5)  # of the workshop: a file in half hours came later, and has an update between two of 5 minutes
FIRST, LAST = datetime.date(2023, 2, 13), datetime.date(2024, 3, 10)
HOUSE_DAY = FIVE_DAY  # of the house: it has a gap, a substitution and intervals of three versions
CLOUDS = {HOUSE_DAY: 0.25, HOUSE_DAY - datetime.timedelta(days=7): 0.4}
UNKNOWN = {datetime.date(2023, 8, day) for day in (9, 10, 11)}


def text_of(value):
    """A value with at most three decimals, as a file has it."""
    return f"{value:.3f}".rstrip("0").rstrip(".") or "0"


def text_of_day(day):
    return day.strftime("%Y%m%d")


def days_from(first, last):
    return [first + datetime.timedelta(days=number) for number in range((last - first).days + 1)]


def bump(hour, middle, width):
    return math.exp(-(((hour - middle) / width) ** 2))


# The curves, in kW at an hour of a day.

def house_load(day, hour, chance):
    """What a house takes: a base, a morning and an evening, more of it on hot and cold days."""
    season = math.cos((day.timetuple().tm_yday - 20) / 365 * 2 * math.pi)
    weekend = day.weekday() >= 5
    heat = max(season, 0) * 1.1 * bump(hour, 17.5, 3.2) + max(-season, 0) * 1.3 * (bump(hour, 7, 1.6) + bump(hour, 20, 2.4))
    rest = 0.9 * bump(hour, 9.5 if weekend else 7.2, 1.3) + 1.5 * bump(hour, 19, 1.9) + (0.5 * bump(hour, 13, 2.5) if weekend else 0)
    return (0.28 + rest + heat) * chance.uniform(0.85, 1.15)


def sun(day, hour, cloud, chance):
    """What panels give: more in summer, less under clouds."""
    season = math.cos((day.timetuple().tm_yday - 5) / 365 * 2 * math.pi)
    length = 12.2 + 2.2 * season
    height = math.sin(math.pi * (hour - 12.3 + length / 2) / length) if abs(hour - 12.3) < length / 2 else 0
    return (2.6 + 0.8 * season) * height ** 1.3 * cloud * (1 if cloud > 0.8 else chance.uniform(0.6, 1.1))


def workshop_load(day, hour, chance):
    """What a workshop takes: machines from seven to four on working days, with a break."""
    if day.weekday() >= 5:
        return 1.1 * chance.uniform(0.95, 1.05)
    machines = 1 / (1 + math.exp(-(hour - 7) * 4)) / (1 + math.exp((hour - 16) * 4)) * (1 - 0.55 * bump(hour, 12.25, 0.45))
    return 1.1 + 13 * machines * chance.uniform(0.75, 1.1)


def house_day(day):
    """The values of a day of half hours: what the house takes from the grid, and what it gives back."""
    chance = random.Random(day.toordinal())
    cloud = CLOUDS.get(day) or chance.choice((1, 1, 1, 0.92, 0.7, 0.35))
    takes, gives = [], []
    for number in range(48):
        balance = (house_load(day, number / 2 + 0.25, chance) - sun(day, number / 2 + 0.25, cloud, chance)) / 2
        takes.append(text_of(max(balance, 0)))
        gives.append(text_of(max(-balance, 0)))
    return takes, gives


def workshop_day(day, minutes):
    chance = random.Random(day.toordinal() * 7)
    return [text_of(workshop_load(day, (number + 0.5) * minutes / 60, chance) * minutes / 60) for number in range(1440 // minutes)]


# The files.

ACTUAL, NONE = ("A", "", ""), ("N", "", "")
FAULT = ("S14", "0", "Communication fault")

# What isn't actual in what the house takes: by date the first and the last interval, and their quality, code and text.
MARKS = {
    "20230321": [(15, 22, NONE)],
    "20230426": [(19, 30, ("S14", "", ""))],
    "20230605": [(1, 48, ("F17", "0", "Register replaced"))],
    "20230606": [(1, 48, ("F17", "0", "Register replaced"))],
    "20230607": [(1, 30, ("F17", "0", "Register replaced"))],
    "20230718": [(1, 48, ("S15", "0", "No answer from the modem"))],
    "20230719": [(1, 48, ("S15", "0", "No answer from the modem"))],
    "20230929": [(33, 38, ("S14", "", ""))],
    "20231013": [(1, 12, NONE)],
    "20231102": [(1, 48, NONE)],
    "20231103": [(1, 20, NONE)],
    "20231227": [(1, 48, ("F15", "", ""))],
    "20240116": [(1, 48, ("E52", "", ""))],
    "20240117": [(1, 48, ("E52", "", ""))],
    "20240306": [(33, 41, NONE), (44, 45, NONE)],
    "20240307": [(14, 17, ("F14", "0", MARKUP))],
}


def file_of(moment, lines):
    return "\r\n".join([f"100,NEM12,{moment},MDP1,RETAILER", *lines, "900", ""]).encode()


def head_of(nmi, suffix, minutes=30, meter="71022"):
    return f"200,{nmi},{'E1B1' if nmi == HOUSE else 'E1'},{suffix},{suffix},N1,{meter},kWh,{minutes},"


def day_of(day, values, marked=(), update=None):
    """The 300 of a day whose intervals are actual but for those marked, and its 400 records."""
    marks = [ACTUAL] * len(values)
    for first, last, mark in marked:
        marks[first - 1:last] = [mark] * (last - first + 1)
    shown = ["" if mark == NONE else value for value, mark in zip(values, marks)]
    stretches, first = [], 1
    for mark, group in itertools.groupby(marks):
        last = first + len(list(group)) - 1
        stretches.append((first, last, mark))
        first = last + 1
    alone = len(stretches) == 1
    quality, code, text = stretches[0][2] if alone else ("V", "", "")
    update = update or text_of_day(day + datetime.timedelta(days=1)) + "093000"
    record = f"300,{text_of_day(day)},{','.join(shown)},{quality},{code},{text},{update},"
    return [record] + [f"400,{first},{last},{','.join(mark)}" for first, last, mark in stretches if not alone]


def house_file():
    lines = []
    for place, suffix in enumerate(("E1", "B1")):
        lines.append(head_of(HOUSE, suffix))
        for day in days_from(FIRST, LAST):
            if day not in UNKNOWN:
                marked = MARKS.get(text_of_day(day), ()) if suffix == "E1" else ()
                lines += day_of(day, house_day(day)[place], marked)
    return file_of("202403110930", lines)


def workshop_file():
    """Eight weeks, of which the last is of 5 minutes, by another meter."""
    change = LAST - datetime.timedelta(days=6)
    lines = [head_of(WORKSHOP, "E1", 30, "80113"), *day_of(change, workshop_day(change, 30))]
    for day in days_from(LAST - datetime.timedelta(days=55), change - datetime.timedelta(days=1)):
        lines += day_of(day, workshop_day(day, 30))
    lines.append(head_of(WORKSHOP, "E1", 5, "95001"))
    for day in days_from(change, LAST):
        if day == FIVE_DAY:
            lines += day_of(day, workshop_day(day, 5), [(121, 122, NONE), (123, 128, ("S17", "0", "Clock was set"))])
            lines.append(f"500,O,WO55120,{text_of_day(day)}100500,004120.7")
        else:
            # The day of the exchange was stated in half hours as well, under an earlier update.
            marked = [(281, 282, NONE)] if day == TWICE_DAY else ()
            lines += day_of(day, workshop_day(day, 5), marked, "20240311080000")
    return file_of("202403110931", lines)


def correction_file():
    """Four of the substituted half hours were measured after all. The others have what the like day has."""
    values, like = house_day(HOUSE_DAY)[0], house_day(HOUSE_DAY - datetime.timedelta(days=7))[0]
    values[36:41] = like[36:41]
    marked = [(37, 41, FAULT), (44, 45, NONE)]
    return file_of("202403120800", [head_of(HOUSE, "E1"), *day_of(HOUSE_DAY, values, marked, "20240312080000")])


def half_hours_file():
    """A day of 5 minutes comes again in half hours. Since a job has a later update, it stays a day of 5 minutes."""
    return file_of("202403150930", [head_of(WORKSHOP, "E1", 30, "95001"),
                                    *day_of(TWICE_DAY, workshop_day(TWICE_DAY, 30), update="20240315093000")])


def jobs():
    """Substitutions: of the house's long gap, of another day of it that is final, and of the workshop."""
    shared = {"nmi": HOUSE, "suffix": "E1", "length": 30, "unit": "kWh", "code": "0"}
    return [json.dumps({**shared, **job}).encode() for job in (
        {"id": "J1", "date": "20240306", "first": 33, "last": 41, "method": 14, "flag": "S", "text": FAULT[2],
         "update": "20240308110000"},
        {"id": "J2", "date": "20230321", "first": 17, "last": 22, "method": 15, "flag": "F", "text": "Checked with the customer",
         "update": "20230402110000"},
        {"id": "J3", "nmi": WORKSHOP, "date": "20240305", "first": 281, "last": 282, "length": 5, "method": 17, "flag": "S",
         "text": "Clock was set", "update": "20240320110000"})]


def make_store(command, store):
    """Makes the store by commands: each is called with its words, and with what it reads."""
    command("init", "--store", store)
    command("import", "--store", store, *(os.path.join(EXAMPLES, name) for name in ("week.nem12", "day.nem12")))
    for file in (house_file(), workshop_file()):
        command("import", "--store", store, "-", given=file)
    for job in jobs():
        command("substitute", "--store", store, "-", given=job)
    for file in (correction_file(), half_hours_file()):
        command("import", "--store", store, "-", given=file)
