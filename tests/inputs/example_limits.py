"""A file at the limits of the format, what is asked about it, and the answers.

The file has a day of five minutes under quality V, with a run for each interval and with many events. It has a day of five minutes under several
updates, and days of one update whose lines are as long as a line can be. All these are of one stream. Many other streams have a day of half
hours each. After the file comes a job with a reason of the greatest length.

Other large things are tried, too: a file of accumulations of that size, whose texts have the greatest length; days in which every second
interval is a gap. A target is nearly as long as a head can be.
"""

import datetime

from inputs.example_texts import *

FILE_BYTES, LINE_BYTES = 8_388_608, 16_384

# The most bytes of a printable text, and the most characters of a reason's text.
FIELD = 240

FIVE_MINUTES, HALF_HOURS = 288, 48
UPDATES, EVENTS, LONG_DAYS, STREAMS = 6, 100, 260, 220
VERSIONS = FIVE_MINUTES * (1 + UPDATES + LONG_DAYS) + HALF_HOURS * STREAMS

MARKED_DAY, UPDATED_DAY, FILLED_DAY = "20240101", "20240102", "20240203"
OTHER_NMIS = [f"NEM2{number:06}" for number in range(STREAMS)]
LONG_DATES = [f"{2001 + number // 28}01{1 + number % 28:02}" for number in range(LONG_DAYS)]

CONFIGURATION, REGISTER, DATASTREAM, METER = (FIELD * letter for letter in "crdm")


def long_block(nmi, length):
    """A 200 record with texts of the greatest length."""
    return f"200,{nmi},{CONFIGURATION},{REGISTER},E1,{DATASTREAM},{METER},kWh,{length},20240201\n"


def reason(interval):
    """A reason of the greatest length. Every second one has characters of four bytes."""
    return FIELD * ("x" if interval % 2 == 0 else "\U0001f50c")


def is_final(interval):
    """In the day with runs the first half is of quality F, the second of quality S."""
    return interval <= FIVE_MINUTES // 2


def quality(interval):
    return "F14" if is_final(interval) else "S14"


def marked_day():
    """The day with a run for each interval."""
    runs = [run(k, k, quality(k), k, reason(k)) for k in range(1, FIVE_MINUTES + 1)]
    return [day(MARKED_DAY, FIVE_MINUTES * ["1"], "20240102000000", "V"), *runs]


def long_event(number):
    """The four fields of an event, with texts of the greatest length."""
    return "O", f"{number:03}" + (FIELD - 3) * "t", "20240102000000", FIELD * "9"


def long_day(date, count):
    """A day of `count` values 1, with as many zeros before the first as its line can hold."""
    plain = day(date, count * ["1"], "20240103000000")
    zeros = "0" * (LINE_BYTES + 1 - len(plain))
    return plain.replace(f"300,{date},", f"300,{date},{zeros}")


def file_at_the_limits():
    """The file. Empty lines, which state nothing, fill it up to its size."""
    lines = [header(), long_block(NMI, 5), *marked_day()]
    lines += [event(*long_event(number)) for number in range(EVENTS, 0, -1)]
    lines += [day(UPDATED_DAY, FIVE_MINUTES * [str(update)], f"{UPDATED_DAY}0000{update:02}") for update in range(1, UPDATES + 1)]
    lines += [long_day(date, FIVE_MINUTES) for date in LONG_DATES]
    for nmi in OTHER_NMIS:
        lines += [long_block(nmi, 30), long_day(MARKED_DAY, HALF_HOURS)]
    text = "".join([*lines, END])
    return text + "\n" * (FILE_BYTES - len(text.encode()))


def dates(first, last):
    """The dates from the first to the last."""
    return [f"{first + datetime.timedelta(days):%Y%m%d}" for days in range((last - first).days + 1)]


def limits():
    """What is asked, with the answers. In a range of 400 days the first two days have no gap, and the others aren't known."""
    file = take_in(file_at_the_limits())
    marks = {k: f"{quality(k)},{k},{reason(k)},1" for k in range(1, FIVE_MINUTES + 1)}
    events = [",".join(long_event(number)) for number in range(1, EVENTS + 1)]
    versions = [f"{UPDATED_DAY}0000{update:02},A,,,{update}" for update in range(1, UPDATES + 1)]
    unknown = [f"{date},0,0" for date in dates(datetime.date(2024, 1, 3), datetime.date(2025, 2, 3))]
    stretches = [f"{MARKED_DAY},{k},{k},14,{k},{reason(k)}" for k in range(1, FIVE_MINUTES + 1) if is_final(k)]
    job = fill_in("LONG", FILLED_DAY, 1, HALF_HOURS, 19, "F", "20240204000000", nmi=OTHER_NMIS[0], code="76", text=reason(1))
    details = f"E1,{CONFIGURATION},{REGISTER},{DATASTREAM},{METER},20240201"
    return [
        (file, added(VERSIONS, 0)),
        (file, added(0, VERSIONS)),
        (get_day(MARKED_DAY), day_answer(MARKED_DAY, marks, "20240102000000", 5, events)),
        (get_day(UPDATED_DAY), day_answer(UPDATED_DAY, {1: f"A,,,{UPDATES}"}, f"{UPDATED_DAY}0000{UPDATES:02}", 5)),
        (get_versions(UPDATED_DAY, FIVE_MINUTES), versions_answer(UPDATED_DAY, FIVE_MINUTES, *versions, length=5)),
        (get_day(LONG_DATES[-1]), day_answer(LONG_DATES[-1], {1: "A,,,1"}, "20240103000000", 5)),
        (get_gaps("20240101", "20250203"), gaps(*unknown)),
        (get_finals(MARKED_DAY, MARKED_DAY), finals(*stretches)),
        (get_readings(MARKED_DAY, "20250203"), readings(
            day_of_rows(MARKED_DAY, {k: f"{mark},20240102000000" for k, mark in marks.items()}, 5),
            day_of_rows(UPDATED_DAY, {1: f"A,,,{UPDATES},{UPDATED_DAY}0000{UPDATES:02}"}, 5))),
        (get_readings("20010101", "20020204"), readings(*(day_of_rows(date, {1: "A,,,1,20240103000000"}, 5) for date in LONG_DATES[:56]))),
        (get_missing(MARKED_DAY, "20250203", UPDATED_DAY), missing(*(f"{NMI},E1,{row}" for row in unknown))),
        (get_missing(MARKED_DAY, "20250203"), missing(*(f"{NMI},E1,{row}" for row in unknown),
                                                      *(f"{nmi},E1,{row}" for nmi in OTHER_NMIS for row in [f"{UPDATED_DAY},0,0", *unknown]))),
        (export(MARKED_DAY, MARKED_DAY, "E1"), exported(long_block(NMI, 5), *marked_day())),
        (job, filled(HALF_HOURS)),
        (job, filled_before(HALF_HOURS)),
        (get_missing(FILLED_DAY, FILLED_DAY, UPDATED_DAY), missing(f"{NMI},E1,{FILLED_DAY},0,0")),
        (GET_STREAMS, streams_answer(*(f"{nmi},{details}" for nmi in [NMI, *OTHER_NMIS]))),
    ]


def accumulation(number):
    """The fields of an accumulation, from the configuration to the update, with texts of the greatest length."""
    register = f"{number:06}" + (FIELD - 6) * "r"
    read, text = FIELD * "9", FIELD * "\U0001f50c"
    return ",".join([CONFIGURATION, register, "E1", DATASTREAM, METER, "E", read, "20240101000000", "S52", "76", text, read, "20240201000000",
                     "F64", "77", text, "343.5", "kWh", "20240509", "20240202125010"])


def file_of_accumulations():
    """A file with as many accumulations as fit into its size, and their fields."""
    front, end = "100,NEM13,202402021250,MDP1,RETAILER\n", "900\n"
    lines, fields, size = [], [], len(front + end)
    while True:
        line = f"250,{NMI},{accumulation(len(fields))},\n"
        if size + len(line.encode()) > FILE_BYTES:
            return front + "".join(lines) + end, fields
        size += len(line.encode())
        fields.append(accumulation(len(fields)))
        lines.append(line)


def gappy_day(date):
    """A day of five minutes in which every second interval has no value."""
    runs = [run(k, k, "N" if k % 2 == 0 else "A") for k in range(1, FIVE_MINUTES + 1)]
    return [day(date, FIVE_MINUTES // 2 * ["1", "0"], "20240202000000", "V"), *runs]


def large():
    """What is asked about these, with the answers."""
    text, accumulations = file_of_accumulations()
    file = take_in_periods(text)
    gappy = ["20240101", "20240102", "20240103", "20240104"]
    days = take_in(header(), long_block(NMI, 5), *[line for date in gappy for line in gappy_day(date)], END)
    stretches = [f"{date},{k},{k}" for date in gappy for k in range(2, FIVE_MINUTES + 1, 2)]
    marks = {k: "N,,,,20240202000000" if k % 2 == 0 else "A,,,1,20240202000000" for k in range(1, FIVE_MINUTES + 1)}
    method, target, body = export(gappy[0], gappy[0], *(1550 * ["E1"]))
    return [
        (file, added(len(accumulations), 0)),
        (file, added(0, len(accumulations))),
        (get_periods(NMI, "E1"), periods_answer(NMI, "E1", *([fields] for fields in accumulations))),
        (days, added(len(gappy) * FIVE_MINUTES, 0)),
        (get_gaps(gappy[0], gappy[-1]), gaps(*stretches)),
        (get_missing(gappy[0], gappy[-1], gappy[-1]), missing(*(f"{NMI},E1,{row}" for row in stretches))),
        (get_readings(gappy[0], gappy[-1]), readings(*(day_of_rows(date, marks, 5) for date in gappy))),
        ((method, target, body), exported(long_block(NMI, 5), *gappy_day(gappy[0]))),
    ]
