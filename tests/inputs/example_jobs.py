"""Examples of substitution jobs: their ids, bad jobs, like days and holidays, lines, means, and the order of the rules that refuse a job."""

import datetime
import json

from inputs.example_texts import *

# The update of most jobs here, one before it and one after it.
UPDATE, BEFORE, LATER = "20240601000000", "20240531235959", "20240601000001"


def values_of(values, rest=""):
    """A day of half hours with values for some intervals, and one value for all others."""
    return [values.get(interval, rest) for interval in range(1, 49)]


def marked(date, update, values, *runs):
    """A day of half hours with some values, and with the quality of each run of intervals."""
    return day(date, values_of(values), update, "V") + "".join(run(*parts) for parts in runs)


# An id is kept as it was given.
LONGEST_ID = "0123456789abcdefghijABCDEFGHIJ-----9"
IDS = [
    (fill_in("J", "20240122", 1, 1, 19, "S", UPDATE), filled(1)),
    (fill_in("JOB-1", "20240122", 2, 2, 19, "S", UPDATE), filled(1)),
    (fill_in("job-1", "20240122", 3, 3, 19, "S", UPDATE), filled(1)),
    (fill_in(LONGEST_ID, "20240122", 4, 4, 19, "S", UPDATE), filled(1)),
    *((fill_in(name, "20240122", 5, 5, 19, "S", UPDATE), NO_JOB) for name in ["", "a b", "a_b", LONGEST_ID + "0", "é"]),
    (fill_in("J", "20240122", 1, 1, 19, "S", UPDATE), filled_before(1)),
    (fill_in("JOB-1", "20240122", 2, 2, 19, "S", UPDATE), filled_before(1)),
    (fill_in("job-1", "20240122", 3, 3, 19, "S", UPDATE), filled_before(1)),
    (fill_in(LONGEST_ID, "20240122", 4, 4, 19, "S", UPDATE), filled_before(1)),
]

# Jobs that no store can do, because of their intervals, their method or their flag, and jobs that only lack values.
BAD_JOBS = [
    (fill_in("J1", "20240122", 0, 8, 15, "F", UPDATE), refused("M11")),
    (fill_in("J1", "20240122", 9, 8, 19, "S", UPDATE), refused("M11")),
    (fill_in("J1", "20240122", 48, 49, 14, "S", UPDATE), refused("M11")),
    (fill_in("J1", "20240122", 1, 97, 19, "S", UPDATE, length=15), refused("M11")),
    (fill_in("J1", "20240122", 1, 289, 19, "S", UPDATE, length=5), refused("M11")),
    (fill_in("J1", "20240122", 5, 8, 16, "F", UPDATE), refused("M11")),
    (fill_in("J1", "20240122", 5, 8, 255, "F", UPDATE), refused("M11")),
    (fill_in("J1", "20240122", 5, 8, 15, "A", UPDATE), refused("M11")),
    (fill_in("J1", "20240122", 5, 8, 15, "N", UPDATE), refused("M11")),
    (fill_in("J1", "20240122", 5, 8, 15, "V", UPDATE), refused("M11")),
    (fill_in("J1", "20240122", 5, 8, 15, "F", UPDATE), refused("M7")),
    (fill_in("J1", "20240122", 48, 48, 17, "E", UPDATE), refused("M9")),
    (get_day("20240122"), refused("M10")),
    (fill_in("J1", "20240122", 1, 48, 19, "S", UPDATE), filled(48)),
    (fill_in("J2", "20240123", 1, 96, 19, "E", UPDATE, length=15), filled(96)),
    (fill_in("J3", "20240124", 1, 288, 19, "F", UPDATE, length=5, code="76", text="Zähler"), filled(288)),
    (get_day("20240122"), day_answer("20240122", {1: "S19,,,0"}, UPDATE)),
    (get_day("20240123"), day_answer("20240123", {1: "E19,,,0"}, UPDATE, 15)),
    (get_day("20240124"), day_answer("20240124", {1: "F19,76,Zähler,0"}, UPDATE, 5)),
]


def without(key, request):
    """A job without one of its keys."""
    method, target, body = request
    return method, target, json.dumps({name: value for name, value in json.loads(body).items() if name != key}).encode()


# A job needs all its keys, even if it has no reason. A job that lacks a key changes nothing, and its id stays free. A reason can be a code
# alone, or a text alone.
WHOLE_JOB = fill_in("J1", "20240122", 1, 2, 14, "S", UPDATE)
LACKING_JOBS = [
    (take_in(header(), block(), day("20240115", half_hours("2"), BEFORE), END), added(48, 0)),
    *((without(key, WHOLE_JOB), NO_JOB) for key in json.loads(WHOLE_JOB[2])),
    (get_day("20240122"), refused("M10")),
    (WHOLE_JOB, filled(2)),
    *((without(key, WHOLE_JOB), NO_JOB) for key in ["text", "code"]),
    (fill_in("J2", "20240122", 3, 3, 14, "S", UPDATE, text="no code"), filled(1)),
    (fill_in("J3", "20240122", 4, 4, 14, "S", UPDATE, code="76"), filled(1)),
    (get_day("20240122"), day_answer("20240122", {1: "S14,,,2", 3: "S14,,no code,2", 4: "S14,76,,2", 5: "N,,,"}, UPDATE)),
    (WHOLE_JOB, filled_before(2)),
]


def like_days(date, holiday, places, mean):
    """An example of a day's like days with one holiday. `places` names the like day at each of four places, nearest first, or none.

    The like day at the first place has the value 1, the next ones 10, 100 and 1000. Each has one usable interval more than the one before. All
    other days of six weeks have all intervals, with another value. So method 14 fills the interval of a place with that place's value, and
    method 15 fills the first interval with the mean of all."""
    of_job = datetime.datetime.strptime(date, "%Y%m%d")
    lines = []
    for days in range(-42, 8):
        if days == 0 or of_job.toordinal() + days < datetime.date(1970, 1, 1).toordinal():
            continue
        other = f"{of_job + datetime.timedelta(days):%Y%m%d}"
        if other in places:
            place = places.index(other) + 1
            lines += [day(other, half_hours(str(10 ** (place - 1))), BEFORE, "V"), run(1, place, "A"), run(place + 1, 48, "S51")]
        else:
            lines.append(day(other, half_hours("5000000"), BEFORE))
    rows = [(list_holidays(holiday), added(1, 0)),
            (take_in(header(), block(), *lines, END), added(48 * sum(line.startswith("300,") for line in lines), 0))]
    for place, other in enumerate(places, 1):
        if other:
            rows.append((fill_in(f"P{place}", date, place, place, 14, "S", UPDATE), filled(1)))
            rows.append((get_versions(date, place), versions_answer(date, place, f"{UPDATE},S14,,,{10 ** (place - 1)}")))
    rows.append((fill_in("P5", date, 5, 5, 14, "S", UPDATE), refused("M7")))
    if mean is None:
        return [*rows, (fill_in("MEAN", date, 1, 1, 15, "F", LATER), refused("M7"))]
    return [*rows, (fill_in("MEAN", date, 1, 1, 15, "F", LATER), filled(1)),
            (get_day(date), day_answer(date, filled_places(places, mean), LATER))]


def filled_places(places, mean):
    """The readings of such a day: the mean, then the values of the places, and null readings for places without a day."""
    readings = {1: f"F15,,,{mean}"}
    for place in range(2, 5):
        is_filled = place <= len(places) and places[place - 1]
        readings[place] = f"S14,,,{10 ** (place - 1)}" if is_filled else "N,,,"
    return {**readings, 5: "N,,,"}


# Like days in the calendar of 2024: the day, the holiday, the like days and their mean.
LIKE_DAYS = {
    # A holiday on a Friday: its like days are the Sundays before it.
    "a holiday on a Friday": ("20240126", "20240126", ["20240121", "20240114", "20240107", "20231231"], "277.75"),
    # A holiday on a Sunday: its like days are the Sundays before it, and not the day itself.
    "a holiday on a Sunday": ("20240128", "20240128", ["20240121", "20240114", "20240107", "20231231"], "277.75"),
    # A holiday is skipped, and no other week takes its place.
    "a week after a holiday": ("20240202", "20240126", [None, "20240119", "20240112", "20240105"], "370"),
    "two weeks after a holiday": ("20240202", "20240119", ["20240126", None, "20240112", "20240105"], "367"),
    # No day is before 1970. 1 January 1970 is a Thursday.
    "the third Thursday": ("19700115", "20240126", ["19700108", "19700101"], "5.5"),
    "a holiday on the first Saturday": ("19700103", "19700103", [], None),
}

# A line covers at most two hours, between two usable readings. The first day has no reading before it, and the last day none after it.
LINES = [
    (fill_in("J1", "20240210", 1, 25, 17, "S", UPDATE, length=5), refused("M8")),
    (fill_in("J1", "20240210", 1, 24, 17, "S", UPDATE, length=5), refused("M9")),
    (fill_in("J1", "20240210", 1, 9, 17, "S", UPDATE, length=15), refused("M8")),
    (fill_in("J1", "20240210", 1, 8, 17, "S", UPDATE, length=15), refused("M9")),
    (take_in(header(), block(), marked("19700101", "19700101000000", {2: "1"}, (1, 1, "N"), (2, 2, "A"), (3, 48, "N")),
             marked("99991231", "19700101000000", {47: "1"}, (1, 46, "N"), (47, 47, "A"), (48, 48, "N")), END), added(96, 0)),
    (fill_in("J1", "19700101", 1, 1, 17, "S", UPDATE), refused("M9")),
    (fill_in("J1", "99991231", 48, 48, 17, "S", UPDATE), refused("M9")),
    (fill_in("J1", "19700101", 1, 1, 19, "S", UPDATE), filled(1)),
    (fill_in("J2", "99991231", 48, 48, 19, "S", UPDATE), filled(1)),
    # the neighbours: the last reading of the day before, and a reading of the day itself; E, S and N aren't usable, A and F are
    (take_in(header(), block(),
             marked("20240201", BEFORE, {46: "1", 48: "2"}, (1, 45, "N"), (46, 46, "F51"), (47, 47, "N"), (48, 48, "A")),
             marked("20240202", BEFORE, {3: "-1", 5: "7", 7: "8"}, (1, 2, "N"), (3, 3, "A"), (4, 4, "N"), (5, 5, "S51"), (6, 6, "N"),
                    (7, 7, "E51"), (8, 48, "N")), END), added(96, 0)),
    (fill_in("J3", "20240201", 47, 47, 17, "S", UPDATE), filled(1)),
    (get_versions("20240201", 47), versions_answer("20240201", 47, f"{BEFORE},N,,,", f"{UPDATE},S17,,,1.5")),
    (fill_in("J4", "20240202", 1, 2, 17, "S", UPDATE), filled(2)),
    (get_versions("20240202", 1), versions_answer("20240202", 1, f"{BEFORE},N,,,", f"{UPDATE},S17,,,1")),
    (get_versions("20240202", 2), versions_answer("20240202", 2, f"{BEFORE},N,,,", f"{UPDATE},S17,,,0")),
    (fill_in("J5", "20240202", 4, 4, 17, "S", UPDATE), refused("M9")),
    (fill_in("J5", "20240202", 6, 6, 17, "S", UPDATE), refused("M9")),
    (fill_in("J5", "20240202", 8, 8, 17, "S", UPDATE), refused("M9")),
]

# A value on a line is rounded to the nearest millionth, and half a millionth away from zero.
NEIGHBOURS = {1: "0.000001", 3: "0.000002", 4: "-0.000001", 6: "-0.000002", 7: "0", 10: "0.000001", 11: "-0.000001", 13: "0.000001",
              14: "999999999999.999999", 16: "999999999999.999999", 17: "-999999999999.999999", 19: "999999999999.999999"}
ROUNDED_LINES = [
    (take_in(header(), block(), marked("20240201", BEFORE, NEIGHBOURS, (1, 1, "A"), (2, 2, "N"), (3, 4, "A"), (5, 5, "N"), (6, 7, "A"),
                                       (8, 9, "N"), (10, 11, "A"), (12, 12, "N"), (13, 14, "A"), (15, 15, "N"), (16, 17, "A"),
                                       (18, 18, "N"), (19, 19, "A"), (20, 48, "N")), END), added(48, 0)),
    *((fill_in(f"J{first}", "20240201", first, last, 17, "E", UPDATE), filled(last + 1 - first))
      for first, last in [(2, 2), (5, 5), (8, 9), (12, 12), (15, 15), (18, 18)]),
    (get_day("20240201"), day_answer("20240201", {
        1: "A,,,0.000001", 2: "E17,,,0.000002", 3: "A,,,0.000002", 4: "A,,,-0.000001", 5: "E17,,,-0.000002", 6: "A,,,-0.000002",
        7: "A,,,0", 8: "E17,,,0", 9: "E17,,,0.000001", 10: "A,,,0.000001", 11: "A,,,-0.000001", 12: "E17,,,0", 13: "A,,,0.000001",
        14: "A,,,999999999999.999999", 15: "E17,,,999999999999.999999", 16: "A,,,999999999999.999999",
        17: "A,,,-999999999999.999999", 18: "E17,,,0", 19: "A,,,999999999999.999999", 20: "N,,,"}, UPDATE)),
]

# A mean is rounded in the same way. These are the like days of Monday 22 January 2024. The means are 1.5 millionths of four values, 4/3 and 5/3
# of three, and 1.25 and 1.5 below zero. The greatest values have a mean, too.
MONDAYS = [
    ("20240115", "A", ["0.000001", "0.000001", "0.000002", "-0.000002", "-0.000001", "999999999999.999999"]),
    ("20240108", "A", ["0.000002", "0.000001", "0.000002", "-0.000001", "-0.000002", "999999999999.999999"]),
    ("20240101", "F51", ["0.000002", "0.000002", "0.000001", "-0.000001", "-0.000002", "999999999999.999999"]),
    ("20231225", "S51", ["0.000001", "5", "5", "-0.000001", "-0.000001", "999999999999.999999"]),
]
ROUNDED_MEANS = [
    (take_in(header(), block(),
             *(marked(date, BEFORE, dict(enumerate(values, 1)), (1, 1, "A"), (2, 3, of_two), (4, 6, "A"), (7, 48, "N"))
               for date, of_two, values in MONDAYS), END), added(192, 0)),
    (fill_in("J1", "20240122", 1, 6, 15, "F", UPDATE), filled(6)),
    (get_day("20240122"), day_answer("20240122", {1: "F15,,,0.000002", 2: "F15,,,0.000001", 3: "F15,,,0.000002", 4: "F15,,,-0.000001",
                                                 5: "F15,,,-0.000002", 6: "F15,,,999999999999.999999", 7: "N,,,"}, UPDATE)),
]

# A like day of another length or unit isn't usable. If it lacks an interval of the job, method 14 skips the day, and method 15 skips it for that
# interval. If no day has values, the id of the job stays free.
USABLE = [
    (take_in(header(), block(15), day("20240115", 96 * ["1"], BEFORE),
             block(unit="MWh"), day("20240108", half_hours("2"), BEFORE), END), added(144, 0)),
    (fill_in("J1", "20240122", 1, 2, 14, "S", UPDATE), refused("M7")),
    (fill_in("J1", "20240122", 1, 2, 15, "S", UPDATE), refused("M7")),
    (take_in(header(), block(), marked("20240101", BEFORE, {1: "4", 2: "4"}, (1, 1, "A"), (2, 2, "E51"), (3, 48, "N")), END), added(48, 0)),
    (fill_in("J1", "20240122", 1, 2, 14, "S", UPDATE), refused("M7")),
    (fill_in("J1", "20240122", 1, 2, 15, "S", UPDATE), refused("M7")),
    (get_day("20240122"), refused("M10")),
    (take_in(header(), block(), day("20231225", half_hours("8"), BEFORE), END), added(48, 0)),
    (fill_in("J1", "20240122", 1, 2, 14, "S", UPDATE), filled(2)),
    (fill_in("J2", "20240122", 1, 2, 15, "S", LATER), filled(2)),
    (get_versions("20240122", 1), versions_answer("20240122", 1, f"{UPDATE},S14,,,8", f"{LATER},S15,,,6")),
    (get_versions("20240122", 2), versions_answer("20240122", 2, f"{UPDATE},S14,,,8", f"{LATER},S15,,,8")),
    (fill_in("J3", "20240122", 1, 2, 14, "S", UPDATE, length=15), refused("M1")),
]

# Jobs of one to seventeen intervals that copy a day of 48 different values.
COPIED = [
    (take_in(header(), block(), day("20240115", [f"{interval}.5" for interval in range(1, 49)], BEFORE), END), added(48, 0)),
    *((fill_in(f"J{first}", "20240122", first, last, 14, "S", UPDATE), filled(last + 1 - first))
      for first, last in [(1, 1), (2, 8), (9, 16), (17, 25), (26, 42), (43, 48)]),
    (get_day("20240122"), day_answer("20240122", {interval: f"S14,,,{interval}.5" for interval in range(1, 49)}, UPDATE)),
]

# The rules that refuse a job, in this order: M11, M4, M1, M2, then M5 and M6, each for its first interval, M8, and M7 or M9. A job's update has
# to be later than that of each version, and readings of quality A and F are protected.
RUNS = [(1, 1, "S51"), (2, 2, "E51"), (3, 3, "A"), (4, 4, "F51"), (5, 48, "N")]
STOPPED = [
    (take_in(header(), block(), marked("20240122", LATER, {1: "1", 2: "2", 3: "3", 4: "4"}, *RUNS), END), added(48, 0)),
    (fill_in("J1", "20240121", 1, 1, 19, "S", UPDATE), filled(1)),
    (fill_in("J1", "20240122", 1, 8, 16, "S", UPDATE, length=15, unit="MWh"), refused("M11")),
    (fill_in("J1", "20240122", 1, 8, 17, "S", UPDATE, length=15, unit="MWh"), refused("M4")),
    (fill_in("J2", "20240122", 1, 9, 17, "S", UPDATE, length=15, unit="MWh"), refused("M1")),
    (fill_in("J2", "20240122", 1, 8, 17, "S", UPDATE, unit="MWh"), refused("M2")),
    (fill_in("J2", "20240122", 1, 8, 17, "S", UPDATE), refused("M5", interval=3)),
    (fill_in("J2", "20240122", 4, 8, 17, "S", UPDATE), refused("M5", interval=4)),
    (fill_in("J2", "20240122", 1, 2, 17, "S", UPDATE), refused("M6", interval=1)),
    (fill_in("J2", "20240122", 2, 2, 14, "S", LATER), refused("M6", interval=2)),
    (fill_in("J2", "20240122", 5, 9, 17, "S", LATER), refused("M6", interval=5)),
    (fill_in("J2", "20240122", 5, 9, 17, "S", "20240601000002"), refused("M8")),
    (fill_in("J2", "20240122", 5, 9, 15, "S", "20240601000002"), refused("M7")),
    (fill_in("J2", "20240122", 5, 8, 17, "S", "20240601000002"), refused("M9")),
    (fill_in("J2", "20240122", 1, 2, 17, "S", "20240601000002"), refused("M9")),
    (fill_in("J2", "20240122", 1, 2, 19, "S", "20240601000002"), filled(2)),
]

EXAMPLES = {
    "ids": IDS,
    "bad jobs": BAD_JOBS,
    "jobs that lack a key": LACKING_JOBS,
    **{name: like_days(*row) for name, row in LIKE_DAYS.items()},
    "lines": LINES,
    "rounded lines": ROUNDED_LINES,
    "rounded means": ROUNDED_MEANS,
    "usable like days": USABLE,
    "copies of a like day": COPIED,
    "what stops a job": STOPPED,
}
