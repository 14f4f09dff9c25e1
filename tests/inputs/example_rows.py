"""Examples: lists of requests to a store that is empty at first, each with the answer that it has to get."""

import datetime

from inputs.example_texts import *
from inputs.file_parts import record_300

# The first file, and others that several examples import.

FIRST_DAY = day("20240101", half_hours("1.5"), "20240102010203")
FIRST = take_in(header(), block(), FIRST_DAY, END)
EARLIER = take_in(header(), block(), day("20240101", half_hours("9"), "20240101230000"), END)
FIRST_ANSWER = day_answer("20240101", {1: "A,,,1.5"}, "20240102010203")
EXPORTED_FIRST = exported(block(), FIRST_DAY)
ROWS_OF_FIRST = readings(day_of_rows("20240101", {1: "A,,,1.5,20240102010203"}))
FIVE_MINUTES = header() + block(5)
LATER_DAY = day("20240103", half_hours("2"), "20240104000000")
# A meter is exchanged between two days of one file.
METER_OF_FIRST, METER_OF_SECOND = block(), block(meter="01010")
SECOND_DAY = day("20240102", half_hours("2"), "20240103010203")
EXCHANGED = take_in(header("202401020000"), METER_OF_FIRST, FIRST_DAY, METER_OF_SECOND, SECOND_DAY, END)
EXPORTED_EXCHANGE = exported(METER_OF_FIRST, FIRST_DAY, METER_OF_SECOND, SECOND_DAY)
# A 200 without details. An export writes it for a day that has none.
BARE = f"200,{NMI},,,{SUFFIX},,,kWh,30,\n"
LIKE_DAYS = take_in(header(), block(), day("20240108", half_hours("1.000002"), "20240116000000"),
                    day("20240115", half_hours("1.000001"), "20240116000000"), END)

# Accumulations: up to 1 February 2004, the same with another quantity, from there to 1 March, and one of another register.
IN_OCTOBER, IN_FEBRUARY, IN_MARCH = "000021.2,20031001103230,A,,", "000534.5,20040201100030,E64,77,", "000600.0,20040301100030,A,,"
FROM_FEBRUARY = "000534.5,20040201100030,A,,"
HEADER_13 = header("200401011234", "NEM13")
TO_FEBRUARY = accumulation(IN_OCTOBER, IN_FEBRUARY, "343.5", "01", "20040509", "20040202125010", "20040203000130") + note("N", "", "A")
OTHER_QUANTITY = accumulation(IN_OCTOBER, IN_FEBRUARY, "344.5", "01", "20040509", "20040202125010", "20040203000130") + note("N", "", "A")
HEADER_OF_UPDATE = header("20040202125010", "NEM13")
WITH_UPDATE = accumulation(IN_OCTOBER, IN_FEBRUARY, "343.5", "01", "20040509", "20040202125010")
WITHOUT_UPDATE = accumulation(IN_OCTOBER, IN_FEBRUARY, "343.5", "01", "20040509")
OTHER_WITHOUT_UPDATE = accumulation(IN_OCTOBER, IN_FEBRUARY, "344.5", "01", "20040509")
TO_MARCH = accumulation(FROM_FEBRUARY, IN_MARCH, "65.5", "01", "", "20040302125010")
OTHER_REGISTER = accumulation(FROM_FEBRUARY, IN_MARCH, "65.5", "02")
FEBRUARY_TEXTS = ("1141,01,11,11,METSER66,E,000021.2,20031001103230,A,,,000534.5,20040201100030,E64,77,,343.5,kWh,20040509,20040202125010",
                 "N,,A,")
WITH_UPDATE_TEXTS = FEBRUARY_TEXTS[:1]
EARLIER_UPDATE_TEXTS = (FEBRUARY_TEXTS[0].replace("20040202125010", "20040101123400"),)
MARCH_TEXTS = ("1141,01,11,11,METSER66,E,000534.5,20040201100030,A,,,000600.0,20040301100030,A,,,65.5,kWh,,20040302125010",)
REGISTER_TEXTS = ("1141,02,11,11,METSER66,E,000534.5,20040201100030,A,,,000600.0,20040301100030,A,,,65.5,kWh,,20040101123400",)


# A file is imported once.
TAKEN_IN = [
    (FIRST, added(48, 0)),
    (GET_STREAMS, streams_answer("NEM1201009,E1,E1,1,N1,01009,")),
    (FIRST, added(0, 48)),
    (take_in(header(), END), added(0, 0)),
    (take_in(), refused("L9", line=1)),
    (take_in(header()), refused("L9", line=2)),
    (take_in(END), refused("L3", line=1)),
    (get_readings("20240101", "20240101"), ROWS_OF_FIRST),
    (get_missing("20240101", "20240102"), missing(f"{NMI},{SUFFIX},20240102,0,0")),
]

# The first rows of a day, letter by letter.
FIRST_ROWS = [
    (FIRST, added(48, 0)),
    (get_readings("20240101", "20240101"), (200, CSV, "nmi,suffix,start,minutes,unit,quality,code,text,value,update\n" + "".join(
        f"NEM1201009,E1,2024-01-01T{hour:02}:{minute},30,kWh,A,,,1.5,20240102010203\n" for hour in range(24) for minute in ["00", "30"]))),
]

# A day of 5 minutes is imported.
DAY_OF_FIVE_MINUTES = [
    (take_in(FIVE_MINUTES, record_300("20240101", 287 * ["1"], "A"), END), refused("L4", line=3)),
    (take_in(FIVE_MINUTES, day("20240101", 287 * ["1"], "20240102010203"), END), refused("L5", line=3, field=290)),
    (get_day("20240101"), refused("M10")),
    (take_in(FIVE_MINUTES, day("20240101", 288 * ["1"], "20240102010203"), END), added(288, 0)),
    (get_versions("20240101", 288), versions_answer("20240101", 288, "20240102010203,A,,,1", length=5)),
    (get_versions("20240101", 289), refused("M10")),
    (get_readings("20240101", "20240101"), readings(day_of_rows("20240101", {1: "A,,,1,20240102010203"}, 5))),
]

# The latest update is current, in whatever order the files come.
LATEST_UPDATE = [
    (FIRST, added(48, 0)),
    (EARLIER, added(48, 0)),
    (get_day("20240101"), FIRST_ANSWER),
    (get_versions("20240101", 1), versions_answer("20240101", 1, "20240101230000,A,,,9", "20240102010203,A,,,1.5")),
    (take_in(header(), block(), FIRST_DAY, event("O", "", "20240102000000", "15.5"), END), added(0, 48)),
    (take_in(header(), block(), FIRST_DAY, event("O", "", "20240102000000", "15.5"), END), added(0, 48)),
    (get_day("20240101"), day_answer("20240101", {1: "A,,,1.5"}, "20240102010203", events=["O,,20240102000000,15.5"])),
    (get_versions("20240101", 0), refused("M10")),
    (get_readings("20231231", "20240102"), ROWS_OF_FIRST),
]

# A file changes nothing if it conflicts with what is kept, or with itself.
CONFLICTS = [
    (FIRST, added(48, 0)),
    (take_in(header(), block(), LATER_DAY, day("20240101", 6 * ["1.5"] + ["9"] + 41 * ["1.5"], "20240102010203"), END),
     refused("M3", line=4, interval=7)),
    (get_day("20240103"), refused("M10")),
    (take_in(header(), block(15), day("20240101", 96 * ["1"], "20240102010203"), END), refused("M1", line=3)),
    (take_in(header(), block(unit="MWh"), FIRST_DAY, END), refused("M2", line=3)),
    (take_in(header(), block(), LATER_DAY, LATER_DAY, day("20240103", half_hours("9"), "20240104000000"), END),
     refused("M3", line=5, interval=1)),
    (get_day("20240103"), refused("M10")),
    (get_day("20240101"), FIRST_ANSWER),
]

# What a file states twice counts once.
TWICE_NOTED = take_in(header(), *2 * [block(), LATER_DAY, event("N"), event("N")], END)
TWICE = [
    (TWICE_NOTED, added(48, 0)),
    (get_day("20240103"), day_answer("20240103", {1: "A,,,2"}, "20240104000000", events=["N,,,"])),
    (TWICE_NOTED, added(0, 48)),
]

# A 200 without a day states nothing. The details of the latest header are current, even if its file comes first.
LATEST_DETAILS = [
    (take_in(header("202401040000"), block(meter="LATER", next_read="20240203"), END), added(0, 0)),
    (GET_STREAMS, streams_answer()),
    (take_in(header("202401040000"), block(meter="LATER", next_read="20240203"), FIRST_DAY, END), added(48, 0)),
    (FIRST, added(0, 48)),
    (take_in(header(), block(suffix="B1", meter="01010"), FIRST_DAY, END), added(48, 0)),
    (GET_STREAMS, streams_answer("NEM1201009,B1,B1,1,N1,01010,", "NEM1201009,E1,E1,1,N1,LATER,20240203")),
    (get_day("20240102"), refused("M10")),
]

# A meter is exchanged: each day has the details of the 200 before it. A day that a job filled in has those of the day before.
THREE_DAYS = [METER_OF_FIRST, FIRST_DAY, METER_OF_SECOND, SECOND_DAY, day("20240103", half_hours("0"), "20240104000000", "V"),
              run(1, 1, "S19"), run(2, 48, "N")]
OTHER_METER = [block(meter="01000"), FIRST_DAY, END]
EXCHANGE = [
    (EXCHANGED, added(96, 0)),
    (export("20240101", "20240102", "E1"), EXPORTED_EXCHANGE),
    (GET_STREAMS, streams_answer("NEM1201009,E1,E1,1,N1,01010,")),
    (EXCHANGED, added(0, 96)),
    (fill_in("J1", "20240103", 1, 1, 19, "S", "20240104000000"), filled(1)),
    (export("20240101", "20240103", "E1"), exported(*THREE_DAYS)),
    (export("20240103", "20240103", "E1"), exported(METER_OF_SECOND, *THREE_DAYS[4:])),
    (GET_STREAMS, streams_answer("NEM1201009,E1,E1,1,N1,01010,")),
]

# The current details of a day are those of the latest header that stated the day, and under one header the greatest. They count as no reading,
# and no other day gets them.
LATEST_OF_A_DAY = [
    (EXCHANGED, added(96, 0)),
    (take_in(header("202401020000"), *OTHER_METER), added(0, 48)),
    (export("20240101", "20240102", "E1"), EXPORTED_EXCHANGE),
    (take_in(header("202401040000"), *OTHER_METER), added(0, 48)),
    (export("20240101", "20240102", "E1"), exported(block(meter="01000"), FIRST_DAY, METER_OF_SECOND, SECOND_DAY)),
    (take_in(header("202401030000"), block(meter="99999"), FIRST_DAY, END), added(0, 48)),
    (EXCHANGED, added(0, 96)),
    (export("20240101", "20240101", "E1"), exported(block(meter="01000"), FIRST_DAY)),
    (GET_STREAMS, streams_answer("NEM1201009,E1,E1,1,N1,01010,")),
]

# An export states the details of each of its days. The store that it came from accepts it, and another store has these details afterwards.
EXPORTED_AGAIN = [
    (EXCHANGED, added(96, 0)),
    (take_in(EXPORTED_EXCHANGE[2]), added(0, 96)),
    (export("20240101", "20240102", "E1"), EXPORTED_EXCHANGE),
    (GET_STREAMS, streams_answer("NEM1201009,E1,E1,1,N1,01010,")),
]
EXPORTED_TO_ANOTHER = [(take_in(EXPORTED_EXCHANGE[2]), added(96, 0)), *EXPORTED_AGAIN[2:]]

# The days of a file come in any order, and so do its 200s. If a day has two details of one header, the greater is current. A 200 that differs
# only in its next read is another one, too.
OUT_OF_ORDER = [
    (take_in(header(), block(meter="2"), SECOND_DAY, LATER_DAY, block(meter="1"), FIRST_DAY, block(meter="3"), SECOND_DAY, block(meter="1"),
             LATER_DAY, END), added(144, 0)),
    (export("20240101", "20240103", "E1"), exported(block(meter="1"), FIRST_DAY, block(meter="3"), SECOND_DAY, block(meter="2"), LATER_DAY)),
    (take_in(header("202401040000"), block(meter="3", next_read="20240201"), LATER_DAY, END), added(0, 48)),
    (take_in(header("202401040000"), block(meter="3"), FIRST_DAY, SECOND_DAY, END), added(0, 96)),
    (export("20240101", "20240103", "E1"), exported(block(meter="3"), FIRST_DAY, SECOND_DAY, block(meter="3", next_read="20240201"), LATER_DAY)),
    (export("20240103", "20240103", "E1"), exported(block(meter="3", next_read="20240201"), LATER_DAY)),
    (GET_STREAMS, streams_answer("NEM1201009,E1,E1,1,N1,3,20240201")),
]

# A stream without a day and without an accumulation isn't known.
WITHOUT_DAYS = [
    (take_in(header(), block(), END), added(0, 0)),
    (GET_STREAMS, streams_answer()),
    (export("20240101", "20240102", "E1"), exported()),
    (take_in(header(), block(), block(suffix="B1"), FIRST_DAY, block(), END), added(48, 0)),
    (GET_STREAMS, streams_answer("NEM1201009,B1,B1,1,N1,01009,")),
]

# A day that a job filled in gets no details from a later day, nor from another stream. A day that states its own details has these.
FILLED_FIRST = [day("20240101", half_hours("0"), "20240104000000", "V"), run(1, 1, "S19"), run(2, 48, "N")]
NEVER_LATER = [
    (take_in(header(), block(), LATER_DAY, block(suffix="B1"), FIRST_DAY, END), added(96, 0)),
    (fill_in("J1", "20240101", 1, 1, 19, "S", "20240104000000"), filled(1)),
    (export("20240101", "20240101", "E1"), exported(BARE, *FILLED_FIRST)),
    (export("20240101", "20240103", "E1"), exported(BARE, *FILLED_FIRST, block(), LATER_DAY)),
    (fill_in("J2", "20240105", 1, 48, 19, "F", "20240106000000"), filled(48)),
    (export("20240103", "20240105", "E1"), exported(block(), LATER_DAY, day("20240105", half_hours("0"), "20240106000000", "F19"))),
    (GET_STREAMS, streams_answer("NEM1201009,B1,B1,1,N1,01009,", "NEM1201009,E1,E1,1,N1,01009,")),
    (take_in(header(), block(meter="01010"), day("20240105", half_hours("0"), "20240106000000", "F19"), END), added(0, 48)),
    (export("20240101", "20240105", "E1"), exported(BARE, *FILLED_FIRST, block(), LATER_DAY, block(meter="01010"),
                                                    day("20240105", half_hours("0"), "20240106000000", "F19"))),
    (GET_STREAMS, streams_answer("NEM1201009,B1,B1,1,N1,01009,", "NEM1201009,E1,E1,1,N1,01010,")),
]

# A stream of jobs alone has five empty details. An export of it states them, and then its days have them.
OF_JOBS_ALONE = [
    (fill_in("J1", "20240101", 1, 1, 19, "S", "20240104000000"), filled(1)),
    (GET_STREAMS, streams_answer("NEM1201009,E1,,,,,")),
    (export("20240101", "20240101", "E1"), exported(BARE, *FILLED_FIRST)),
    (take_in(exported(BARE, *FILLED_FIRST)[2]), added(47, 1)),
    (export("20240101", "20240101", "E1"), exported(BARE, *FILLED_FIRST)),
    (take_in(header("202401050000"), block(), LATER_DAY, END), added(48, 0)),
    (export("20240101", "20240103", "E1"), exported(BARE, *FILLED_FIRST, block(), LATER_DAY)),
    (GET_STREAMS, streams_answer("NEM1201009,E1,E1,1,N1,01009,")),
]

# Details alone don't conflict, and a file that conflicts leaves no details.
NO_DETAILS_LEFT = [
    (FIRST, added(48, 0)),
    (take_in(header("202401040000"), block(meter="01010"), FIRST_DAY, day("20240101", half_hours("9"), "20240102010203"), END),
     refused("M3", line=4, interval=1)),
    (take_in(header("202401040000"), block(meter="01010"), FIRST_DAY), refused("L9", line=4)),
    (export("20240101", "20240101", "E1"), EXPORTED_FIRST),
    (GET_STREAMS, streams_answer("NEM1201009,E1,E1,1,N1,01009,")),
]

# A day of null data, and then the same day with all kinds of marks and a negative value.
MARKED = take_in(header(), block(), day("20240101", ["-1.5"] + 47 * ["1.5"], "20240103000000", "V"), run(1, 20, "A"),
                 run(21, 21, "S14", "999", "Zähler gewechselt"), run(22, 47, "F52", "076"), run(48, 48, "N"), END)
MARKS = [
    (take_in(header(), block(), day("20240101", half_hours(""), "20240102010203", "N"), END), added(48, 0)),
    (get_day("20240101"), day_answer("20240101", {1: "N,,,"}, "20240102010203")),
    (get_versions("20240101", 48), versions_answer("20240101", 48, "20240102010203,N,,,")),
    (MARKED, added(48, 0)),
    (get_day("20240101"), day_answer("20240101", {1: "A,,,-1.5", 2: "A,,,1.5", 21: "S14,999,Zähler gewechselt,1.5", 22: "F52,76,,1.5",
                                                 48: "N,,,"}, "20240103000000")),
    (get_versions("20240101", 21), versions_answer("20240101", 21, "20240102010203,N,,,",
                                                  "20240103000000,S14,999,Zähler gewechselt,1.5")),
    (MARKED, added(0, 48)),
    (get_readings("20240101", "20240101"), readings(day_of_rows("20240101", {
        1: "A,,,-1.5,20240103000000", 2: "A,,,1.5,20240103000000", 21: "S14,999,Zähler gewechselt,1.5,20240103000000",
        22: "F52,76,,1.5,20240103000000", 48: "N,,,,20240103000000"}))),
]

# A day of 5 minutes that comes with its correction.
CORRECTED = take_in(FIVE_MINUTES, day("20240101", 288 * ["1"], "20240102010203"),
                    day("20240101", 288 * ["1"], "20240103000000", "S14", "1"), END)
TWO_UPDATES = [
    (CORRECTED, added(576, 0)),
    (get_day("20240101"), day_answer("20240101", {1: "S14,1,,1"}, "20240103000000", 5)),
    (get_versions("20240101", 288), versions_answer("20240101", 288, "20240102010203,A,,,1", "20240103000000,S14,1,,1", length=5)),
    (CORRECTED, added(0, 576)),
]

# A day of half hours comes again in 5 minutes under a later update. From then on that length is current, and no version is lost.
QUARTERS_OF_ONE = 288 * ["0.25"]
IN_FIVE_MINUTES = take_in(FIVE_MINUTES, day("20240101", QUARTERS_OF_ONE, "20240105000000"), END)
FIVE_MINUTES_ANSWER = day_answer("20240101", {1: "A,,,0.25"}, "20240105000000", 5)
FIVE_MINUTES_ROWS = readings(day_of_rows("20240101", {1: "A,,,0.25,20240105000000"}, 5))
EXPORTED_IN_FIVE_MINUTES = exported(block(5), day("20240101", QUARTERS_OF_ONE, "20240105000000"))
ANOTHER_LENGTH = [
    (FIRST, added(48, 0)),
    (IN_FIVE_MINUTES, added(288, 0)),
    (get_day("20240101"), FIVE_MINUTES_ANSWER),
    (get_versions("20240101", 1),
     versions_of_lengths_answer("20240101", 1, "20240102010203,A,,,1.5,30", "20240105000000,A,,,0.25,5")),
    (get_versions("20240101", 49), versions_answer("20240101", 49, "20240105000000,A,,,0.25", length=5)),
    (get_versions("20240101", 289), refused("M10")),
    (FIRST, added(0, 48)),
    (get_day("20240101"), FIVE_MINUTES_ANSWER),
    (get_readings("20240101", "20240101"), FIVE_MINUTES_ROWS),
    (export("20240101", "20240101", "E1"), EXPORTED_IN_FIVE_MINUTES),
    (take_in(EXPORTED_IN_FIVE_MINUTES[2]), added(0, 288)),
    (fill_in("J1", "20240101", 1, 1, 19, "S", "20240106000000"), refused("M1")),
    (fill_in("J1", "20240101", 1, 1, 19, "S", "20240106000000", length=5), refused("M5", interval=1)),
    (fill_in("J1", "20240101", 1, 1, 19, "S", "20240106000000", length=5, unit="MWh"), refused("M2")),
    # Half hours come again under a still later update.
    (take_in(header(), block(), day("20240101", half_hours("1.25"), "20240107000000"), END), added(48, 0)),
    (get_day("20240101"), day_answer("20240101", {1: "A,,,1.25"}, "20240107000000")),
    (get_readings("20240101", "20240101"), readings(day_of_rows("20240101", {1: "A,,,1.25,20240107000000"}))),
    (get_versions("20240101", 288), versions_answer("20240101", 288, "20240105000000,A,,,0.25", length=5)),
    (export("20240101", "20240101", "E1"), exported(block(), day("20240101", half_hours("1.25"), "20240107000000"))),
]

# The latest update decides, not the file that came last. One update has one length, and all updates have one unit.
AN_EARLIER_LENGTH = [
    (FIRST, added(48, 0)),
    (take_in(FIVE_MINUTES, day("20240101", QUARTERS_OF_ONE, "20240102010203"), END), refused("M1", line=3)),
    (take_in(FIVE_MINUTES, day("20240101", QUARTERS_OF_ONE, "20240101120000"), END), added(288, 0)),
    (get_day("20240101"), FIRST_ANSWER),
    (get_gaps("20240101", "20240101"), gaps()),
    (get_readings("20240101", "20240101"), ROWS_OF_FIRST),
    (get_versions("20240101", 288), versions_answer("20240101", 288, "20240101120000,A,,,0.25", length=5)),
    (take_in(header(), block(5, unit="MWh"), day("20240101", QUARTERS_OF_ONE, "20240101120000"), END), refused("M2", line=3)),
    (take_in(header(), block(5, unit="MWh"), day("20240101", QUARTERS_OF_ONE, "20240101120001"), END), refused("M2", line=3)),
    (take_in(header(), block(15), day("20240101", 96 * ["0.5"], "20240101120000"), END), refused("M1", line=3)),
    (export("20240101", "20240101", "E1"), EXPORTED_FIRST),
    (take_in(EXPORTED_FIRST[2]), added(0, 48)),
]

# A file can state both lengths of a day, in either order.
BOTH_LENGTHS = take_in(header(), block(), FIRST_DAY, block(5), day("20240101", QUARTERS_OF_ONE, "20240105000000"), END)
IN_ONE_FILE = [
    (BOTH_LENGTHS, added(336, 0)),
    (take_in(header(), block(5), day("20240101", QUARTERS_OF_ONE, "20240105000000"), block(), FIRST_DAY, END), added(0, 336)),
    (get_day("20240101"), FIVE_MINUTES_ANSWER),
    (take_in(header(), block(15), day("20240101", 96 * ["0.5"], "20240106000000"), block(5),
             day("20240101", QUARTERS_OF_ONE, "20240106000000"), END), refused("M1", line=5)),
    (get_day("20240101"), FIVE_MINUTES_ANSWER),
]

# A job adds the first length of a day, or one more update of the current length.
ONE_INTERVAL = day_answer("20240109", {1: "S19,,,0", 2: "N,,,"}, "20240110000000", 5)
A_JOB_OF_FIVE_MINUTES = [
    (fill_in("J1", "20240109", 1, 1, 19, "S", "20240110000000", length=5), filled(1)),
    (take_in(header(), block(), day("20240109", half_hours("1"), "20240109230000"), END), added(48, 0)),
    (get_day("20240109"), ONE_INTERVAL),
    (get_gaps("20240109", "20240109"), gaps("20240109,2,288")),
    (get_missing("20240109", "20240110"), missing("NEM1201009,E1,20240109,2,288", "NEM1201009,E1,20240110,0,0")),
    (get_readings("20240109", "20240109"), readings(day_of_rows("20240109", {1: "S19,,,0,20240110000000", 2: "N,,,,"}, 5))),
    (fill_in("J2", "20240109", 2, 2, 19, "S", "20240109230000", length=5), refused("M1")),
    (fill_in("J2", "20240109", 2, 2, 19, "S", "20240109220000", length=5), filled(1)),
    (get_day("20240109"), day_answer("20240109", {1: "S19,,,0", 3: "N,,,"}, "20240110000000", 5)),
    (get_readings("20240109", "20240109"),
     readings(day_of_rows("20240109", {1: "S19,,,0,20240110000000", 2: "S19,,,0,20240109220000", 3: "N,,,,"}, 5))),
    (get_versions("20240109", 2), versions_of_lengths_answer("20240109", 2, "20240109220000,S19,,,0,5", "20240109230000,A,,,1,30")),
    (take_in(header(), block(), day("20240109", half_hours("1"), "20240111000000"), END), added(48, 0)),
    (get_day("20240109"), day_answer("20240109", {1: "A,,,1"}, "20240111000000")),
    (get_gaps("20240109", "20240109"), gaps()),
    (fill_in("J1", "20240109", 1, 1, 19, "S", "20240110000000", length=5), filled_before(1)),
]

# Two days of a file are new. The events of a day are ordered by their texts.
BOTH_DAYS = take_in(header(), block(), FIRST_DAY, LATER_DAY, event("S"), event("", "B7", "20240104000000"), END)
TWO_DAYS = [
    (BOTH_DAYS, added(96, 0)),
    (get_day("20240101"), FIRST_ANSWER),
    (get_day("20240103"), day_answer("20240103", {1: "A,,,2"}, "20240104000000", events=[",B7,20240104000000,", "S,,,"])),
    (BOTH_DAYS, added(0, 96)),
]

# Everything is of the first moment that exists, and of its day. The 300 record has no update.
OF_1970 = take_in(header("197001010000"), block(next_read="19700101"), day("19700101", half_hours("1.5"), ""),
                  event("O", "", "19700101000000"), END)
FIRST_MOMENT = [
    (OF_1970, added(48, 0)),
    (GET_STREAMS, streams_answer("NEM1201009,E1,E1,1,N1,01009,19700101")),
    (get_day("19700101"), day_answer("19700101", {1: "A,,,1.5"}, "19700101000000", events=["O,,19700101000000,"])),
    (get_versions("19700101", 48), versions_answer("19700101", 48, "19700101000000,A,,,1.5")),
    (get_readings("19700101", "19710204"), readings(day_of_rows("19700101", {1: "A,,,1.5,19700101000000"}))),
    (get_missing("19700101", "19700102", "19700101"), missing("NEM1201009,E1,19700102,0,0")),
    (get_missing("19700101", "19700102", "19700102"), missing()),
    (OF_1970, added(0, 48)),
]

# Like days are copied, their means are taken, and what a job filled in is protected. A job that is repeated is known, even if its like days have
# other readings by then.
SUBSTITUTED = [
    (LIKE_DAYS, added(96, 0)),
    (fill_in("J1", "20240122", 5, 8, 15, "F", "20240123000000", code="76"), filled(4)),
    (get_day("20240122"), day_answer("20240122", {1: "N,,,", 5: "F15,76,,1.000002", 9: "N,,,"}, "20240123000000")),
    (take_in(header(), block(), day("20240115", half_hours("5"), "20240125000000"), END), added(48, 0)),
    (fill_in("J1", "20240122", 5, 8, 15, "F", "20240123000000", code="76"), filled_before(4)),
    (fill_in("J1", "20240122", 5, 8, 15, "F", "20240123000000", code="77"), refused("M4")),
    (fill_in("J2", "20240122", 5, 8, 15, "F", "20240123000000", code="76"), refused("M5", interval=5)),
    (fill_in("J3", "20240122", 9, 9, 19, "S", "20240123000000"), filled(1)),
    (fill_in("J4", "20240122", 9, 9, 19, "S", "20240123000000"), refused("M6", interval=9)),
    (fill_in("J4", "20240122", 9, 9, 14, "E", "20240124000000"), filled(1)),
    (get_versions("20240122", 9), versions_answer("20240122", 9, "20240123000000,S19,,,0", "20240124000000,E14,,,5")),
    (fill_in("J5", "20240122", 9, 8, 19, "S", "20240124000000"), refused("M11")),
    (fill_in("J5", "20240122", 1, 1, 19, "S", "20240124000000", length=15), refused("M1")),
    (fill_in("J5", "20240122", 1, 1, 19, "S", "20240124000000", unit="MWh"), refused("M2")),
    (fill_in("J5", "20240301", 1, 1, 14, "S", "20240302000000"), refused("M7")),
    (fill_in("J5", "20240210", 1, 5, 17, "S", "20240211000000"), refused("M8")),
    (fill_in("J5", "20240210", 1, 4, 17, "S", "20240211000000"), refused("M9")),
    (LIKE_DAYS, added(0, 96)),
]

# A mean half way between two millionths is rounded away from zero.
MEAN_BELOW_ZERO = [
    (take_in(header(), block(), day("20240109", ["-1.000002"] + 47 * ["0"], "20240117000000"),
             day("20240116", ["-1.000003"] + 47 * ["0"], "20240117000000"), END), added(96, 0)),
    (fill_in("J1", "20240123", 1, 1, 15, "F", "20240124000000", code="76"), filled(1)),
    (get_versions("20240123", 1), versions_answer("20240123", 1, "20240124000000,F15,76,,-1.000003")),
]

# Gaps are filled in along the line between their neighbours, also across midnight: two intervals at noon, and the end of a day.
GAP_AT_NOON = day("20240201", 23 * ["0"] + ["", ""] + 23 * ["1"], "20240202000000", "V")
INTERPOLATED = [
    (take_in(header(), block(), GAP_AT_NOON, run(1, 23, "A"), run(24, 25, "S14"), run(26, 48, "A"), END), refused("L12", line=5)),
    (take_in(header(), block(), GAP_AT_NOON, run(1, 23, "A"), run(24, 25, "N"), run(26, 48, "A"),
             day("20240202", 47 * ["0"] + [""], "20240203000000", "V"), run(1, 47, "A"), run(48, 48, "N"), END), added(96, 0)),
    (fill_in("K1", "20240201", 24, 25, 17, "S", "20240203000000"), filled(2)),
    (fill_in("K2", "20240202", 48, 48, 17, "S", "20240204000000"), refused("M9")),
    (get_day("20240201"), day_answer("20240201", {1: "A,,,0", 24: "S17,,,0.333333", 25: "S17,,,0.666667", 26: "A,,,1"},
                                    "20240203000000")),
    (take_in(header(), block(), day("20240203", half_hours("1"), "20240204000000"), END), added(48, 0)),
    (fill_in("K2", "20240202", 48, 48, 17, "S", "20240204000000"), filled(1)),
    (get_versions("20240202", 48), versions_answer("20240202", 48, "20240203000000,N,,,", "20240204000000,S17,,,0.5")),
]

# A holiday is listed once. Sundays are its like days, and it is no like day of the Fridays after it.
ON_HOLIDAYS = [
    (list_holidays("20240126"), added(1, 0)),
    (list_holidays("20240126"), added(0, 1)),
    (list_holidays("20241225", "20240126", "20241225"), added(1, 1)),
    (list_holidays(), added(0, 0)),
    (take_in(header(), block(), day("20240114", half_hours("3"), "20240120000000"),
             day("20240119", half_hours("8"), "20240120000000"), END), added(96, 0)),
    (fill_in("H1", "20240126", 1, 2, 14, "S", "20240601000000"), filled(2)),
    (get_day("20240126"), day_answer("20240126", {1: "S14,,,3", 3: "N,,,"}, "20240601000000")),
    (take_in(header(), block(), day("20240126", half_hours("4"), "20240602000000"), END), added(48, 0)),
    (fill_in("H2", "20240202", 1, 1, 14, "S", "20240601000000"), filled(1)),
    (get_versions("20240202", 1), versions_answer("20240202", 1, "20240601000000,S14,,,8")),
    (fill_in("H3", "20240301", 1, 1, 14, "S", "20240601000000"), refused("M7")),
]

# Accumulations are imported once. A file changes nothing if one of them conflicts with what is kept, or with the file.
ACCUMULATIONS = [
    (get_periods("1234567890", "11"), periods_answer("1234567890", "11")),
    (take_in_periods(HEADER_13, TO_FEBRUARY, END), added(1, 0)),
    (take_in_periods(HEADER_13, TO_FEBRUARY, END), added(0, 1)),
    (get_periods("1234567890", "11"), periods_answer("1234567890", "11", FEBRUARY_TEXTS)),
    (take_in_periods(HEADER_13, OTHER_QUANTITY, END), refused("M3", line=2)),
    (take_in_periods(HEADER_13, TO_MARCH, TO_MARCH, OTHER_QUANTITY, END), refused("M3", line=4)),
    (GET_STREAMS, streams_answer("1234567890,11,,,,,")),
    (get_periods(NMI, SUFFIX), periods_answer(NMI, SUFFIX)),
    (take_in_periods(HEADER_13, TO_MARCH, TO_FEBRUARY, TO_MARCH, END), added(1, 1)),
    (take_in_periods(header(), END), refused("L11", line=1)),
    (take_in(HEADER_13, TO_FEBRUARY, END), refused("L11", line=1)),
    (take_in_periods(HEADER_13, END), added(0, 0)),
    (get_missing("20040201", "20040201"), missing()),
    (get_readings("20040201", "20040201"), readings()),
    (FIRST, added(48, 0)),
    (get_missing("20231231", "20240101", "20240101"), missing("NEM1201009,E1,20231231,0,0")),
]

# The accumulations of a stream are ordered by register, and then by their reads, in whatever order they came. A file that conflicts with itself
# changes nothing.
DESCENDING_FILE = take_in_periods(HEADER_13, OTHER_REGISTER, TO_MARCH, TO_FEBRUARY, END)
DESCENDING = [
    (take_in_periods(HEADER_13, TO_FEBRUARY, OTHER_QUANTITY, END), refused("M3", line=4)),
    (GET_STREAMS, streams_answer()),
    (DESCENDING_FILE, added(3, 0)),
    (get_periods("1234567890", "11"), periods_answer("1234567890", "11", FEBRUARY_TEXTS, MARCH_TEXTS, REGISTER_TEXTS)),
]

# An accumulation is the same whether its record states its update or leaves it to the header, and the answer has the update. Under another
# header a record without an update states another accumulation.
UPDATE_OF_THE_HEADER_FIRST = [
    (take_in_periods(HEADER_OF_UPDATE, WITHOUT_UPDATE, END), added(1, 0)),
    (get_periods("1234567890", "11"), periods_answer("1234567890", "11", WITH_UPDATE_TEXTS)),
    (take_in_periods(HEADER_OF_UPDATE, WITH_UPDATE, END), added(0, 1)),
    (take_in_periods(HEADER_13, WITH_UPDATE, END), added(0, 1)),
    (take_in_periods(HEADER_OF_UPDATE, OTHER_WITHOUT_UPDATE, END), refused("M3", line=2)),
    (get_periods("1234567890", "11"), periods_answer("1234567890", "11", WITH_UPDATE_TEXTS)),
    (take_in_periods(HEADER_13, WITHOUT_UPDATE, END), added(1, 0)),
    (get_periods("1234567890", "11"), periods_answer("1234567890", "11", EARLIER_UPDATE_TEXTS, WITH_UPDATE_TEXTS)),
]
UPDATE_OF_THE_RECORD_FIRST = [
    (take_in_periods(HEADER_OF_UPDATE, WITH_UPDATE, END), added(1, 0)),
    (take_in_periods(HEADER_OF_UPDATE, WITHOUT_UPDATE, END), added(0, 1)),
    (take_in_periods(HEADER_OF_UPDATE, WITHOUT_UPDATE, WITH_UPDATE, END), added(0, 1)),
    (take_in_periods(HEADER_OF_UPDATE, WITH_UPDATE, OTHER_WITHOUT_UPDATE, END), refused("M3", line=3)),
    (get_periods("1234567890", "11"), periods_answer("1234567890", "11", WITH_UPDATE_TEXTS)),
]

# An export is a file that states what is current, and nothing in it is new to its store. What isn't known isn't in it.
EXPORTED = [
    (export("20240101", "20240101", "E1"), exported()),
    (FIRST, added(48, 0)),
    (export("20240101", "20240101", "E1"), EXPORTED_FIRST),
    (take_in(EXPORTED_FIRST[2]), added(0, 48)),
    (EARLIER, added(48, 0)),
    (export("20231231", "20240107", "B1", "E1", "E1"), EXPORTED_FIRST),
    (export("20240102", "20240102", "E1"), exported()),
]

# A day that a job filled in in part has gaps and finals. Its export adds null data for the readings that weren't there. No current reading
# changes.
FILLED_DAY = day_answer("20240122", {1: "N,,,", 5: "F15,76,,1.000002", 9: "N,,,"}, "20240123000000")
FILLED_GAPS = gaps("20240122,1,4", "20240122,9,48", "20240123,0,0")
FILLED_FINALS = finals("20240122,5,8,15,76,")
FILLED_ROWS = {1: "N,,,,", 5: "F15,76,,1.000002,20240123000000", 9: "N,,,,"}
EXPORTED_FILLED = exported(block(), day("20240122", 4 * ["0"] + 4 * ["1.000002"] + 40 * ["0"], "20240123000000", "V"),
                           run(1, 4, "N"), run(5, 8, "F15", "76"), run(9, 48, "N"))
EXPORTED_SUBSTITUTION = [
    (LIKE_DAYS, added(96, 0)),
    (fill_in("J1", "20240122", 5, 8, 15, "F", "20240123000000", code="76"), filled(4)),
    (get_day("20240122"), FILLED_DAY),
    (get_gaps("20240122", "20240123"), FILLED_GAPS),
    (get_finals("20240122", "20240123"), FILLED_FINALS),
    (get_readings("20240122", "20240123"), readings(day_of_rows("20240122", FILLED_ROWS))),
    (get_readings("20240115", "20240123"), readings(day_of_rows("20240115", {1: "A,,,1.000001,20240116000000"}),
                                                    day_of_rows("20240122", FILLED_ROWS))),
    (export("20240122", "20240122", "E1"), EXPORTED_FILLED),
    (take_in(EXPORTED_FILLED[2]), added(44, 4)),
    (get_readings("20240122", "20240122"), readings(day_of_rows("20240122", {
        number: reading if number == 5 else "N,,,,20240123000000" for number, reading in FILLED_ROWS.items()}))),
    (get_day("20240122"), FILLED_DAY),
    (get_gaps("20240122", "20240123"), FILLED_GAPS),
    (get_finals("20240122", "20240123"), FILLED_FINALS),
    (export("20240122", "20240122", "E1"), EXPORTED_FILLED),
]

# The days from 2 January 2023 to 5 February 2024.
DATES_OF_400 = [f"{datetime.date(2023, 1, 2) + datetime.timedelta(days):%Y%m%d}" for days in range(400)]

# A range has at most 400 days, and an export at most eight streams, each of which counts once. A range that ends before it begins has no day.
WIDE_RANGES = [
    (FIRST, added(48, 0)),
    (get_finals("20240101", "20250203"), finals()),
    (get_finals("20240101", "20250204"), refused("M12")),
    (get_gaps("20240101", "20250204"), refused("M12")),
    (get_gaps("20240101", "20240102"), gaps("20240102,0,0")),
    (get_gaps("20240102", "20240101"), gaps()),
    (get_missing("20230102", "20240205"), missing(*(f"NEM1201009,E1,{date},0,0" for date in DATES_OF_400 if date != "20240101"))),
    (get_missing("20230102", "20240206"), refused("M12")),
    (get_missing("20230102", "20240206", "20240102"), refused("M12")),
    (get_missing("20230102", "99991231", "20240101"), refused("M12")),
    (get_missing("20240102", "20240101"), missing()),
    (get_missing("99991231", "19700101"), missing()),
    (get_readings("20230102", "20240205"), ROWS_OF_FIRST),
    (get_readings("20230102", "20240206"), refused("M12")),
    (get_readings("20240101", "20250204"), refused("M12")),
    (get_readings("20240102", "20240101"), readings()),
    (export("20240101", "20250203", "E1"), EXPORTED_FIRST),
    (export("20240101", "20250204", "E1"), refused("M12")),
    (export("20240101", "20240101", "E1", "E2", "E3", "E4", "E5", "E6", "E7", "E8", "E1", "E8"), EXPORTED_FIRST),
    (export("20240101", "20240101", "E1", "E2", "E3", "E4", "E5", "E6", "E7", "E8", "E9"), refused("M12")),
    (get_day("20240101"), FIRST_ANSWER),
]

# What a file states about a day agrees with its earlier lines, or the file is refused with the first line that doesn't agree. The length comes
# first, then the unit, then the first interval with another reading.
OTHER_THIRD = ["1", "1", "2"] + 45 * ["1"]
ONES = day("20240101", half_hours("1"), "20240102000000")
CLAIMS = [
    (take_in(header(), block(), ONES, *5 * [event("O")], day("20240101", OTHER_THIRD, "20240102000000"), END),
     refused("M3", line=9, interval=3)),
    (take_in(header(), block(), ONES, block(15), day("20240101", 96 * ["1"], "20240102000000"), END), refused("M1", line=5)),
    (take_in(header(), block(), ONES, block(15, "MWh"), day("20240101", 96 * ["1"], "20240102000000"), END), refused("M1", line=5)),
    (take_in(header(), block(), ONES, block(15, "MWh"), day("20240101", 96 * ["1"], "20240103000000"), END), refused("M2", line=5)),
    (take_in(header(), block(), ONES, block(unit="MWh"), day("20240101", OTHER_THIRD, "20240102000000"), END), refused("M2", line=5)),
    (take_in(header(), block(), ONES, day("20240101", OTHER_THIRD, "20240102000000"), block(15), day("20240101", 96 * ["1"], ""), END),
     refused("M3", line=4, interval=3)),
    (get_day("20240101"), refused("M10")),
    (GET_STREAMS, streams_answer()),
    (take_in(header(), block(), ONES, day("20240101", OTHER_THIRD, "20240102000010"), END), added(96, 0)),
    (get_versions("20240101", 3), versions_answer("20240101", 3, "20240102000000,A,,,1", "20240102000010,A,,,2")),
    (get_day("20240101"), day_answer("20240101", {1: "A,,,1", 3: "A,,,2", 4: "A,,,1"}, "20240102000010")),
]

# Gaps are stretches of null readings, and a final ends where the mark changes. The second of the day's three updates is current. The first four
# of its marks are equal. After them come another method, another text, another code, and readings that aren't final.
STRETCHES = [
    (take_in(header(), block(), day("20240122", half_hours("1.5"), "19700101000010", "F04", "", 'a"b'),
             day("20240122", half_hours("1.5"), "19700101000020", "V"), run(1, 1, "F04", "", 'a"b'), run(2, 3, "F04", "", 'a"b'),
             run(4, 4, "F04", "", 'a"b'), run(5, 6, "F14", "", 'a"b'), run(7, 7, "F04", "", "ab"), run(8, 8, "F04", "7", 'a"b'),
             run(9, 9, "S14", "", 'a"b'), run(10, 10, "A", "", 'a"b'), run(11, 11, "F04", "", 'a"b'), run(12, 13, "N", "", 'a"b'),
             run(14, 48, "F04", "", 'a"b'), day("20240122", half_hours(""), "19700101000005", "N", "", 'a"b'), END), added(144, 0)),
    (get_finals("20240122", "20240122"),
     finals('20240122,1,4,04,,"a""b"', '20240122,5,6,14,,"a""b"', "20240122,7,7,04,,ab", '20240122,8,8,04,7,"a""b"',
            '20240122,11,11,04,,"a""b"', '20240122,14,48,04,,"a""b"')),
    (get_gaps("20240122", "20240122"), gaps("20240122,12,13")),
    (get_day("20240122"), day_answer("20240122", {1: 'F04,,a"b,1.5', 5: 'F14,,a"b,1.5', 7: "F04,,ab,1.5", 8: 'F04,7,a"b,1.5',
                                                 9: 'S14,,a"b,1.5', 10: 'A,,a"b,1.5', 11: 'F04,,a"b,1.5', 12: 'N,,a"b,',
                                                 14: 'F04,,a"b,1.5'}, "19700101000020")),
    (get_readings("20240122", "20240122"), readings(day_of_rows("20240122", {
        number: f"{reading},19700101000020" for number, reading in [
            (1, 'F04,,"a""b",1.5'), (5, 'F14,,"a""b",1.5'), (7, "F04,,ab,1.5"), (8, 'F04,7,"a""b",1.5'), (9, 'S14,,"a""b",1.5'),
            (10, 'A,,"a""b",1.5'), (11, 'F04,,"a""b",1.5'), (12, 'N,,"a""b",'), (14, 'F04,,"a""b",1.5')]}))),
]

# The gaps of all streams. The streams are ordered by the bytes of their NMIs, then of their suffixes, whichever came first. A stream of
# accumulations alone isn't one of them, and neither is one without a day. `since` is compared with the last known day of each stream, though the
# range has other days.
A_GAP = [day("20240102", half_hours("1"), "20240103000000"), run(11, 12, "N")]
SEVERAL_STREAMS = take_in(
    header(), block(nmi="NEM1201010"), day("20240101", half_hours("1"), "20240102000000"), block(nmi="ZEM1201009", suffix="B1"), *A_GAP,
    block(nmi="NEM1201009"), day("20240105", half_hours("1"), "20240106000000"), block(nmi="NEM1201009", suffix="B1"), *A_GAP,
    block(nmi="NEM1201011"), block(nmi="1000000000", suffix="K1"), day("20240103", half_hours(""), "20240104000000", "N"), END)
GAPS_OF_STREAMS = {
    "1000000000,K1": ["20240101,0,0", "20240102,0,0", "20240103,1,48"],
    "NEM1201009,B1": ["20240101,0,0", "20240102,11,12", "20240103,0,0"],
    "NEM1201009,E1": ["20240101,0,0", "20240102,0,0", "20240103,0,0"],
    "NEM1201010,E1": ["20240102,0,0", "20240103,0,0"],
    "ZEM1201009,B1": ["20240101,0,0", "20240102,11,12", "20240103,0,0"],
}


def gaps_of(*streams):
    """The rows of these streams from the first to the third of January."""
    return missing(*(f"{stream},{row}" for stream in streams for row in GAPS_OF_STREAMS[stream]))


ALL_STREAMS = [
    (get_missing("20240101", "20240103"), missing()),
    (get_missing("20240101", "20240103", "20240101"), missing()),
    (get_missing("20240101", "20250204"), refused("M12")),
    (SEVERAL_STREAMS, added(240, 0)),
    (take_in_periods(HEADER_13, TO_FEBRUARY, END), added(1, 0)),
    (get_missing("20240101", "20240103"), gaps_of(*GAPS_OF_STREAMS)),
    (get_missing("20240101", "20240103", "19700101"), gaps_of(*GAPS_OF_STREAMS)),
    (get_missing("20240101", "20240103", "20240101"), gaps_of(*GAPS_OF_STREAMS)),
    (get_missing("20240101", "20240103", "20240102"), gaps_of("1000000000,K1", "NEM1201009,B1", "NEM1201009,E1", "ZEM1201009,B1")),
    (get_missing("20240101", "20240103", "20240103"), gaps_of("1000000000,K1", "NEM1201009,E1")),
    (get_missing("20240101", "20240103", "20240104"), gaps_of("NEM1201009,E1")),
    (get_missing("20240101", "20240103", "20240105"), gaps_of("NEM1201009,E1")),
    (get_missing("20240101", "20240103", "20240106"), missing()),
    (get_missing("20240101", "20240103", "99991231"), missing()),
    (get_missing("20240102", "20240102"), missing("1000000000,K1,20240102,0,0", "NEM1201009,B1,20240102,11,12", "NEM1201009,E1,20240102,0,0",
                                                  "NEM1201010,E1,20240102,0,0", "ZEM1201009,B1,20240102,11,12")),
    (get_missing("20240103", "20240101"), missing()),
    # A job adds a day that is the last one of its stream from then on.
    (fill_in("J1", "20240107", 1, 48, 19, "F", "20240108000000", nmi="NEM1201010"), filled(48)),
    (get_missing("20240107", "20240107", "20240106"), missing()),
    (get_missing("20240106", "20240107", "20240106"), missing("NEM1201010,E1,20240106,0,0")),
    (get_readings("20240101", "20240103"), readings()),
    (get_readings("20240105", "20240107"), readings(day_of_rows("20240105", {1: "A,,,1,20240106000000"}))),
]

# A range of days of several lengths and units. The length of a day is that of its latest update.
SEVERAL_LENGTHS = [
    (take_in(header(), block(5), day("20240101", QUARTERS_OF_ONE, "20240102000000"), block(15, "MWh"),
             day("20240103", 96 * ["0.000001"], "20240104000000", "S52", "1", "x"), block(30), day("20240104", half_hours("-1"), "20240105000000"),
             END), added(432, 0)),
    (get_readings("20231231", "20240104"), readings(
        day_of_rows("20240101", {1: "A,,,0.25,20240102000000"}, 5), day_of_rows("20240103", {1: "S52,1,x,0.000001,20240104000000"}, 15, "MWh"),
        day_of_rows("20240104", {1: "A,,,-1,20240105000000"}))),
    # Another length comes under an earlier update, and then under a later one.
    (take_in(header(), block(15), day("20240104", 96 * ["2"], "20240104120000"), END), added(96, 0)),
    (get_readings("20240104", "20240104"), readings(day_of_rows("20240104", {1: "A,,,-1,20240105000000"}))),
    (take_in(header(), block(15), day("20240104", 96 * ["3"], "20240106000000"), END), added(96, 0)),
    (get_readings("20240104", "20240104"), readings(day_of_rows("20240104", {1: "A,,,3,20240106000000"}, 15))),
    # A job fills in intervals that are null under the latest update. Each interval has its own update then.
    (take_in(header(), block(30), day("20240105", half_hours("1"), "20240106000000"), run(47, 48, "N"), END), added(48, 0)),
    (fill_in("J1", "20240105", 48, 48, 19, "F", "20240107000000", code="76", text="no signal"), filled(1)),
    (get_readings("20240105", "20240105"), readings(day_of_rows("20240105", {
        1: "A,,,1,20240106000000", 47: "N,,,,20240106000000", 48: "F19,76,no signal,0,20240107000000"}))),
]

# The answers about the first file if its last interval has no version. The file is imported again to add it.
WITHOUT_LAST = [
    (get_versions("20240101", 47), versions_answer("20240101", 47, "20240102010203,A,,,1.5")),
    (get_versions("20240101", 48), versions_answer("20240101", 48)),
    (get_day("20240101"), day_answer("20240101", {1: "A,,,1.5", 48: "N,,,"}, "20240102010203")),
    (get_gaps("20240101", "20240101"), gaps("20240101,48,48")),
    (get_readings("20240101", "20240101"), readings(day_of_rows("20240101", {1: "A,,,1.5,20240102010203", 48: "N,,,,"}))),
    (FIRST, added(1, 47)),
    (get_day("20240101"), FIRST_ANSWER),
    (get_readings("20240101", "20240101"), ROWS_OF_FIRST),
]

EXAMPLES = {
    "a file is taken in": TAKEN_IN,
    "a day of 5 minutes": DAY_OF_FIVE_MINUTES,
    "the latest update": LATEST_UPDATE,
    "conflicts": CONFLICTS,
    "what comes twice": TWICE,
    "the latest details": LATEST_DETAILS,
    "an exchange of meters": EXCHANGE,
    "the latest details of a day": LATEST_OF_A_DAY,
    "an exchange exported again": EXPORTED_AGAIN,
    "an exchange exported to another store": EXPORTED_TO_ANOTHER,
    "details out of order": OUT_OF_ORDER,
    "streams without days": WITHOUT_DAYS,
    "details of the nearest earlier day": NEVER_LATER,
    "details of jobs": OF_JOBS_ALONE,
    "details of refused files": NO_DETAILS_LEFT,
    "marks": MARKS,
    "two updates": TWO_UPDATES,
    "another length": ANOTHER_LENGTH,
    "an earlier length": AN_EARLIER_LENGTH,
    "two lengths in one file": IN_ONE_FILE,
    "a job of 5 minutes": A_JOB_OF_FIVE_MINUTES,
    "two days": TWO_DAYS,
    "the first moment": FIRST_MOMENT,
    "substitution": SUBSTITUTED,
    "a mean below zero": MEAN_BELOW_ZERO,
    "interpolation": INTERPOLATED,
    "holidays": ON_HOLIDAYS,
    "accumulations": ACCUMULATIONS,
    "an update of the header, and then of the record": UPDATE_OF_THE_HEADER_FIRST,
    "an update of the record, and then of the header": UPDATE_OF_THE_RECORD_FIRST,
    "accumulations in descending order": DESCENDING,
    "exports": EXPORTED,
    "an export of a substitution": EXPORTED_SUBSTITUTION,
    "wide ranges": WIDE_RANGES,
    "claims of a day": CLAIMS,
    "stretches": STRETCHES,
    "the first rows": FIRST_ROWS,
    "all streams": ALL_STREAMS,
    "several lengths": SEVERAL_LENGTHS,
}
