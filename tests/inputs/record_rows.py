"""Records, files and lists, and what is printed and answered for them."""

from inputs.file_parts import *

# The first line of a file, and its fault.
KINDS = [
    (b"100,\n", "L4 line 1\n"), (b"200,a\n", "L3 line 1\n"), (b"300\n", "L3 line 1\n"), (b"400,1,2\n", "L3 line 1\n"),
    (b"900\r\n", "L3 line 1\n"), (b"1000\n", "L2 line 1\n"), (b" 100\n", "L2 line 1\n"), (b"4,a,\xc3\n", "L1 line 1\n"),
    # an empty line has no kind, and neither has a file without lines
    (b"\n", "L9 line 2\n"), (b"\r\n", "L9 line 2\n"), (b"", "L9 line 1\n"),
    # a line ends at a line feed, and one carriage return before it isn't part of the line
    (b"a\nb\r\n", "L2 line 1\n"), (b"\n200\r\n", "L3 line 2\n"), (b"\r\r\n", "L2 line 1\n"), (b"300\rx\r\r\n", "L2 line 1\n"),
    # a quotation mark is a plain character
    (b'100,NEM12,202401030000,"a,b"\n900', ""), (b'100,NEM12,202401030000,"a,,b"\n900', "L4 line 1\n"),
]

# What has to come before a record of each kind but 100.
BEFORE = {"200": HEADER, "400": HEADER + block() + day(), "500": HEADER + block() + day(), "900": HEADER}

# Records that come after these, with the faults of their lines. `None` means no fault.
RECORDS = [
    ("100,NEM12,202401030405,ACME,,,", None),
    ("100,NEM13", "L11"),
    ("100,NEM14,202401030000", "L5 field 2"),
    ("100,NEM12,20240103000", "L5 field 3"),
    ("100,NEM12,202401030000,,é", "L5 field 5"),
    ("100,NEM12,20240103000,,,x", "L4"),
    ("200,NEM1201009,E1,1,E1,N1,01009,kWh,30", None),
    ("200,NEM1201009,E1Q1,1,E1,N1,01009,KWH,05,20240229", None),
    ("200,NEM1201009,E1,1,E1,N1,01009,kWh", "L4"),
    ("200,NEM120100,E1,1,E1,N1,01009,kWx,30,", "L5 field 2"),
    ("200,NEM1201009,E1,1,E1,N1,01009,kWh,10,", "L5 field 9"),
    ("200,NEM1201009,,,E1,,,kWh,15,20230229", "L5 field 10"),
    ("400,1,48,A", None),
    ("400,1,0020,F14,076,meter changed", None),
    ("400,1,00048,A", "L5 field 3"),
    ("400,1,48,V", "L5 field 4"),
    ("400,1,48,F,1000,\x7f", "L5 field 4"),
    ("400,1,48,N,1000,\x7f", "L5 field 5"),
    ("400,1,48,N,,\x7f,,", "L5 field 6"),
    ("500", None),
    ("500,,,,15,,", None),
    ("500,O,S 1,20240102030405,15.5", None),
    ("500,OS,,2024010203040", "L5 field 2"),
    ("500,,é,2024010203040", "L5 field 3"),
    ("500,,,2024010203040,é", "L5 field 4"),
    ("500,,,,é", "L5 field 5"),
    ("500,o,,,,x", "L4"),
    ("900", None),
    ("900,,x", "L4"),
]

# 300 records: the minutes of an interval, the date, the fifth value (the others are 1.5), what comes after the values, and the fault of the
# line, or how many values the day has and their sum.
DAY_RECORDS = [
    ("15", "20240101", "-1", "S14,9,,20240102010203,20240103040506", "96 141.5"),
    ("30", "20240229", "1", "A,,,,,,", "48 71.5"),
    ("30", "20240229", "", "N,076,é", "0 0"),
    ("30", "20240229", "", "V\n400,1,4,A\n400,5,5,N\n400,6,48,A", "47 70.5"),
    ("30", "20240229", "1e3", "A", "L5 field 7"),
    ("30", "20240229", "", "A", "L5 field 7"),
    ("30", "20240229", "", "E52", "L5 field 7"),
    ("30", "20240229", "", "E5", "L5 field 51"),
    ("30", "20240229", "1", "A,7x,\x7f,2024010201020", "L5 field 52"),
    ("30", "20240229", "1", "A,,\x7f,2024010201020", "L5 field 53"),
    ("30", "20240229", "1", "A,,,2024010201020", "L5 field 54"),
    ("30", "20240229", "1", "A,,,,20240103040560", "L5 field 55"),
    ("30", "20240229", "x", "A,,,,,x", "L4"),
    ("5", "20240230", "x", "A", "L5 field 2"),
]

# 250 records with one faulty field, by its number.
BAD_PERIOD_FIELDS = [
    (2, "123456789"), (3, "é"), (4, "é"), (5, ""), (6, "é"), (7, "é"), (8, "i"), (8, ""), (9, "\x7f"), (10, "200310011032"), (10, ""),
    (11, "V"), (12, "1000"), (13, "\x7f"), (14, "é"), (15, "20040230100030"), (16, ""), (16, "V"), (17, "x"), (18, "\x7f"), (19, ""),
    (19, "1e3"), (20, "kWx"), (21, "20040532"), (22, "20040202245010"), (23, "2004020300013"),
]

# The fields of a 250 that can be empty.
FREE_PERIOD_FIELDS = [3, 4, 6, 7, 9, 11, 12, 13, 14, 17, 18, 21, 22, 23]

# 250 records that end early, and 550 records after a good 250: the faults of their lines, or how the quantity of the 250 is printed.
EARLY_PERIODS = [
    ("250,1234567890,1141,01,11,11,METSER66,E,,20031001103230,,,,,20040201100030,N,,,-1,W", "-1 W"),
    ("250,1234567890,1141,01,11,11,METSER66,I,,20031001103230,,,,,20040201100030,N,,,1,W,,,,,", "1 W"),
    ("250,1234567890,1141,01,11,11,METSER66,E,,20031001103230,,,,,20040201100030,N,,,1", "L4"),
    ("250,1234567890,1141,01,11,11,METSER66,E,,20031001103230,x,,,,x,x,,,1", "L4"),
    ("250,1234567890,1141,01,11,11,METSER66,E,,20031001103230,,,,,20040201100030,N,,,1,W,,,,x", "L4"),
    ("550", "343.5 kWh"), ("550,N,,A,,,", "343.5 kWh"), ("550,n", "L5 field 2"), ("550,N,é,AB", "L5 field 3"), ("550,,,AB", "L5 field 4"),
    ("550,,,,é", "L5 field 5"), ("550,n,,,,x", "L4"),
]

# Days whose values are the numbers of their intervals, except one that is empty: its number, what comes after the values, the runs, the first
# five readings, how many readings have a value, and their sum.
DAYS_OF_NUMBERS = [
    # an interval without a run has the day's own mark
    (0, "E52,76,", [], ["E52,76,,1", "E52,76,,2", "E52,76,,3", "E52,76,,4", "E52,76,,5"], "48 1176"),
    (0, "E52", ["2,3,A,,x"], ["E52,,,1", "A,,x,2", "A,,x,3", "E52,,,4", "E52,,,5"], "48 1176"),
    # a variable day has only the marks of its runs
    (0, "V", ["1,1,F14,76", "2,4,A", "5,48,S14"], ["F14,76,,1", "A,,,2", "A,,,3", "A,,,4", "S14,,,5"], "48 1176"),
    # an interval of quality N has no value, even if a number is written there
    (4, "N,76,x", [], 5 * ["N,76,x,"], "0 0"),
    (4, "N", ["2,3,A"], ["N,,,", "A,,,2", "A,,,3", "N,,,", "N,,,"], "2 5"),
    (4, "V", ["1,2,A", "3,4,N", "5,48,A"], ["A,,,1", "A,,,2", "N,,,", "N,,,", "A,,,5"], "46 1169"),
]

# The runs of a variable day whose seventh value is empty, and the fault of the last one, or of the line after it.
REFUSED_RUNS = [
    (["1,49,A"], "L6"), (["5,4,A"], "L6"), (["1,7,A"], "L12"), (["1,6,A", "6,8,A"], "L7"), (["1,6,A", "6,49,A"], "L6"),
    (["1,6,A", "7,48,A"], "L12"), (["1,6,A", "7,7,N", "9,48,A"], "L8"),
    (["0,20,F14"], "L6"), (["21,20,F14"], "L6"), (["1,6,F14", "1,1,F14"], "L7"), (["1,6,F14", "49,49,F14"], "L6"), (["1,6,F14"], "L8"),
    (["1,6,F14", "7,7,N"], "L8"),
]

# The mark of a 300, the runs after it, the flags of its intervals, and the runs that an export writes for them.
COVERS = [
    ("V,", ["1,20,F14,76,", "21,24,A,,", "25,48,S14,76,"], 20 * "F" + 4 * "A" + 24 * "S", ["1,20,F14,76,", "21,24,A,,", "25,48,S14,76,"]),
    ("A,", ["1,20,F14,76,", "47,48,F14,76,"], 20 * "F" + 26 * "A" + 2 * "F", ["1,20,F14,76,", "21,46,A,,", "47,48,F14,76,"]),
    ("S14,76", ["1,20,F14,76,", "21,30,S14,76,"], 20 * "F" + 28 * "S", ["1,20,F14,76,", "21,48,S14,76,"]),
]

VALUES = 48 * ["1"]

# NEM12 files, and the days that they state: suffix, date, update, unit, the readings that differ from those of the interval before, and events.
DELIVERIES = [
    (file_of(), []),
    # a day of variable quality, with runs and events
    (file_of(block(), record_300("20240101", VALUES, "V,,,20240102010203,"), "400,1,20,F14,76,\n400,21,24,A,,\n400,25,48,S14,76,\n",
             "500,O,S1,20240102000000,15.5\n500,N\n"),
     [("E1", "20240101", "20240102010203", "kWh", {1: "F14,76,,1", 21: "A,,,1", 25: "S14,76,,1"},
       [["N", "", "", ""], ["O", "S1", "20240102000000", "15.5"]])]),
    # without an update; two blocks; an empty line
    (file_of(block(), record_300("20240101", VALUES, "A"), "\n", record_300("20240102", VALUES, "E52,76,"), "500,,,,7\n", block(),
             "200,NEM1201009,E1,2,B1,,,KVARH,30,20240201\r\n", record_300("20240101", VALUES, "A,,,20240104000000")),
     [("E1", "20240101", "20240103000000", "kWh", {1: "A,,,1"}, []),
      ("E1", "20240102", "20240103000000", "kWh", {1: "E52,76,,1"}, [["", "", "", "7"]]),
      ("B1", "20240101", "20240104000000", "kVArh", {1: "A,,,1"}, [])]),
    # a run of quality N: what is written there is no value
    (file_of(block(), record_300("20240101", VALUES, "E52,76,"), "400,2,3,N,,\n"),
     [("E1", "20240101", "20240103000000", "kWh", {1: "E52,76,,1", 2: "N,,,", 4: "E52,76,,1"}, [])]),
]

# The lines of the days of the third file.
LINES_OF_DAYS = [3, 5, 9]

# NEM12 files, and their faults.
BAD_FILES = [
    (HEADER + block() + record_300("20240101", VALUES, "V") + "400,1,20,A,,\n900\n", "L8 line 5\n"),
    (HEADER + block() + record_300("20240230", VALUES, "A") + "900\n", "L5 line 3 field 2\n"),
    (HEADER + block() + "500\n900\n", "L3 line 3\n"),
    (HEADER + block(), "L9 line 3\n"),
]

# The fields of a good 250 as they are kept.
FIELDS_OF_PERIOD = ["1141", "01", "11", "11", "METSER66", "E", "000021.2", "20031001103230", "A", "", "",
                    "000534.5", "20040201100030", "E64", "77", "", "343.5", "kWh", "20040509", "20040202125010"]
# A 250 with texts that can be written in several ways, and its fields as they are kept. Its update is the moment of its file.
OTHER_PERIOD = "250,1234567890,,,11,,,I,,20031001103230,,007,,,20040201100030,F05,,read late,-00.50,KWH\n"
OTHER_FIELDS = ["", "", "11", "", "", "I", "", "20031001103230", "", "7", "",
                "", "20040201100030", "F05", "", "read late", "-0.5", "kWh", "", "20040101123400"]

# NEM13 files, what is printed for them, and the accumulations of 1234567890 and 11 that they state, by register, with their notes.
ACCUMULATIONS = [
    (PERIOD_HEADER + END, "", []),
    (PERIOD_HEADER + period() + "550,N,,A,\n" + END, "1234567890 11 20031001103230 20040201100030 343.5 kWh\n",
     [{"fields": FIELDS_OF_PERIOD, "notes": [["N", "", "A", ""]]}]),
    (PERIOD_HEADER + period() + "550,N,,A,\n\n550,,B7,,B8\n" + OTHER_PERIOD + END,
     "1234567890 11 20031001103230 20040201100030 343.5 kWh\n1234567890 11 20031001103230 20040201100030 -0.5 kWh\n",
     [{"fields": OTHER_FIELDS, "notes": []}, {"fields": FIELDS_OF_PERIOD, "notes": [["N", "", "A", ""], ["", "B7", "", "B8"]]}]),
]
# The lines of the two accumulations of the last file.
LINES_OF_PERIODS = [2, 6]

# NEM13 files, and their faults.
BAD_PERIOD_FILES = [
    ("", "L9 line 1\n"),
    (PERIOD_HEADER + period(), "L9 line 3\n"),
    (PERIOD_HEADER + "7\n900\n", "L2 line 2\n"),
    (END, "L3 line 1\n"),
    (PERIOD_HEADER + "550\n900\n", "L3 line 2\n"),
    (PERIOD_HEADER + END + period(), "L3 line 3\n"),
    (PERIOD_HEADER + "300,20240101\n900\n", "L3 line 2\n"),
    ("100,NEM12,200401011234\n900\n", "L11 line 1\n"),
    ("100,NEM14,200401011234\n900\n", "L5 line 1 field 2\n"),
    (PERIOD_HEADER + "250,1234567890,,\n900\n", "L4 line 2\n"),
    (PERIOD_HEADER + period() + "\n550,1\n900\n", "L5 line 4 field 2\n"),
    (PERIOD_HEADER + period() + "550,,,,,1\n900\n", "L4 line 3\n"),
]

# Lists of holidays, and their days.
HOLIDAYS = [
    ("date\n20240126\n", ["20240126"]),
    ("date\r\n20240126\r\n", ["20240126"]),
    ("\ufeffdate\n20240126", ["20240126"]),
    ('"date"\n"20240126"\n', ["20240126"]),
    ("date\n20240126\n20240126\n", ["20240126"]),
    ("\n\ndate\n\n20240126\n\n\n19700101\n99991231\n", ["19700101", "20240126", "99991231"]),
    ("date", []),
]

# Texts that are no such list, and the first row that differs.
BAD_HOLIDAYS = [
    (b"", 1), (b"\n\r\n", 1), (b"20240126\n", 1), (b"Date\n20240126\n", 1), (b"date,name\n20240126\n", 1), (b"date,\n", 1), (b" date\n", 1),
    (b"date\n20240230\n", 2), (b"date\n19691231\n", 2), (b"date\n2024-01-26\n", 2), (b"date\n\n20240126\n\n2024012x\n", 3),
    (b"date\n20240126\n20240127,Saturday\n", 3), (b"date\n20240126\ndate\n", 3), (b'date\n"20240126\n', 2),
    (b"date\n\xff\xfe\n20240126\n", 2),
]


def exported(*records):
    """The export of these records. Its lines end with CR LF."""
    return file_of(*records, header="100,NEM12,202401040000,MDP1,RETAILER\n").replace("\n", "\r\n")


# Files, and the export of what they state about NEM1201009 and E1.
EXPORTS = [
    # a day of one mark
    (file_of(block(), day(values=48 * ["1.50"])), exported(block(), day(values=48 * ["1.5"]))),
    # a day of three stretches
    (file_of(block(), day(values=4 * [""] + 4 * ["1.000002"] + 40 * [""], quality="N", update="20240123000000"), "400,5,8,F15,76,\n"),
     exported(block(), day(values=4 * ["0"] + 4 * ["1.000002"] + 40 * ["0"], quality="V", update="20240123000000"),
              "400,1,4,N,,\n400,5,8,F15,76,\n400,9,48,N,,\n")),
    # a 200 is written where the length is new, and before no other day but the first
    (file_of(block(), day(values=48 * ["2"]), block(), day("20240102", 48 * ["2"]), block(length="5"), day("20240105", 288 * ["2"]),
             block(), day("20240106", 48 * ["2"])),
     exported(block(), day(values=48 * ["2"]), day("20240102", 48 * ["2"]), block(length="5"), day("20240105", 288 * ["2"]),
              block(), day("20240106", 48 * ["2"]))),
]
