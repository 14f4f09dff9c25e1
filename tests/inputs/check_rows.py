"""Small NEM12 files, good ones and faulty ones, with what `mdstore check` prints for each: for tests/check and tests/pieces."""

from inputs.file_parts import END, HEADER, record_300

# Parts of files.

BLOCK = "200,NEM1201009,E1,1,E1,N1,01009,kWh,30,\n"
BLOCK_15 = "200,NEM1201009,,,E1,,,kWh,15\n"
BLOCK_5 = "200,NEM1201009,,,E1,,,kWh,5\n"
START = HEADER + BLOCK
# How a 300 can end: with quality A and an update, or with quality V.
ACTUAL = "A,,,20240102010203,"
VARIABLE = "V"


def values(value, count=48):
    """A list of `count` times one value."""
    return count * [value]


def day(end, value="1.5", date="20240101"):
    """A 300 with 48 times one value."""
    return record_300(date, values(value), end)


def day_5(end, first="1.5", value="1.5"):
    """A 300 of 5 minutes: one value, and then 287 times another."""
    return record_300("20240101", [first, *values(value, 287)], end)


def day_with(first, value, end):
    """A 300 with one value, and then 47 times another."""
    return record_300("20240101", [first, *values(value, 47)], end)


def line(date="20240101", count=48, total="72"):
    """What is printed for a day."""
    return f"NEM1201009 E1 {date} {count} {total} kWh\n"


GOOD = [
    (START + day(ACTUAL) + END, line()),
    (HEADER + "\n" + BLOCK.replace("\n", "\n\r\n") + day("A\r") + "\n900,,", line()),
    ("100,NEM12,20240103000000\n200,NEM1201010,,,B2,,,KVARH,30\n" + day(ACTUAL, "-.000001", "20240229") + END,
     "NEM1201010 B2 20240229 48 -0.000048 kVArh\n"),
    (START + day(ACTUAL) + "200,1234567890,,,11,,,pf,30\n" + day(ACTUAL, "999999999999.999999", "20240102") + END,
     line() + "1234567890 11 20240102 48 47999999999999.999952 pf\n"),
    (HEADER + END, ""),
    (HEADER + BLOCK + BLOCK + END, ""),
    (HEADER + BLOCK_15 + record_300("20240101", values("1.5") + values(".5"), ACTUAL) + END, line(count=96, total="96")),
    (HEADER + BLOCK_5 + day_5(ACTUAL) + END, line(count=288, total="432")),
    (HEADER + BLOCK_5.replace(",5\n", ",05\n") + day_5("N", "", "") + END, line(count=0, total="0")),
    (HEADER + BLOCK_5 + day_5(VARIABLE, "1", "1") + "400,1,287,A\n400,288,288,E52\n" + END, line(count=288, total="288")),
    (HEADER + BLOCK_5 + BLOCK + day(ACTUAL) + END, line()),
]

# Good files with qualities, runs and events.
RUNS = [
    (START + day("F14,76,checked,,") + END, line()),
    (START + day("E52,076,café") + END, line()),
    (START + day("N", "") + END, line(count=0, total="0")),
    (START + day("N") + END, line(count=0, total="0")),
    (START + day(VARIABLE) + "400,1,20,F14,76,\n400,21,24,A,,\n400,25,48,S14,76,\n" + END, line()),
    (START + day(VARIABLE) + "400,1,48,A,,,,\n" + END, line()),
    (START + day(VARIABLE) + "\n400,0001,0048,A\n\r\n" + END, line()),
    (START + day(ACTUAL) + "400,3,4,F14,,late\n400,48,48,S14\n" + END, line()),
    (START + day(ACTUAL) + "400,3,4,N,,\n" + END, line(count=46, total="69")),
    (START + day("N") + "400,1,2,S14,,\n" + END, line(count=2, total="3")),
    (START + day_with("", "1.5", VARIABLE) + "400,1,1,N\n400,2,48,A\n" + END, line(count=47, total="70.5")),
    (START + day_with("", "1.5", "N") + "400,2,48,A\n" + END, line(count=47, total="70.5")),
    (START + day(VARIABLE) + "400,1,48,A\n" + day(VARIABLE, date="20240102") + "400,1,47,A\n400,48,48,N\n" + END,
     line() + line("20240102", 47, "70.5")),
    (START + day(ACTUAL) + "500,O,S1,20240102010203,12.5\n500\n" + END, line()),
    (START + day(VARIABLE) + "400,1,48,A\n500,A\n" + day(ACTUAL, "1", "20240102") + "500,,,,,,\n" + BLOCK + END,
     line() + line("20240102", 48, "48")),
]

# Lines that are no records, or are out of place.
PLACES = [
    (b"\xff", "L1 line 1\n"),
    ((START + day(VARIABLE) + "400,1,47,A,,caf").encode() + b"\xc3\n", "L1 line 4\n"),
    (HEADER + "\n\r\r\n", "L2 line 3\n"),
    (HEADER + '\n"100"\n', "L2 line 3\n"),
    (START + day(VARIABLE) + "401\n", "L2 line 4\n"),
    (END, "L3 line 1\n"),
    ("400\n", "L3 line 1\n"),
    (HEADER + BLOCK + HEADER + END, "L3 line 3\n"),
    (HEADER + day(ACTUAL) + END, "L3 line 2\n"),
    (START + day(ACTUAL) + END + END, "L3 line 5\n"),
    (START + "400,1,2,A\n", "L3 line 3\n"),
    (START + "500\n", "L3 line 3\n"),
    (START + day(ACTUAL) + "500\n400,1,2,A\n", "L3 line 5\n"),
    (START + day(ACTUAL) + BLOCK + "500\n", "L3 line 5\n"),
    (HEADER + "250,NEM1201009\n", "L3 line 2\n"),
    (START + day(VARIABLE) + "550,N\n", "L3 line 4\n"),
    (HEADER + "100,NEM13\n", "L3 line 2\n"),
    (START + day(VARIABLE) + HEADER, "L3 line 4\n"),
    ("100,NEM13,x\n", "L11 line 1\n"),
]

# Records with too few fields, or with too many.
COUNTS = [
    ("100\n", "L4 line 1\n"),
    (HEADER + "200,NEM1201009,,,E1,,,kWh,15,,x\n", "L4 line 2\n"),
    (START + day("A,76,,,,x"), "L4 line 3\n"),
    (START + record_300("20240101", values("1.5")), "L4 line 3\n"),
    (HEADER + BLOCK_5 + record_300("20240101", values("1.5", 287), "A"), "L4 line 3\n"),
    (START + day(ACTUAL) + "400,1,2\n", "L4 line 4\n"),
    (START + day(ACTUAL) + "400,1,2,A,,,x\n", "L4 line 4\n"),
    (START + day(ACTUAL) + "500,,,,,x\n", "L4 line 4\n"),
    (HEADER + "900,x\n", "L4 line 2\n"),
]

# Records with faulty fields.
FIELDS = [
    ("100,NEM12,x\n", "L5 line 1 field 3\n"),
    (HEADER + "200,nem1201009,,,E1,,,kWh,15\n", "L5 line 2 field 2\n"),
    (HEADER + "200,NEM1201009,,,E1,,,kWh,10\n", "L5 line 2 field 9\n"),
    (HEADER + "200,NEM1201009,,,E1,,,kWh,05,x\n", "L5 line 2 field 10\n"),
    (START + day(ACTUAL, date="20240230"), "L5 line 3 field 2\n"),
    (START + day(ACTUAL, "0.0000001"), "L5 line 3 field 3\n"),
    (START + day(ACTUAL, "1000000000000"), "L5 line 3 field 3\n"),
    (START + day("E52,,,,", ""), "L5 line 3 field 3\n"),
    (START + record_300("20240101", [*values("1.5", 47), ""], "A"), "L5 line 3 field 50\n"),
    (HEADER + BLOCK_5 + record_300("20240101", values("1.5", 287), ACTUAL), "L5 line 3 field 290\n"),
    (START + day("a,,,,", ""), "L5 line 3 field 51\n"),
    (START + day("V14"), "L5 line 3 field 51\n"),
    (START + day("E52,7x,,,"), "L5 line 3 field 52\n"),
    (START + day("A,,\x7f"), "L5 line 3 field 53\n"),
    (START + day("A,,late,x,"), "L5 line 3 field 54\n"),
    (START + day("A,,,,20240102010260"), "L5 line 3 field 55\n"),
    (START + day(ACTUAL) + "400,,2,A\n", "L5 line 4 field 2\n"),
    (START + day(ACTUAL) + "400,1,00002,A\n", "L5 line 4 field 3\n"),
    (START + day(ACTUAL) + "400,1,2,V\n", "L5 line 4 field 4\n"),
    (START + day(ACTUAL) + "400,1,2,A,1000\n", "L5 line 4 field 5\n"),
    (START + day(ACTUAL) + "500,o\n", "L5 line 4 field 2\n"),
    (START + day(ACTUAL) + "500,O,,20240102\n", "L5 line 4 field 4\n"),
]

# Faulty runs, and files in which a line is missing.
RUN_FAULTS = [
    (START + day("V,,,,", "") + END, "L8 line 4\n"),
    (START + day(VARIABLE) + "400,1,20,F14,76,\n400,22,48,A,,\n" + END, "L8 line 6\n"),
    (START + day(VARIABLE) + "400,2,48,A\n" + BLOCK, "L8 line 5\n"),
    (START + day(VARIABLE) + "400,1,47,A\n500,oo\n", "L8 line 5\n"),
    (START + day(VARIABLE) + "300\n", "L8 line 4\n"),
    (START + day(VARIABLE) + "400,1,47,A\n", "L8 line 5\n"),
    (HEADER + BLOCK_5 + day_5(VARIABLE, "1", "1") + "400,1,287,A\n200\n", "L8 line 5\n"),
    ("", "L9 line 1\n"),
    (START + day(ACTUAL), "L9 line 4\n"),
    (START + day(VARIABLE) + "400,1,48,A\n500\n\n", "L9 line 7\n"),
    (START + day(ACTUAL) + "400,47,49,A,,\n", "L6 line 4\n"),
    (START + day(ACTUAL) + "400,0,1,A\n", "L6 line 4\n"),
    (START + day(ACTUAL) + "400,3,4,A\n400,2,1,A\n", "L6 line 5\n"),
    (START + day("N", "") + "400,49,49,A\n", "L6 line 4\n"),
    (START + day(VARIABLE) + "400,1,20,F14,76,\n400,20,48,A,,\n", "L7 line 5\n"),
    (START + day("N", "") + "400,1,1,N\n400,1,1,A\n", "L7 line 5\n"),
    (START + day("N", "") + "400,1,23,N\n400,24,25,S14,,\n", "L12 line 5\n"),
    (START + day_with("", "1.5", VARIABLE) + "400,1,48,A\n", "L12 line 4\n"),
    (START + record_300("20240101", [*values("1.5", 47), ""], "V") + "400,1,47,A\n400,48,48,E52\n", "L12 line 5\n"),
]

def long_day(size, letters):
    """A day of 5 minutes with a run for each interval. Zeros before its last value make the 300 `size` bytes long, and each reason has `letters`
    letters."""
    plain = record_300("20240101", values("1.5", 288), "V")
    last = "0" * (size + 1 - len(plain)) + "1.5"
    record = record_300("20240101", [*values("1.5", 287), last], "V")
    runs = [f"400,{k},{k},F14,76," + "é" * letters + "\n" for k in range(1, 289)]
    return (HEADER + BLOCK_5 + record + "".join(runs) + END).encode()


# A good file whose last line has no line feed. Each beginning of it is faulty, and the one that ends after its second run is L8.
UNENDED = (START + day("V,,,20240102010203,") + "400,1,20,F14,76,\n400,21,24,A,,\n400,25,48,S14,76,\n900").encode()
AFTER_SECOND_RUN = UNENDED.index(b"400,25"), "L8 line 6\n"


TABLES = {"good": GOOD, "runs": RUNS, "places": PLACES, "counts": COUNTS, "fields": FIELDS, "faults": RUN_FAULTS}


def rows_in_turn():
    """For each row: its name and number, its file, and what is printed for the file."""
    for name, rows in TABLES.items():
        for number, (file, printed) in enumerate(rows, 1):
            yield f"{name}, row {number}", file if isinstance(file, bytes) else file.encode(), printed
