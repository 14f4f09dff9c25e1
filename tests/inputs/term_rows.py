"""Texts of terms, records and lists, and what each is read as. `None` means that the text isn't one."""

# Quantities: a value field, and the sum of a day that has it once.
QUANTITIES = [
    ("007.250000000", "7.25"), (".5", "0.5"), ("5.", "5"), ("-0", "0"), ("-1.5", "-1.5"), ("1.5", "1.5"), ("0.000001", "0.000001"),
    ("-0.000001", "-0.000001"), ("10.010", "10.01"), ("-100", "-100"), ("000000000000000000000000001", "1"),
    ("12345678.123456", "12345678.123456"), ("-123456789012.123456", "-123456789012.123456"),
    ("999999999999.999999", "999999999999.999999"), ("-999999999999.999999", "-999999999999.999999"),
    # of another form
    ("", None), (".", None), ("-", None), ("-.", None), ("--1", None), ("+1", None), (" 1", None), ("1e3", None), ("1.2.3", None),
    ("-1.2.3", None), ("1.2-", None), ("1x000000000000000", None), ("1000000000000.0000001x", None),
    # with a seventh decimal, and too large
    ("0.0000001", None), ("-1.1234567", None), ("1000000000000.0000001", None), ("1000000000000", None), ("1234567890123", None),
    ("-1000000000000.000000", None), ("99999999999999999999999999999999", None),
]

# Values of a day of 5 minutes, and their sum.
SUMS = [
    (288 * ["999999999999.999999"], "287999999999999.999712"),
    (288 * ["-999999999999.999999"], "-287999999999999.999712"),
    (288 * ["0"], "0"),
    (287 * ["0"] + ["-0.000001"], "-0.000001"),
]

# The values of one interval on the like days, nearest first, and their mean.
MEANS = [
    (["1.000001", "1.000002"], "1.000002"),
    (["-1.000002", "-1.000003"], "-1.000003"),
    (["-1.000002", "-1.000003", "-1.000002", "-1.000003"], "-1.000003"),
    (["1.000002", "1.000002", "1.000002", "1.000003"], "1.000002"),
    (["1.000002", "1.000003", "1.000003", "1.000003"], "1.000003"),
    (["0.000001", "0"], "0.000001"),
    (["-0.000001", "0"], "-0.000001"),
    (["-0.000001", "0", "0"], "0"),
    (["0.000001", "0.000001", "0"], "0.000001"),
    (["-0.000007"], "-0.000007"),
    (4 * ["999999999999.999999"], "999999999999.999999"),
    (4 * ["-999999999999.999999"], "-999999999999.999999"),
]

# The values before and after some intervals, how many intervals these are, the place of one of them, and its value on the line.
LINES = [
    ("0", "1", 2, 1, "0.333333"),
    ("0", "1", 2, 2, "0.666667"),
    ("1", "0", 2, 1, "0.666667"),
    ("0", "0.000001", 1, 1, "0.000001"),
    ("0", "-0.000001", 1, 1, "-0.000001"),
    ("-0.000003", "-0.000004", 1, 1, "-0.000004"),
    ("0.000005", "0.000005", 24, 7, "0.000005"),
    ("999999999999.999999", "-999999999999.999999", 1, 1, "0"),
    ("999999999999.999999", "999999999999.999999", 24, 24, "999999999999.999999"),
    ("-999999999999.999999", "-999999999999.999999", 24, 1, "-999999999999.999999"),
]

UNITS = [
    ("MWh", "MWh"), ("kWh", "kWh"), ("Wh", "Wh"), ("MVArh", "MVArh"), ("kVArh", "kVArh"), ("VArh", "VArh"), ("MVAr", "MVAr"),
    ("kVAr", "kVAr"), ("VAr", "VAr"), ("MW", "MW"), ("kW", "kW"), ("W", "W"), ("MVAh", "MVAh"), ("kVAh", "kVAh"), ("VAh", "VAh"),
    ("MVA", "MVA"), ("kVA", "kVA"), ("VA", "VA"), ("kV", "kV"), ("V", "V"), ("kA", "kA"), ("A", "A"), ("pf", "pf"),
    # in any case
    ("kwh", "kWh"), ("KWH", "kWh"), ("Kwh", "kWh"),
    ("", None), ("kw h", None), ("kWhx", None), ("kWh ", None), ("k", None),
]

# Lengths of intervals, and how many a day has.
LENGTHS = [("5", 288), ("05", 288), ("15", 96), ("30", 48), ("1", None), ("10", None), ("030", None), ("", None), ("60", None)]

# Days, and their numbers from 1 January 1970.
DAYS = [
    ("19700101", 0), ("20240101", 19723), ("20240229", 19782), ("99991231", 2932896),
    ("20230229", None), ("20240431", None), ("20241301", None), ("20240100", None), ("19691231", None), ("2024010", None),
    ("2024010a", None), ("", None),
]

# Moments, and their seconds from then.
MOMENTS = [
    ("19700101000000", 0), ("20240102010203", 1704157323), ("99991231235959", 253402300799),
    ("202401020102", None), ("20240102240000", None), ("20240102006000", None), ("20240102000060", None), ("20230229000000", None),
    ("2024010201020a", None),
]

# Moments of a header, which may be written without seconds, and with the seconds.
HEADER_MOMENTS = [
    ("202401020102", "20240102010200"), ("20240102010203", "20240102010203"),
    ("20240102240000", None), ("20240102006000", None), ("20240102000060", None), ("20230229000000", None), ("2024010201020a", None),
]

# Listed holidays, the seven days before each, the nearest first, and how many days before it the Sunday is: a Monday, a Thursday and a Friday.
SUNDAYS = [
    ("20240101", ["20231231", "20231230", "20231229", "20231228", "20231227", "20231226", "20231225"], "1"),
    ("20240229", ["20240228", "20240227", "20240226", "20240225", "20240224", "20240223", "20240222"], "4"),
    ("99991231", ["99991230", "99991229", "99991228", "99991227", "99991226", "99991225", "99991224"], "5"),
]

NMIS = [
    ("NEM1201009", True), ("nEM1201009", None), ("NEM120100", None), ("NEM12010099", None), ("NEM12 1009", None), ("NEM12-1009", None),
    ("NEM12É009", None), ("", None),
]
SUFFIXES = [("E1", True), ("11", True), ("e1", None), ("E", None), ("E12", None), ("E ", None), ("", None)]

# Streams in the order of their bytes.
STREAMS = ["0EM1201009 Z9", "NEM1201009 1Z", "NEM1201009 E1", "NEM1201009 E2", "NEM120100A B1", "ZEM1201009 A0"]

# Qualities in a 300.
QUALITIES = [
    ("A", True), ("N", True), ("E14", True), ("F00", True), ("S99", True),
    ("F", None), ("F1", None), ("F014", None), ("A14", None), ("a", None), ("", None), ("X", None), ("Fxx", None),
]

# Codes of reasons.
CODES = [
    ("", ""), ("0", "0"), ("000", "0"), ("76", "76"), ("076", "76"), ("999", "999"),
    ("1000", None), ("7x", None), ("-1", None), (" ", None),
]

# Texts of reasons. The most are 240 letters, whatever their bytes.
TEXTS = [
    ("a b", True), ("\u00a0", True), (240 * "é", True), (241 * "é", None), ("\x1f", None), ("\x7f", None), ("\x85", None),
]

# Printable texts.
PRINTABLES = [
    ("", True), (" 01009~", True), (240 * "x", True), (241 * "x", None), ("1\x1f", None), ("1\x7f", None), ("é", None),
]

# Transaction codes of a 500.
TRANSACTIONS = [("A", True), ("Z", True), ("", True), ("a", None), ("AA", None), ("@", None)]

# Readings: quality, code and text of the reason, and value. Then the reading as it is answered.
READINGS = [
    (["A", "", "", "1.50"], "A,,,1.5"), (["S52", "", "", "1"], "S52,,,1"), (["N", "079", "lost", ""], "N,79,lost,"),
    (["F14", "76", "é", "-0.25"], "F14,76,é,-0.25"),
    # a number under N is no value
    (["N", "", "", "1"], "N,,,"),
    # under A and S52 a value is needed
    (["A", "", "", ""], None), (["S52", "", "", ""], None),
]

# Configuration, register and next read of details.
DETAILS = [
    ("E1", "1", ""), ("", "1", "20240201"), ("", "2", "20240202"), ("E1", "10", "20240202"), ("E1", "2", ""), ("E1", "2", "20240201"),
]

# Pairs of details, of which the second is the greater.
DETAILS_IN_ORDER = [
    (("", "2", "20240202"), ("E1", "10", "20240202")),
    (("E1", "10", "20240202"), ("E1", "2", "")),
    (("E1", "2", ""), ("E1", "2", "20240201")),
]

# Events: transaction code, service order, moment and index read, in the order in which a day's events are answered.
EVENTS = [
    ["", "", "", "15"], ["", "S1", "", ""], ["O", "", "", "15"], ["O", "", "", "2"], ["O", "", "20240102000000", "15.5"],
]
