"""Requests to the service one after the other, beginning with an empty store, and the answers: tables for tests/service. A row is a method, a
target, a body and the whole answer."""

from inputs.file_parts import HEADER, record_300
from inputs.service_rows import (
    ACTUAL, BAD, BLOCK, CONFLICT, FINALS_HEAD, GAPS_HEAD, NO_PERIODS, OK, READINGS_HEAD, UNKNOWN_DAY, UNPROCESSABLE, answer, day, file_of,
    json_answer, refused, rows_of, stream, versions_answer)

BLOCK_5 = BLOCK.replace(",30,", ",5,")
FIRST = file_of(day("20240101", "1.5", ACTUAL))
FIRST_STREAM = stream("NEM1201009", "E1", "E1", "1", "N1", "01009")
FIRST_VERSION = ["20240102010203", "A", "", "", "1.5"]
ADDED, KNOWN = json_answer(added=48, known=0), json_answer(added=0, known=48)


def day_answer(date, events, readings, update):
    return json_answer(date=date, events=events, length=30, nmi="NEM1201009", readings=readings, suffix="E1", unit="kWh", update=update)


# A day is imported, and asked for in each way.
A_DAY_ANSWER = day_answer("20240101", [], [["A", "", "", "1.5"]] * 48, "20240102010203")
A_DAY = [
    ("GET", "/v1/streams", "", json_answer(streams=[])),
    ("POST", "/v1/imports", file_of(day("20240101", "1.5", ACTUAL), "500,S,,,\n", "500,,B7,20240103000000,15.5\n"), ADDED),
    ("POST", "/v1/imports?kind=nem12", FIRST, KNOWN),
    ("GET", "/v1/streams", "", json_answer(streams=[FIRST_STREAM])),
    ("GET", "/v1/days/NEM1201009/E1/20240101", "",
     day_answer("20240101", [["", "B7", "20240103000000", "15.5"], ["S", "", "", ""]], [["A", "", "", "1.5"]] * 48, "20240102010203")),
    ("GET", "/v1/versions/NEM1201009/E1/20240101/7", "", versions_answer(7, FIRST_VERSION)),
    ("GET", "/v1/versions/NEM1201009/E1/20240101/49", "", UNKNOWN_DAY),
    ("GET", "/v1/days/NEM1201009/E1/20240102", "", UNKNOWN_DAY),
    ("GET", "/v1/days/NEM1201009/E1/2024", "", BAD),
    ("GET", "/v1/streams?x=1", "", BAD),
]

# Ranges of days, as CSV texts, and an export.
EXPORT = "/v1/exports/nem12?nmi=NEM1201009&suffix=E1&from=20240101&to=20240101&moment=202401040000&sender=MDP1&receiver=RETAILER"
EXPORTED = answer(OK, FIRST.replace("202401030000", "202401040000").replace("\n", "\r\n"))
RANGES = [
    ("POST", "/v1/imports", FIRST, ADDED),
    ("GET", "/v1/gaps?nmi=NEM1201009&suffix=E1&from=20240101&to=20240102", "", answer(OK, GAPS_HEAD + "NEM1201009,E1,20240102,0,0\n")),
    ("GET", "/v1/finals?nmi=NEM1201009&suffix=E1&from=20240101&to=20240102", "", answer(OK, FINALS_HEAD)),
    ("GET", "/v1/missing?from=20240101&to=20240102", "", answer(OK, GAPS_HEAD + "NEM1201009,E1,20240102,0,0\n")),
    ("GET", "/v1/missing?from=20240101&to=20240102&since=20240102", "", answer(OK, GAPS_HEAD)),
    ("GET", "/v1/readings?nmi=NEM1201009&suffix=E1&from=20240101&to=20240102", "",
     answer(OK, READINGS_HEAD + rows_of("2024-01-01", "A,,,1.5,20240102010203"))),
    ("GET", EXPORT, "", EXPORTED),
    ("GET", "/v1/gaps?nmi=NEM1201009&suffix=E1&from=20240101&to=20250204", "", refused(UNPROCESSABLE, error="M12")),
    ("GET", "/v1/gaps?nmi=NEM1201009&suffix=E1&from=20240101", "", BAD),
]

# Files that are refused: in one a field of a 300 is missing, and the second day of the other has another value under a known update.
SHORT = HEADER + BLOCK_5 + record_300("20240102", 287 * ["1"], ACTUAL) + "900\n"
OTHER_SEVENTH = file_of(day("20240103", "2", "A,,,20240104000000,"), record_300("20240101", 6 * ["1.5"] + ["9"] + 41 * ["1.5"], ACTUAL))
REFUSED_FILES = [
    ("POST", "/v1/imports", "", refused(UNPROCESSABLE, error="L9", line=1)),
    ("POST", "/v1/imports?kind=nem13", file_of(), refused(UNPROCESSABLE, error="L11", line=1)),
    ("POST", "/v1/imports?kind=csv", file_of(), BAD),
    ("POST", "/v1/imports", file_of(day("20240101", "1.5", "A,,,2024,")), refused(UNPROCESSABLE, error="L5", field=54, line=3)),
    ("POST", "/v1/imports", FIRST, ADDED),
    ("POST", "/v1/imports", file_of(day("20240101", "9", ACTUAL)), refused(CONFLICT, error="M3", interval=1, line=3)),
    ("GET", "/v1/versions/NEM1201009/E1/20240101/48", "", versions_answer(48, FIRST_VERSION)),
    ("POST", "/v1/imports", SHORT, refused(UNPROCESSABLE, error="L5", field=290, line=3)),
    ("POST", "/v1/imports", OTHER_SEVENTH, refused(CONFLICT, error="M3", interval=7, line=4)),
    ("POST", "/v1/imports", FIRST.replace("kWh", "MWh"), refused(CONFLICT, error="M2", line=3)),
    ("POST", "/v1/imports", HEADER, refused(UNPROCESSABLE, error="L9", line=2)),
    ("POST", "/v1/imports", FIRST, KNOWN),
]


def mean_job(id="J1", date="20240115", first=5, last=8, code="76", update="20240123000000"):
    """A job of method 15."""
    return (f'{{"id":"{id}","nmi":"NEM1201009","suffix":"E1","date":"{date}","first":{first},"last":{last},"length":30,"unit":"kWh",'
            f'"method":15,"flag":"F","code":"{code}","text":"","update":"{update}"}}')


# A job is done once, and its readings are protected.
JOBS = [
    ("POST", "/v1/imports", file_of(day("20240108", "1.5", "A,,,20240109010203,")), ADDED),
    ("POST", "/v1/substitutions", mean_job(), json_answer(count=4, known=False)),
    ("POST", "/v1/substitutions", mean_job(), json_answer(count=4, known=True)),
    ("POST", "/v1/substitutions", mean_job(last=9), refused(CONFLICT, error="M4")),
    ("POST", "/v1/substitutions", mean_job(id="J2"), refused(CONFLICT, error="M5", interval=5)),
    ("POST", "/v1/substitutions", mean_job("J2", "20240301", 1, 1, "", "20240323000000"), refused(UNPROCESSABLE, error="M7")),
    ("POST", "/v1/substitutions", "{}", BAD),
    ("GET", "/v1/finals?nmi=NEM1201009&suffix=E1&from=20240115&to=20240115", "",
     answer(OK, FINALS_HEAD + "NEM1201009,E1,20240115,5,8,15,76,\n")),
    ("GET", "/v1/missing?from=20240108&to=20240115&since=20240115", "",
     answer(OK, GAPS_HEAD + "".join(f"NEM1201009,E1,{date},0,0\n" for date in range(20240109, 20240115))
            + "NEM1201009,E1,20240115,1,4\nNEM1201009,E1,20240115,9,48\n")),
    ("GET", "/v1/readings?nmi=NEM1201009&suffix=E1&from=20240109&to=20240115", "",
     answer(OK, READINGS_HEAD + "".join(row if 4 <= place < 8 else row.replace("F15,76,,1.5,20240123000000", "N,,,,")
                                        for place, row in enumerate(rows_of("2024-01-15", "F15,76,,1.5,20240123000000").splitlines(True))))),
]

# Holidays are listed once, or not at all.
FIFTEEN_DAYS = "date\n" + "".join(f"202403{number:02}\n" for number in range(1, 14)) + "20240126\n20240401\n"
HOLIDAYS = [
    ("POST", "/v1/holidays", "date\n20240126\n2024\n", refused(UNPROCESSABLE, error="H1", line=3)),
    ("POST", "/v1/holidays", "date\n20240126\n20240401\n", json_answer(added=2, known=0)),
    ("POST", "/v1/holidays", "date\n20240126\n20240401\n", json_answer(added=0, known=2)),
    ("POST", "/v1/holidays", "date\n2024\n", refused(UNPROCESSABLE, error="H1", line=2)),
    ("POST", "/v1/holidays?x=1", "date\n2024\n", BAD),
    ("POST", "/v1/holidays", "date\n20240301\n", json_answer(added=1, known=0)),
    ("POST", "/v1/holidays", FIFTEEN_DAYS, json_answer(added=12, known=3)),
]

# Accumulations, and a stream that is known only by them.
PERIOD_FILE = ("100,NEM13,200401011234,MDP1,RETAILER\n250,1234567890,1141,01,11,11,METSER66,E,000021.2,20031001103230,A,,,000534.5,"
               "20040201100030,E64,77,,343.5,kWh,20040509,20040202125010,20040203000130\n550,N,,A,\n900\n")
PERIOD_FIELDS = ["1141", "01", "11", "11", "METSER66", "E", "000021.2", "20031001103230", "A", "", "", "000534.5", "20040201100030",
                 "E64", "77", "", "343.5", "kWh", "20040509", "20040202125010"]
PERIODS = [
    ("GET", "/v1/periods/1234567890/11", "", json_answer(nmi="1234567890", periods=[], suffix="11")),
    ("POST", "/v1/imports?kind=nem13", PERIOD_FILE, json_answer(added=1, known=0)),
    ("GET", "/v1/periods/1234567890/11", "",
     json_answer(nmi="1234567890", periods=[{"fields": PERIOD_FIELDS, "notes": [["N", "", "A", ""]]}], suffix="11")),
    ("GET", "/v1/periods/NEM1201009/E1", "", NO_PERIODS),
    ("GET", "/v1/streams", "", json_answer(streams=[stream("1234567890", "11")])),
    ("GET", "/v1/missing?from=20040101&to=20040501", "", answer(OK, GAPS_HEAD)),
    ("GET", "/v1/readings?nmi=1234567890&suffix=11&from=20040101&to=20040501", "", answer(OK, READINGS_HEAD)),
]

# Texts of all kinds of readings, events, versions and details.
NULL = ["N", "", "", ""]
MIXED = (HEADER + BLOCK + record_300("20240126", ["-1.5", *47 * [""]], "V,,,20240127010203,") + "400,1,1,F14,76,a \"b\" \\ ü\n400,2,48,N\n"
         "500,,SO1,20240126103000,15.5\n500,O\n200,NEM1201009,E1,,B1,N1,01009,kWh,30,20240201\n"
         + record_300("20240126", 48 * ["1"], "A,,,20240127010203,") + "900\n")


def last_day(value, end):
    """A file of the last day that exists, in 5 minutes."""
    return HEADER + BLOCK_5 + record_300("99991231", 288 * [value], end) + "900\n"


TEXTS = [
    ("POST", "/v1/imports", MIXED, json_answer(added=96, known=0)),
    ("GET", "/v1/days/NEM1201009/E1/20240126", "",
     day_answer("20240126", [["", "SO1", "20240126103000", "15.5"], ["O", "", "", ""]], [["F14", "76", 'a "b" \\ ü', "-1.5"]] + [NULL] * 47,
              "20240127010203")),
    ("GET", "/v1/streams", "", json_answer(streams=[stream("NEM1201009", "B1", "E1", "", "N1", "01009", "20240201"), FIRST_STREAM])),
    ("POST", "/v1/imports", last_day("", "N,,,20240127000000,"), json_answer(added=288, known=0)),
    ("POST", "/v1/imports", last_day("0", "E52,0,no read,20240128000001,"), json_answer(added=288, known=0)),
    ("GET", "/v1/versions/NEM1201009/E1/99991231/288", "",
     versions_answer(288, ["20240127000000", *NULL], ["20240128000001", "E52", "0", "no read", "0"], date="99991231", length=5)),
]

# Texts of jobs, for a day whose like day has 48 times the value 2. A job has these members, and some more after them. If one comes twice, the
# last counts.
JOB_FRONT = ('{"id":"JOB-1","nmi":"NEM1201009","suffix":"E1","date":"20240126","unit":"kwh","code":"089","text":"no read",'
             '"update":"20240602000000","last":48,"length":30,"method":14,')
BAD_JOB, OTHER_JOB = refused(UNPROCESSABLE, error="M11"), refused(CONFLICT, error="M4")
DONE, DONE_BEFORE = json_answer(count=44, known=False), json_answer(count=44, known=True)
FILLED_IN = ["20240602000000", "S14", "89", "no read", "2"]
JOB_MEMBERS = [
    ('"flag":"S","first":7,"first":5', DONE),
    ('"flag":"S","first":5', DONE_BEFORE),
    ('"first":0,"flag":"A"', BAD_JOB),
    ('"flag":"V","first":65535', BAD_JOB),
    ('"flag":"S","first":5,"method":255', BAD_JOB),
    ('"flag":"S","first":5,"code":""', OTHER_JOB),
    ('"flag":"S","first":5,"unit":"MWH"', OTHER_JOB),
    ('"flag":"S","first":"5","first":5', DONE_BEFORE),
    ('"flag":"S"', BAD),
    ('"flag":"S","first":5,"more":1', BAD),
    ('"flag":"S","first":5.0', BAD),
    ('"flag":"S","first":-0', BAD),
    ('"flag":"S","first":-1', BAD),
    ('"flag":"S","first":65536', BAD),
    ('"flag":"S","first":"5"', BAD),
    ('"flag":"S","first":null', BAD),
    ('"flag":"B","first":5', BAD),
    ('"flag":"SS","first":5', BAD),
    ('"flag":"s","first":5', BAD),
    ('"flag":83,"first":5', BAD),
    ('"flag":"S","first":5,"method":256', BAD),
    ('"flag":"S","first":5,"length":10', BAD),
    ('"flag":"S","first":5,"length":"30"', BAD),
    ('"flag":"S","first":5,"id":""', BAD),
    ('"flag":"S","first":5,"date":"20240230"', BAD),
    ('"flag":"S","first":5,"code":"1000"', BAD),
    ('"flag":"S","first":5,"text":"a,b"', BAD),
    ('"flag":"S","first":5,"update":"202406020000"', BAD),
    ('"flag":"S","first":5},{"a":1', BAD),
]
# Texts that are no job. The last but four is a byte that isn't UTF-8, and the ones after it are lists in lists.
NO_JOBS = ["", "[]", "{}", "null", '{"id":1}', "\udcff"] + ["[" * depth + "]" * depth for depth in [1, 127, 128, 2000]]
JOB_TEXTS = [("POST", "/v1/imports", file_of(day("20240119", "2", ACTUAL)), ADDED)]
JOB_TEXTS += [("POST", "/v1/substitutions", JOB_FRONT + members + "}", wanted) for members, wanted in JOB_MEMBERS]
JOB_TEXTS += [("POST", "/v1/substitutions", text, BAD) for text in NO_JOBS]
JOB_TEXTS += [
    ("GET", "/v1/versions/NEM1201009/E1/20240126/4", "", versions_answer(4, date="20240126")),
    ("GET", "/v1/versions/NEM1201009/E1/20240126/5", "", versions_answer(5, FILLED_IN, date="20240126")),
    ("GET", "/v1/versions/NEM1201009/E1/20240126/48", "", versions_answer(48, FILLED_IN, date="20240126")),
    ("GET", "/v1/days/NEM1201009/E1/20240126", "",
     day_answer("20240126", [], [NULL] * 4 + [FILLED_IN[1:]] * 44, "20240602000000")),
]

TALKS = {"a day": A_DAY, "ranges": RANGES, "refused files": REFUSED_FILES, "jobs": JOBS, "holidays": HOLIDAYS, "accumulations": PERIODS,
         "texts": TEXTS, "texts of jobs": JOB_TEXTS}
