"""What tests/no_memory asks a service: requests that change what it keeps, each of its own meter, and requests that change nothing.

A row of the former has a name, the request, its answer, its answer once it was done, and the rows that come first. The request, and the request
of each row that comes first, depend on the number of the meter. A row of the latter has a name, the request and its answer."""

import datetime

from inputs.file_parts import END, HEADER, block, day, file_of, period
from inputs.old_stores import PERIOD_HEADER, job, run
from inputs.service_rows import NO_ROUTE, OK, answer, json_answer, not_allowed, request


def nmi_of(number):
    return f"NEM{number:07}"


def first_file(number):
    return file_of(block(nmi_of(number)), day("20240103", 48 * ["1.5"], update="20240104010203"))


def older_file(number):
    """The day of the first file in another length, under an earlier update."""
    return file_of(block(nmi_of(number), length="15"), day("20240103", 96 * ["9"], update="20240103230000"))


def other_meter(number):
    """The first file with another meter, which is all that it adds."""
    return first_file(number).replace(",01009,", ",01010,")


def two_days(number):
    return file_of(block(nmi_of(number)), day("20240108", 48 * ["1.000002"], update="20240116000000"),
                   day("20240115", 48 * ["1.000001"], update="20240116000000"))


def job_of(number):
    return job(f"J{number}", "20240122", 5, 8, 15, "F", "20240123000000", "76", nmi=nmi_of(number))


def accumulation(number):
    return file_of(period({2: nmi_of(number)}), "550,N,,A,\n", header=PERIOD_HEADER)


def holiday(number):
    return (datetime.date(2000, 1, 1) + datetime.timedelta(number)).strftime("date\n%Y%m%d\n")


def posts(target, text_of):
    """The request that posts a text, which depends on the number of the meter."""
    return lambda number: request("POST", target, text_of(number))


A_DAY = "a day", posts("/v1/imports", first_file), json_answer(added=48, known=0), json_answer(added=0, known=48), []
TWO_DAYS = "two days", posts("/v1/imports", two_days), json_answer(added=96, known=0), json_answer(added=0, known=96), []
CHANGES = [
    A_DAY,
    ("an older update of it", posts("/v1/imports", older_file), json_answer(added=96, known=0), json_answer(added=0, known=96), [A_DAY]),
    ("another meter of it", posts("/v1/imports", other_meter), json_answer(added=0, known=48), json_answer(added=0, known=48), [A_DAY]),
    TWO_DAYS,
    ("a job", posts("/v1/substitutions", job_of), json_answer(count=4, known=False), json_answer(count=4, known=True), [TWO_DAYS]),
    ("an accumulation", posts("/v1/imports?kind=nem13", accumulation), json_answer(added=1, known=0), json_answer(added=0, known=1), []),
    ("a holiday", posts("/v1/holidays", holiday), json_answer(added=1, known=0), json_answer(added=0, known=1), []),
]

# What is asked after all changes of the meter of this number.
NUMBER = 1201009
NMI = nmi_of(NUMBER)
RANGE = f"nmi={NMI}&suffix=E1&from=20240115&to=20240122"
GAPS = "nmi,suffix,date,first,last\n" + "".join(f"{NMI},E1,202401{number},0,0\n" for number in range(16, 22)) + (
    f"{NMI},E1,20240122,1,4\n{NMI},E1,20240122,9,48\n")
FINALS = f"nmi,suffix,date,first,last,method,code,text\n{NMI},E1,20240122,5,8,15,76,\n"
ROWS = "nmi,suffix,start,minutes,unit,quality,code,text,value,update\n" + "".join(
    f"{NMI},E1,2024-01-{number}T{half // 2:02}:{half % 2 * 30:02},30,kWh,{rows[half]}\n"
    for number, rows in [("15", 48 * ["A,,,1.000001,20240116000000"]),
                         ("22", 4 * ["N,,,,"] + 4 * ["F15,76,,1.000002,20240123000000"] + 40 * ["N,,,,"])] for half in range(48))
FILLED = 4 * ["0"] + 4 * ["1.000002"] + 40 * ["0"]
EXPORT = file_of(block(NMI, meter="01010"), day("20240103", 48 * ["1.5"], update="20240104010203"), block(NMI),
                 day("20240108", 48 * ["1.000002"], update="20240116000000"), day("20240115", 48 * ["1.000001"], update="20240116000000"),
                 day("20240122", FILLED, "V", update="20240123000000"), run(1, 4, "N"), run(5, 8, "F15", "76"), run(9, 48, "N"))
FIELDS = ["1141", "01", "11", "11", "METSER66", "E", "000021.2", "20031001103230", "A", "", "", "000534.5", "20040201100030", "E64", "77",
          "", "343.5", "kWh", "20040509", "20040202125010"]
DAY = {"date": "20240103", "events": [], "length": 30, "nmi": NMI, "readings": 48 * [["A", "", "", "1.5"]], "suffix": "E1", "unit": "kWh",
       "update": "20240104010203"}
VERSIONS = {"date": "20240103", "interval": 7, "nmi": NMI, "suffix": "E1",
            "versions": [["20240103230000", "A", "", "", "9", "15"], ["20240104010203", "A", "", "", "1.5", "30"]]}
PERIODS = {"nmi": NMI, "periods": [{"fields": FIELDS, "notes": [["N", "", "A", ""]]}], "suffix": "11"}
NO_NAMES = dict.fromkeys(["configuration", "datastream", "meter", "next", "register"], "")
STREAMS = [{**NO_NAMES, "nmi": NMI, "suffix": "11"},
           {"configuration": "E1", "datastream": "N1", "meter": "01009", "next": "", "nmi": NMI, "register": "1", "suffix": "E1"}]
QUESTIONS = [
    *((f"{name} that is known", text_of(NUMBER), known) for name, text_of, _, known, _ in CHANGES),
    ("gaps", request("GET", "/v1/gaps?" + RANGE), answer(OK, GAPS)),
    ("finals", request("GET", "/v1/finals?" + RANGE), answer(OK, FINALS)),
    ("missing", request("GET", "/v1/missing?from=20240115&to=20240122"), answer(OK, GAPS)),
    ("missing since a day", request("GET", "/v1/missing?from=20240115&to=20240122&since=20240122"), answer(OK, GAPS)),
    ("readings", request("GET", "/v1/readings?" + RANGE), answer(OK, ROWS)),
    ("an export", request("GET", f"/v1/exports/nem12?{RANGE.replace('20240115', '20240103')}&moment=202401030000&sender=MDP1&receiver=RETAILER"),
     answer(OK, EXPORT.replace("\n", "\r\n"))),
    ("periods", request("GET", f"/v1/periods/{NMI}/11"), json_answer(**PERIODS)),
    ("the readings of a day", request("GET", f"/v1/days/{NMI}/E1/20240103"), json_answer(**DAY)),
    ("versions", request("GET", f"/v1/versions/{NMI}/E1/20240103/7"), json_answer(**VERSIONS)),
    ("streams", request("GET", "/v1/streams"), json_answer(streams=STREAMS)),
    ("an empty file", request("POST", "/v1/imports", HEADER + END), json_answer(added=0, known=0)),
    ("no route", "GET /v2 HTTP/1.1\r\nHost: x\r\n\r\n", NO_ROUTE),
    ("another method", "GET /v1/imports HTTP/1.1\r\nHost: x\r\n\r\n", not_allowed("POST")),
]
