"""What the service is sent, and what it answers: tables of requests, each with its whole answer, for tests/service."""

import json

from inputs.file_parts import HEADER, record_300

JSON, CSV = "application/json", "text/csv"
OK = "200 OK"
BAD_REQUEST = "400 Bad Request"
NOT_FOUND = "404 Not Found"
NOT_ALLOWED = "405 Method Not Allowed"
CONFLICT = "409 Conflict"
NO_LENGTH = "411 Length Required"
TOO_LONG = "413 Payload Too Large"
UNPROCESSABLE = "422 Unprocessable Entity"
HEAD_TOO_LONG = "431 Request Header Fields Too Large"
NOT_IMPLEMENTED = "501 Not Implemented"
UNAVAILABLE = "503 Service Unavailable"


# Requests and answers.

def encoded(text):
    """The bytes of a text. "\\udcff" is the byte FF, which isn't UTF-8."""
    return text.encode("utf-8", "surrogateescape")


def request(method, target, body=""):
    """A request, with the length of its body."""
    return f"{method} {target} HTTP/1.1\r\nHost: x\r\nContent-Length: {len(encoded(body))}\r\n\r\n{body}"


def answer(status, text, allow=None, is_whole=True):
    """A whole answer. A text that doesn't begin an object is CSV. An answer to HEAD has no body."""
    kind = JSON if text.startswith("{") else CSV
    head = [f"HTTP/1.1 {status}", f"Content-Type: {kind}", f"Content-Length: {len(encoded(text))}", "Connection: close"]
    if allow:
        head.append(f"Allow: {allow}")
    return "\r\n".join(head + ["", ""]) + (text if is_whole else "")


def json_answer(**parts):
    """An answer in compact JSON, with its keys in order."""
    return answer(OK, json.dumps(parts, separators=(",", ":"), sort_keys=True, ensure_ascii=False))


def refused(status, **parts):
    """A refusal. Its error is the status if no other is given."""
    parts = {"error": status[:3], **parts}
    return answer(status, json.dumps(parts, separators=(",", ":"), sort_keys=True))


def not_allowed(method, is_whole=True):
    """The answer to a method that the route doesn't have."""
    return answer(NOT_ALLOWED, '{"error":"405"}', method, is_whole)


BAD = refused(BAD_REQUEST)
NO_ROUTE = refused(NOT_FOUND)
NO_STORE = refused(UNAVAILABLE, error="U1")
UNKNOWN_DAY = refused(NOT_FOUND, error="M10")
CLOSED = ""


# Files.

BLOCK = "200,NEM1201009,E1,1,E1,N1,01009,kWh,30,\n"
EMPTY_FILE = HEADER + "900\n"
EMPTY_PERIODS = EMPTY_FILE.replace("NEM12", "NEM13")


def day(date, value, end):
    """A 300 with 48 times one value, and with what comes after them."""
    return record_300(date, 48 * [value], end)


def file_of(*lines):
    return HEADER + BLOCK + "".join(lines) + "900\n"


ACTUAL = "A,,,20240102010203,"


# Heads and bodies as they are sent, and the answers of an empty store. There is no answer if the input ends too early.

BODIES = [
    (f"POST /v1/imports HTTP/1.1\r\nHost: x\r\nContent-Length: 41\r\n\r\n{EMPTY_FILE}rest", json_answer(added=0, known=0)),
    (f"POST /v1/imports?kind=nem13 HTTP/1.1\r\nHost: x\r\nContent-Length: 0041\r\n\r\n{EMPTY_PERIODS}", json_answer(added=0, known=0)),
    (f"POST /v1/imports HTTP/1.1\r\nhOST:x\r\nCONTENT-length:\t41 \r\n\r\n{EMPTY_FILE}", json_answer(added=0, known=0)),
    ("POST /v1/imports HTTP/1.1\r\nHost: x\r\nContent-Length: 0\r\n\r\n", refused(UNPROCESSABLE, error="L9", line=1)),
    (f"POST /v1/imports HTTP/1.1\r\nHost: x\r\nContent-Length: 42\r\n\r\n{EMPTY_FILE}", CLOSED),
    ("POST /v1/imports HTTP/1.1\r\nHost: x\r\nContent-Length: 8388608\r\n\r\nabcd", CLOSED),
    ("POST /v1/imports HTTP/1.1\r\nHost: x\r\nContent-Length: 8388609\r\n\r\nabcd", refused(TOO_LONG)),
    ("POST /v1/imports HTTP/1.1\r\nHost: x\r\nContent-Length: 99999999999999999999999\r\n\r\nabcd", refused(TOO_LONG)),
    ("POST /v1/imports HTTP/1.1\r\nHost: x\r\n\r\nabcd", refused(NO_LENGTH)),
    ("POST /v1/imports HTTP/1.1\r\nHost: x\r\nContent-Length: 4\r\nContent-Length: 4\r\n\r\nabcd", BAD),
    ("POST /v1/imports HTTP/1.1\r\nHost: x\r\nContent-Length: +1\r\n\r\na", BAD),
    ("POST /v1/imports HTTP/1.1\r\nHost: x\r\nContent-Length: -1\r\n\r\na", BAD),
    ("POST /v1/imports HTTP/1.1\r\nHost: x\r\nContent-Length:\r\n\r\na", BAD),
    ("POST /v1/imports HTTP/1.1\r\nHost: x\r\nContent-Length: 1, 1\r\n\r\na", BAD),
    ("POST /v1/holidays HTTP/1.1\r\nHost: x\r\nContent-Length: 1\r\n\r\na", refused(UNPROCESSABLE, error="H1", line=1)),
]

# Beginnings of files whose first line is faulty, and the answer, whatever comes after them.
EARLY_FAULTS = [
    ("a line that is no record", "x\n", refused(UNPROCESSABLE, error="L2", line=1)),
    ("a line that is no text", "\udcff\n", refused(UNPROCESSABLE, error="L1", line=1)),
    ("the header of another file", EMPTY_PERIODS, refused(UNPROCESSABLE, error="L11", line=1)),
    ("a header with a fault", HEADER.replace("202401030000", "2024"), refused(UNPROCESSABLE, error="L5", field=3, line=1)),
    ("a line that is too long", 16_385 * "x", refused(UNPROCESSABLE, error="L10", line=1)),
]

# Routes and their methods. The length of a GET isn't read.
ROUTES = [
    ("GET /v1/streams HTTP/1.1\r\nHost: x\r\n\r\n", json_answer(streams=[])),
    ("GET /v1/streams? HTTP/1.1\r\nHost: x\r\nContent-Length: 9\r\n\r\n", json_answer(streams=[])),
    ("GET /v1/days/NEM1201009/E1/20240101 HTTP/1.1\r\nHost: x\r\n\r\n", UNKNOWN_DAY),
    ("GET /v1/versions/N/E1/20240101/7 HTTP/1.1\r\nHost: x\r\n\r\n", BAD),
    ("GET /v1/periods/N/11 HTTP/1.1\r\nHost: x\r\n\r\n", BAD),
    ("GET /v1/exports/nem12 HTTP/1.1\r\nHost: x\r\n\r\n", BAD),
    ("GET /v1/finals HTTP/1.1\r\nHost: x\r\n\r\n", BAD),
    ("GET /v1/missing HTTP/1.1\r\nHost: x\r\n\r\n", BAD),
    ("GET /v1/readings HTTP/1.1\r\nHost: x\r\n\r\n", BAD),
    ("GET /v1/missing?from=20240101&to=20240102 HTTP/1.1\r\nHost: x\r\n\r\n", answer(OK, "nmi,suffix,date,first,last\n")),
    ("POST /v1/missing HTTP/1.1\r\nHost: x\r\n\r\n", not_allowed("GET")),
    ("POST /v1/readings HTTP/1.1\r\nHost: x\r\n\r\n", not_allowed("GET")),
    ("HEAD /v1/missing HTTP/1.1\r\nHost: x\r\n\r\n", not_allowed("GET", is_whole=False)),
    ("GET /v1/imports HTTP/1.1\r\nHost: x\r\n\r\n", not_allowed("POST")),
    ("POST /v1/streams HTTP/1.1\r\nHost: x\r\n\r\n", not_allowed("GET")),
    ("get /v1/streams HTTP/1.1\r\nHost: x\r\n\r\n", not_allowed("GET")),
    ("HEAD /v1/imports HTTP/1.1\r\nHost: x\r\n\r\n", not_allowed("POST", is_whole=False)),
    ("HEAD /v1/streams HTTP/1.1\r\nHost: x\r\n\r\n", not_allowed("GET", is_whole=False)),
    ("HEAD /v2 HTTP/1.1\r\nHost: x\r\n\r\n", answer(NOT_FOUND, '{"error":"404"}', is_whole=False)),
    ("HEAD /v2 HTTP/1.1\r\n\r\n", answer(BAD_REQUEST, '{"error":"400"}', is_whole=False)),
]

# Bytes that are no head, and heads with a wrong `Host`.
NO_HEADS = [
    ("", CLOSED),
    ("G", CLOSED),
    ("\r\n\r\nGET /v1/streams HTTP/1.1\r\nHost: x\r\n", CLOSED),
    ("\r\n\r\nGET /v1/streams HTTP/1.1\nHost: x\n\n", json_answer(streams=[])),
    (" GET /v1/streams HTTP/1.1\r\nHost: x\r\n\r\n", BAD),
    ("\0", BAD),
    ("GET /v1/streams HTTP/2.0\r\nHost: x\r\n\r\n", BAD),
    ("GET  /v1/streams HTTP/1.1\r\nHost: x\r\n\r\n", BAD),
    ("GET /v1/streams\r\nHost: x\r\n\r\n", BAD),
    ("GET /v1/streams HTTP/1.1\r\nHost x\r\n\r\n", BAD),
    ("GET /v1/streams HTTP/1.1\r\n Host: x\r\n\r\n", BAD),
    ("GET /v1/streams HTTP/1.1\r\nHost : x\r\n\r\n", BAD),
    ("GET /v1/streams HTTP/1.1\r\n\r\n", BAD),
    ("GET /v1/streams HTTP/1.1\r\nHost: x\r\nhost: x\r\n\r\n", BAD),
    ("GET /v1/streams HTTP/1.0\r\nHost: x\r\nHost: x\r\n\r\n", BAD),
]

# Heads that aren't valid, and paths that no route is for. No part of a path is decoded.
PATHS = [
    ("GET /v1/streams HTTP/1.0\r\n\r\n", json_answer(streams=[])),
    ("POST /v1/imports HTTP/1.1\r\nTransfer-Encoding: chunked\r\n\r\n", BAD),
    ("POST /v1/imports HTTP/1.1\r\nHost: x\r\nTransfer-encoding: chunked\r\n\r\n", refused(NOT_IMPLEMENTED)),
    ("HEAD * HTTP/1.1\r\nHost: x\r\nTransfer-Encoding:\r\n\r\n", answer(NOT_IMPLEMENTED, '{"error":"501"}', is_whole=False)),
    ("GET http://x/v1/streams HTTP/1.1\r\nHost: x\r\n\r\n", BAD),
    ("OPTIONS * HTTP/1.1\r\nHost: x\r\n\r\n", BAD),
    ("GET /v2 HTTP/1.1\r\nHost: x\r\n\r\n", NO_ROUTE),
    ("GET / HTTP/1.1\r\nHost: x\r\n\r\n", NO_ROUTE),
    ("GET /v1/streams/ HTTP/1.1\r\nHost: x\r\n\r\n", NO_ROUTE),
    ("GET /V1/streams HTTP/1.1\r\nHost: x\r\n\r\n", NO_ROUTE),
    ("GET /v1/days/N//20240101 HTTP/1.1\r\nHost: x\r\n\r\n", NO_ROUTE),
    ("GET /v1/days/N/E1/20240101/7 HTTP/1.1\r\nHost: x\r\n\r\n", NO_ROUTE),
    ("PUT /v2 HTTP/1.1\r\nHost: x\r\nContent-Length: x\r\n\r\n", NO_ROUTE),
    ("GET /v1//%2F/ HTTP/1.1\r\nHost: x\r\n\r\n", NO_ROUTE),
    ("GET /%3F+?%3F+ HTTP/1.1\r\nHost: x\r\n\r\n", NO_ROUTE),
    ("GET /v1/streams%3F HTTP/1.1\r\nHost: x\r\n\r\n", NO_ROUTE),
    ("GET ?/x HTTP/1.1\r\nHost: x\r\n\r\n", BAD),
    ("GET /v1/missing/ HTTP/1.1\r\nHost: x\r\n\r\n", NO_ROUTE),
    ("GET /v1/missing/20240101/20240102 HTTP/1.1\r\nHost: x\r\n\r\n", NO_ROUTE),
    ("GET /v1/readings/NEM1201009/E1/20240101 HTTP/1.1\r\nHost: x\r\n\r\n", NO_ROUTE),
    ("GET a/b HTTP/1.1\r\nHost: x\r\n\r\n", BAD),
    ("GET /v1/gaps?nmi=A HTTP/1.1\r\nHost: x\r\n\r\n", BAD),
    ("GET /v1/gaps?a?b HTTP/1.1\r\nHost: x\r\n\r\n", BAD),
]


# Targets. The answer of a store that has days of two streams shows what each asks for. The numbers are those of its readings.

FINAL = "F14,76,,20240109010203,"
TARGETS_FILES = [
    (file_of(*(day(date, "1.5", FINAL) for date in ["20231231", "20240101", "20240107", "20240108"]), day("20240119", "2", ACTUAL)), 240),
    (file_of(day("20240101", "2.5", FINAL), day("20240107", "2.5", FINAL)).replace("E1,1,E1", "B1,1,B1"), 96),
]


def stream(nmi, suffix, configuration="", register="", datastream="", meter="", next=""):
    """A stream in an answer."""
    return {"configuration": configuration, "datastream": datastream, "meter": meter, "next": next, "nmi": nmi, "register": register,
            "suffix": suffix}


def versions_answer(interval, *versions, date="20240101", length=30):
    return json_answer(date=date, interval=interval, nmi="NEM1201009", suffix="E1", versions=[[*version, str(length)] for version in versions])


STREAMS_ANSWER = json_answer(streams=[stream("NEM1201009", suffix, suffix, "1", "N1", "01009") for suffix in ["B1", "E1"]])
DAY_ANSWER = json_answer(date="20240101", events=[], length=30, nmi="NEM1201009", readings=[["F14", "76", "", "1.5"]] * 48, suffix="E1",
                unit="kWh", update="20240109010203")
FINAL_VERSION = ["20240109010203", "F14", "76", "", "1.5"]
NO_PERIODS = json_answer(nmi="NEM1201009", periods=[], suffix="E1")

# No query: nothing after the question mark, or nothing between the `&`.
STREAMS = [
    ("/v1/streams", STREAMS_ANSWER),
    ("/v1/streams?", STREAMS_ANSWER),
    ("/v1/streams?&&", STREAMS_ANSWER),
    ("/v1/streams?a", BAD),
    ("/v1/streams?a=b", BAD),
    ("/v1/streams?=", BAD),
    ("/v1/streams?&&a", BAD),
]

# The parts of a path aren't decoded. No route has a path with an empty part.
DAYS = [
    ("/v1/days/NEM1201009/E1/20240101", DAY_ANSWER),
    ("/v1/days/NEM1201009/E1/20240101?", DAY_ANSWER),
    ("/v1/days/NEM1201009/E1/20240101?&", DAY_ANSWER),
    ("/v1/days/NEM1201009/E1/20240101?date=20240101", BAD),
    ("/v1/days/NEM1201009/20240101/E1", BAD),
    ("/v1/days/E1/NEM1201009/20240101", BAD),
    ("/v1/days/NEM1201009/E1/20240230", BAD),
    ("/v1/days/%4EEM1201009/E1/20240101", BAD),
    ("/v1/days/NEM1201009/%451/20240101", BAD),
    ("/v1/days/NEM1201009/E1/2024010+", BAD),
    ("/v1/days/NEM1201009//20240101", NO_ROUTE),
    ("/v1/days//E1/20240101", NO_ROUTE),
    ("/v1/days/NEM1201009/E1/", NO_ROUTE),
    ("/v1/days/NEM1201009/E1", NO_ROUTE),
]

# The interval has one to four digits.
VERSIONS = [
    ("/v1/versions/NEM1201009/E1/20240101/48", versions_answer(48, FINAL_VERSION)),
    ("/v1/versions/NEM1201009/E1/20240101/0", UNKNOWN_DAY),
    ("/v1/versions/NEM1201009/E1/20240101/0009?", versions_answer(9, FINAL_VERSION)),
    ("/v1/versions/NEM1201009/E1/20240101/10000", BAD),
    ("/v1/versions/NEM1201009/E1/20240101/", NO_ROUTE),
    ("/v1/versions/NEM1201009/E1/20240101/+1", BAD),
    ("/v1/versions/NEM1201009/E1/20240101/%31", BAD),
    ("/v1/versions/NEM1201009/E1/20240101/1?interval=1", BAD),
    ("/v1/versions/NEM1201009/E1/48/20240101", BAD),
    ("/v1/versions/NEM1201009//20240101/48", NO_ROUTE),
]

# A stream is an NMI and a suffix.
PERIODS = [
    ("/v1/periods/NEM1201009/E1", NO_PERIODS),
    ("/v1/periods/NEM1201009/E1?&&", NO_PERIODS),
    ("/v1/periods/E1/NEM1201009", BAD),
    ("/v1/periods/NEM1201009/e1", BAD),
    ("/v1/periods/NEM1201009/", NO_ROUTE),
    ("/v1/periods/NEM1201009/E1?x=", BAD),
]

# The queries for a range, for gaps, finals and readings: each name once, in any order, decoded, and no other name. A range can be asked for from its
# last day to its first. It has no day then.
RANGE, REVERSED = "the range", "the range from its last day to its first"
RANGES = [
    ("?nmi=NEM1201009&suffix=E1&from=20240101&to=20240107", RANGE),
    ("?to=20240107&from=20240101&suffix=E1&nmi=NEM1201009&", RANGE),
    ("?&&nmi=NEM1201009&&suffix=E1&from=20240101&to=20240107", RANGE),
    ("?%6Emi=%4EEM1201009&suffix=%451&from=20240101&to=20240107", RANGE),
    ("?nmi=NEM1201009&suffix=E1&from=20240107&to=20240101", REVERSED),
    ("", BAD),
    ("?", BAD),
    ("?&&", BAD),
    ("?suffix=E1&from=20240101&to=20240107", BAD),
    ("?nmi=NEM1201009&from=20240101&to=20240107", BAD),
    ("?nmi=NEM1201009&suffix=E1&to=20240107", BAD),
    ("?nmi=NEM1201009&suffix=E1&from=20240101", BAD),
    ("?nmi=NEM1201009&nmi=NEM1201009&suffix=E1&from=20240101&to=20240107", BAD),
    ("?nmi=NEM1201009&suffix=E1&suffix=B1&from=20240101&to=20240107", BAD),
    ("?nmi=NEM1201009&suffix=E1&from=20240101&from=20240101&to=20240107", BAD),
    ("?nmi=NEM1201009&suffix=E1&from=20240101&to=20240107&to", BAD),
    ("?nmi=NEM1201009&suffix=E1&from=20240101&to=20240107&moment=1", BAD),
    ("?nmi=NEM1201009&suffix=E1&from=20240101&to=20240107&=", BAD),
    ("?nmi=NEM1201009&suffix=E1&from=20240101&to=20240107&kind=nem12", BAD),
    ("?NMI=NEM1201009&suffix=E1&from=20240101&to=20240107", BAD),
    ("?nmi=&suffix=E1&from=20240101&to=20240107", BAD),
    ("?nmi&suffix=E1&from=20240101&to=20240107", BAD),
    ("?nmi=NEM1201009&suffix=+E1&from=20240101&to=20240107", BAD),
    ("?nmi=NEM1201009&suffix=E1&from=20240101+&to=20240107", BAD),
    ("?nmi=NEM1201009&suffix=E1&from=20240101&to=2024010?", BAD),
]
GAPS_HEAD = "nmi,suffix,date,first,last\n"
FINALS_HEAD = "nmi,suffix,date,first,last,method,code,text\n"
GAPS_ANSWERS = {
    RANGE: answer(OK, GAPS_HEAD + "".join(f"NEM1201009,E1,{date},0,0\n" for date in range(20240102, 20240107))),
    REVERSED: answer(OK, GAPS_HEAD),
}
FINALS_ANSWERS = {
    RANGE: answer(OK, FINALS_HEAD + "NEM1201009,E1,20240101,1,48,14,76,\nNEM1201009,E1,20240107,1,48,14,76,\n"),
    REVERSED: answer(OK, FINALS_HEAD),
}
READINGS_HEAD = "nmi,suffix,start,minutes,unit,quality,code,text,value,update\n"


def rows_of(date, rest):
    """The rows of a day of half hours, all of them with the same rest."""
    return "".join(f"NEM1201009,E1,{date}T{half // 2:02}:{half % 2 * 30:02},30,kWh,{rest}\n" for half in range(48))


READINGS_ANSWERS = {
    RANGE: answer(OK, READINGS_HEAD + "".join(rows_of(date, "F14,76,,1.5,20240109010203") for date in ["2024-01-01", "2024-01-07"])),
    REVERSED: answer(OK, READINGS_HEAD),
}

# The queries for the gaps of all streams. `from` and `to` come once, and `since` at most once. The last known day of E1 is 19 January, that of B1
# is 7 January.
MISSING_B1, MISSING_E1 = "".join(f"NEM1201009,B1,{date},0,0\n" for date in [20240106, 20240108]), "NEM1201009,E1,20240106,0,0\n"
MISSING_BOTH, MISSING_ONE = answer(OK, GAPS_HEAD + MISSING_B1 + MISSING_E1), answer(OK, GAPS_HEAD + MISSING_E1)
MISSING = [
    ("?from=20240106&to=20240108", MISSING_BOTH),
    ("?to=20240108&from=20240106", MISSING_BOTH),
    ("?&&to=20240108&&from=20240106&", MISSING_BOTH),
    ("?%66rom=2024010%36&to=20240108&%73ince=1970010%31", MISSING_BOTH),
    ("?from=20240106&to=20240108&since=20240107", MISSING_BOTH),
    ("?since=20240108&from=20240106&to=20240108", MISSING_ONE),
    ("?from=20240106&since=20240119&to=20240108", MISSING_ONE),
    ("?from=20240106&to=20240108&since=20240120", answer(OK, GAPS_HEAD)),
    ("?from=20240106&to=20240108&since=99991231", answer(OK, GAPS_HEAD)),
    ("?from=20240108&to=20240106", answer(OK, GAPS_HEAD)),
    ("?from=20240108&to=20240106&since=20240101", answer(OK, GAPS_HEAD)),
    ("?from=20240101&to=20250204", refused(UNPROCESSABLE, error="M12")),
    ("?from=20240101&to=20250204&since=20240120", refused(UNPROCESSABLE, error="M12")),
    ("?from=20240101&to=20250204&since=", BAD),
    ("", BAD),
    ("?", BAD),
    ("?&&", BAD),
    ("?since=20240101", BAD),
    ("?from=20240106", BAD),
    ("?to=20240108", BAD),
    ("?from=20240106&since=20240107", BAD),
    ("?to=20240108&since=20240107", BAD),
    ("?from=20240106&from=20240106&to=20240108", BAD),
    ("?from=20240106&to=20240108&to=20240108", BAD),
    ("?from=20240106&to=20240108&since=20240107&since=20240107", BAD),
    ("?from=20240106&to=20240108&since=", BAD),
    ("?from=20240106&to=20240108&since", BAD),
    ("?from=20240106&to=20240108&since=2024", BAD),
    ("?from=20240106&to=20240108&since=20230229", BAD),
    ("?from=20240106&to=20240108&since=20240107+", BAD),
    ("?from=20240230&to=20240108", BAD),
    ("?from=20240106&to=2024-01-08", BAD),
    ("?from=&to=20240108", BAD),
    ("?from=20240106&to", BAD),
    ("?from=20240106&to=20240108&Since=20240107", BAD),
    ("?FROM=20240106&to=20240108", BAD),
    ("?from=20240106&to=20240108&nmi=NEM1201009", BAD),
    ("?nmi=NEM1201009&suffix=E1&from=20240106&to=20240108", BAD),
    ("?from=20240106&to=20240108&suffix=E1", BAD),
    ("?from=20240106&to=20240108&=", BAD),
]


def exported(sender, receiver, *suffixes):
    """An export of the two days of the range of these streams."""
    text = f"100,NEM12,202401080102,{sender},{receiver}\n"
    for suffix, value in suffixes:
        text += f"200,NEM1201009,{suffix},1,{suffix},N1,01009,kWh,30,\n" + day("20240101", value, FINAL) + day("20240107", value, FINAL)
    return answer(OK, (text + "900\n").replace("\n", "\r\n"))


E1, B1 = ("E1", "1.5"), ("B1", "2.5")

# A suffix can be given any number of times. The export has the streams in order, each once.
EXPORT = "/v1/exports/nem12?nmi=NEM1201009&from=20240101&to=20240107&moment=202401080102"
EXPORTS = [
    (f"{EXPORT}&sender=MDP1&receiver=RETAILER&suffix=E1", exported("MDP1", "RETAILER", E1)),
    (f"{EXPORT}&sender=MDP1&receiver=RETAILER&suffix=E1&suffix=B1&suffix=E1", exported("MDP1", "RETAILER", B1, E1)),
    (f"{EXPORT}&sender=MDP1&receiver=RETAILER", exported("MDP1", "RETAILER")),
    (f"{EXPORT}&sender=&receiver", exported("", "")),
    (f"{EXPORT}&sender=A+B&receiver=A%2BB", exported("A B", "A+B")),
    (f"{EXPORT}&sender=A?B&receiver=A%3FB", exported("A?B", "A?B")),
    (f"{EXPORT}&sender=MDP1&receiver=MDP1&suffix=E1", exported("MDP1", "MDP1", E1)),
    ("/v1/exports/nem12", BAD),
    ("/v1/exports/nem12?suffix=E1", BAD),
    (f"{EXPORT}&sender=MDP1", BAD),
    (f"{EXPORT}&receiver=MDP1", BAD),
    (f"{EXPORT}&sender=MDP1&receiver=RETAILER&sender=MDP1", BAD),
    (f"{EXPORT}&sender=MDP1&receiver=RETAILER&receiver=", BAD),
    (f"{EXPORT}&sender=MDP1&receiver=RETAILER&nmi=NEM1201009", BAD),
    (f"{EXPORT}&sender=MDP1&receiver=RETAILER&from=20240101", BAD),
    (f"{EXPORT}&sender=MDP1&receiver=RETAILER&to=20240107", BAD),
    (f"{EXPORT}&sender=MDP1&receiver=RETAILER&moment=202401080102", BAD),
    (f"{EXPORT}&sender=MDP1&receiver=RETAILER&date=20240101", BAD),
    (f"{EXPORT}&sender=MDP1&receiver=RETAILER&suffixes=E1", BAD),
    (f"{EXPORT}&sender=MDP1&receiver=RETAILER&suffix=E1&suffix=e1", BAD),
    (f"{EXPORT}&sender=MDP1&receiver=RETAILER&suffix=", BAD),
    (f"{EXPORT}&sender=%0A&receiver=MDP1", BAD),
    (f"{EXPORT}&sender=MDP1&receiver=A,B", BAD),
    (f"{EXPORT}&sender=%FF&receiver=MDP1", BAD),
    (EXPORT.replace("202401080102", "202401082500") + "&sender=MDP1&receiver=RETAILER", BAD),
]

QUERIES = STREAMS + DAYS + VERSIONS + PERIODS + EXPORTS
QUERIES += [("/v1/gaps" + query, GAPS_ANSWERS.get(wanted, wanted)) for query, wanted in RANGES]
QUERIES += [("/v1/finals" + query, FINALS_ANSWERS.get(wanted, wanted)) for query, wanted in RANGES]
QUERIES += [("/v1/readings" + query, READINGS_ANSWERS.get(wanted, wanted)) for query, wanted in RANGES]
QUERIES += [("/v1/readings?nmi=NEM1201009&suffix=E1&from=20240101&to=20250204", refused(UNPROCESSABLE, error="M12")),
            ("/v1/readings?nmi=NEM1201009&suffix=E1&from=20240101&to=20240107&since=20240101", BAD),
            ("/v1/gaps?nmi=NEM1201009&suffix=E1&from=20240101&to=20240107&since=20240101", BAD)]
QUERIES += [("/v1/missing" + query, wanted) for query, wanted in MISSING]

# The kind that the query names, once, or interval data. A NEM12 file without days is imported as NEM12, and is L11 as NEM13.
AS_NEM12, AS_NEM13 = json_answer(added=0, known=0), refused(UNPROCESSABLE, error="L11", line=1)
IMPORTS = [
    ("/v1/imports", AS_NEM12),
    ("/v1/imports?", AS_NEM12),
    ("/v1/imports?&&", AS_NEM12),
    ("/v1/imports?kind=nem12", AS_NEM12),
    ("/v1/imports?kind=nem13", AS_NEM13),
    ("/v1/imports?k%69nd=nem1%33", AS_NEM13),
    ("/v1/imports?kind=NEM12", BAD),
    ("/v1/imports?kind=nem14", BAD),
    ("/v1/imports?kind=nem12+", BAD),
    ("/v1/imports?kind=", BAD),
    ("/v1/imports?kind", BAD),
    ("/v1/imports?kind=nem12&kind=nem12", BAD),
    ("/v1/imports?kind=nem13&kind=nem12", BAD),
    ("/v1/imports?kind=nem12&kind=nem12&kind=nem12", BAD),
    ("/v1/imports?Kind=nem13", BAD),
    ("/v1/imports?kind=nem12&x=1", BAD),
    ("/v1/imports?nem13", BAD),
]

# Targets with bodies, one after the other. The route decides how a body is read.
JOB_FRONT = ('{"id":"JOB-1","nmi":"NEM1201009","suffix":"E1","date":"20240126","unit":"kwh","code":"089","text":"no read",'
             '"update":"20240602000000","first":1,"last":48,"length":30,"method":14')
WHOLE_JOB = JOB_FRONT + ',"flag":"S"}'
NUMBER_AS_CODE, NO_TEXT = WHOLE_JOB.replace('"code":"089"', '"code":89'), WHOLE_JOB.replace('"text":"no read"', '"text":null')
HOLIDAYS, NO_HOLIDAYS = "date\n20240126\n20240101\n", "date\n20240230\n20240101\n"
POSTS = [("POST", target, EMPTY_FILE, wanted) for target, wanted in IMPORTS] + [
    ("POST", "/v1/imports", "{}", refused(UNPROCESSABLE, error="L2", line=1)),
    ("POST", "/v1/imports?kind=nem13", "", refused(UNPROCESSABLE, error="L9", line=1)),
    ("GET", "/v1/streams", "date\n", STREAMS_ANSWER),
    ("POST", "/v1/substitutions", WHOLE_JOB, json_answer(count=48, known=False)),
    ("POST", "/v1/substitutions?", WHOLE_JOB, json_answer(count=48, known=True)),
    ("POST", "/v1/substitutions?id=JOB-1", WHOLE_JOB, BAD),
    ("POST", "/v1/substitutions", "", BAD),
    ("POST", "/v1/substitutions?id=JOB-1", "", BAD),
    ("POST", "/v1/substitutions", "{}", BAD),
    ("POST", "/v1/substitutions?id=JOB-1", "{}", BAD),
    ("POST", "/v1/substitutions", "date\n20240101\n", BAD),
    ("POST", "/v1/substitutions?id=JOB-1", "date\n20240101\n", BAD),
    ("POST", "/v1/substitutions", JOB_FRONT, BAD),
    ("POST", "/v1/substitutions", NUMBER_AS_CODE, BAD),
    ("POST", "/v1/substitutions", NO_TEXT, BAD),
    ("POST", "/v1/substitutions?id=JOB-1", JOB_FRONT, BAD),
    ("POST", "/v1/holidays", HOLIDAYS, json_answer(added=2, known=0)),
    ("POST", "/v1/holidays?&", HOLIDAYS, json_answer(added=0, known=2)),
    ("POST", "/v1/holidays?kind=nem12", HOLIDAYS, BAD),
    ("POST", "/v1/holidays", "date\n", json_answer(added=0, known=0)),
    ("POST", "/v1/holidays", NO_HOLIDAYS, refused(UNPROCESSABLE, error="H1", line=2)),
    ("POST", "/v1/holidays?", NO_HOLIDAYS, refused(UNPROCESSABLE, error="H1", line=2)),
    ("POST", "/v1/holidays?kind=nem12", NO_HOLIDAYS, BAD),
    ("POST", "/v1/holidays", "", refused(UNPROCESSABLE, error="H1", line=1)),
    ("POST", "/v1/holidays", "day\n20240126\n", refused(UNPROCESSABLE, error="H1", line=1)),
    ("POST", "/v1/holidays", "{}", refused(UNPROCESSABLE, error="H1", line=1)),
]
