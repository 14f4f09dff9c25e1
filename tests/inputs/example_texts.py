"""The parts of files, requests and answers, in the words of docs/FORMATS.md.

A request is its method, its target and its body. An answer is its status, the type of its body and its body.
"""

import json

from inputs.file_parts import record_300

NMI, SUFFIX = "NEM1201009", "E1"
STREAM = f"{NMI}/{SUFFIX}"
JSON, CSV = "application/json", "text/csv"


# The records of files.

def header(moment="202401030000", kind="NEM12"):
    """A 100 record."""
    return f"100,{kind},{moment},MDP1,RETAILER\n"


def block(length=30, unit="kWh", suffix=SUFFIX, meter="01009", next_read="", nmi=NMI):
    """A 200 record."""
    return f"200,{nmi},{suffix},1,{suffix},N1,{meter},{unit},{length},{next_read}\n"


def day(date, values, update, quality="A", code="", text=""):
    """A 300 record."""
    return record_300(date, values, quality, code, text, update, "")


def run(first, last, quality, code="", text=""):
    """A 400 record."""
    return f"400,{first},{last},{quality},{code},{text}\n"


def event(trans="", order="", moment="", reading=""):
    """A 500 record."""
    return f"500,{trans},{order},{moment},{reading}\n"


def accumulation(previous, current, quantity, register="01", next_read="", update="", loaded=""):
    """A 250 record. A read is its index, its moment, its quality and its reason, with commas between them."""
    return f"250,1234567890,1141,{register},11,11,METSER66,E,{previous},{current},{quantity},kWh,{next_read},{update},{loaded}\n"


def note(previous_trans="", previous_order="", current_trans="", current_order=""):
    """A 550 record."""
    return f"550,{previous_trans},{previous_order},{current_trans},{current_order}\n"


END = "900\n"


def half_hours(value):
    """The values of a day of half hours."""
    return 48 * [value]


# Requests.

def take_in(*records):
    """The request that imports a NEM12 file."""
    return "POST", "/v1/imports", "".join(records).encode()


def take_in_periods(*records):
    """The request that imports a NEM13 file."""
    return "POST", "/v1/imports?kind=nem13", "".join(records).encode()


def fill_in(name, date, first, last, method, flag, update, **others):
    """The request for a substitution job with an id. It has no reason, and is of half hours in kWh, if nothing else is given."""
    job = {"id": name, "nmi": NMI, "suffix": SUFFIX, "date": date, "first": first, "last": last, "length": 30, "unit": "kWh",
           "method": method, "flag": flag, "code": "", "text": "", "update": update}
    return "POST", "/v1/substitutions", json.dumps({**job, **others}, ensure_ascii=False).encode()


def list_holidays(*dates):
    return "POST", "/v1/holidays", "\n".join(["date", *dates, ""]).encode()


def get_day(date):
    return "GET", f"/v1/days/{STREAM}/{date}", None


def get_versions(date, interval):
    return "GET", f"/v1/versions/{STREAM}/{date}/{interval}", None


def get_periods(nmi, suffix):
    return "GET", f"/v1/periods/{nmi}/{suffix}", None


def get_gaps(first, last):
    return "GET", f"/v1/gaps?nmi={NMI}&suffix={SUFFIX}&from={first}&to={last}", None


def get_finals(first, last):
    return "GET", f"/v1/finals?nmi={NMI}&suffix={SUFFIX}&from={first}&to={last}", None


def get_missing(first, last, since=None):
    """The request for the gaps of all streams, or of those that have a known day from `since` on."""
    return "GET", f"/v1/missing?from={first}&to={last}" + ("" if since is None else f"&since={since}"), None


def get_readings(first, last):
    return "GET", f"/v1/readings?nmi={NMI}&suffix={SUFFIX}&from={first}&to={last}", None


def export(first, last, *suffixes):
    """The request that exports a range of days of the meter, under the header that `exported` writes."""
    names = "".join(f"&suffix={suffix}" for suffix in suffixes)
    return "GET", f"/v1/exports/nem12?nmi={NMI}{names}&from={first}&to={last}&moment=202401040000&sender=MDP1&receiver=RETAILER", None


GET_STREAMS = "GET", "/v1/streams", None


# Answers.

def json_answer(value):
    """An answer in compact JSON, with its keys in the order of their bytes."""
    return 200, JSON, json.dumps(value, ensure_ascii=False, separators=(",", ":"), sort_keys=True)


def added(count, known):
    return json_answer({"added": count, "known": known})


def filled(count):
    """`count` intervals were substituted."""
    return json_answer({"count": count, "known": False})


def filled_before(count):
    """The job is known. It filled `count` intervals when it was done."""
    return json_answer({"count": count, "known": True})


def refused(code, **place):
    """A refusal: its code, and the line, field and interval that apply."""
    statuses = {"400": 400, "M10": 404, "M1": 409, "M2": 409, "M3": 409, "M4": 409, "M5": 409, "M6": 409, "U1": 503}
    _, kind, text = json_answer({"error": code, **place})
    return statuses.get(code, 422), kind, text


NO_JOB = refused("400")


def day_answer(date, readings, update, length=30, events=()):
    """A day: its current readings and its events. A reading is its quality, code, text and value, with commas between them. It is given for the
    first interval that has it."""
    whole = []
    for interval in range(1, 1440 // length + 1):
        whole.append(readings[interval].split(",") if interval in readings else whole[-1])
    return json_answer({"date": date, "events": [text.split(",") for text in events], "length": length, "nmi": NMI, "readings": whole,
                 "suffix": SUFFIX, "unit": "kWh", "update": update})


def versions_answer(date, interval, *versions, length=30):
    """The versions of an interval, all of one length. Each is its update and its reading, with commas between them."""
    return versions_of_lengths_answer(date, interval, *(f"{text},{length}" for text in versions))


def versions_of_lengths_answer(date, interval, *versions):
    """The versions of an interval. Each is its update, its reading and its length, with commas between them."""
    return json_answer({"date": date, "interval": interval, "nmi": NMI, "suffix": SUFFIX, "versions": [text.split(",") for text in versions]})


def periods_answer(nmi, suffix, *periods):
    """The accumulations of a stream. Each is the texts of its fields and of its notes."""
    return json_answer({"nmi": nmi, "suffix": suffix, "periods": [
        {"fields": fields.split(","), "notes": [text.split(",") for text in notes]} for fields, *notes in periods]})


def streams_answer(*streams):
    """The streams. Each is its NMI, suffix, configuration, register, data stream, meter and next read, with commas between them."""
    names = ["nmi", "suffix", "configuration", "register", "datastream", "meter", "next"]
    return json_answer({"streams": [dict(zip(names, text.split(","))) for text in streams]})


def gaps(*rows):
    """The register of gaps. Each row has the date, and the first and the last interval."""
    return 200, CSV, "".join(["nmi,suffix,date,first,last\n", *(f"{NMI},{SUFFIX},{row}\n" for row in rows)])


def finals(*rows):
    """The register of finals. Each row has the date, the first and the last interval, and the method, code and text."""
    return 200, CSV, "".join(["nmi,suffix,date,first,last,method,code,text\n", *(f"{NMI},{SUFFIX},{row}\n" for row in rows)])


def missing(*rows):
    """The gaps of all streams. Each row has the NMI, the suffix, the date, and the first and the last interval."""
    return 200, CSV, "".join(["nmi,suffix,date,first,last\n", *(f"{row}\n" for row in rows)])


def readings(*days):
    """The readings of days as rows, one for each interval. `day_of_rows` makes those of a day."""
    return 200, CSV, "".join(["nmi,suffix,start,minutes,unit,quality,code,text,value,update\n", *(f"{row}\n" for rows in days for row in rows)])


def day_of_rows(date, readings, length=30, unit="kWh"):
    """The rows of a day. A reading is its quality, code, text, value and update, with commas between them. It is given for the first interval
    that has it."""
    rows, reading = [], None
    for interval in range(1, 1440 // length + 1):
        reading, minutes = readings.get(interval, reading), (interval - 1) * length
        rows.append(f"{NMI},{SUFFIX},{date[:4]}-{date[4:6]}-{date[6:]}T{minutes // 60:02}:{minutes % 60:02},{length},{unit},{reading}")
    return rows


def exported(*records):
    """An export: a file whose lines end with CR LF."""
    return 200, CSV, "".join([header("202401040000"), *records, END]).replace("\n", "\r\n")
