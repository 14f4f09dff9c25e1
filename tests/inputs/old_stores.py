"""The stores of earlier schemas that tests/migration migrates: what they were made from, and what is asked about them.

    tests/inputs/old_stores.py MDSTORE

It is run with a program that makes stores of one of these schemas. It writes that store as SQL text, tests/fixtures/schema_1.sql or one of the
files next to it. For schema 1 it also writes what the program answers, tests/fixtures/schema_1.answers. A program of schema 2 has to answer the
same. So has one of a later schema, except that it returns the lengths of versions, and exports the details that files stated for each day. The
programs were those of commits ec70073, 286d010 and 6bf038a. Their stores depend on nothing but their input, so another run writes the same
bytes.
"""

import contextlib
import datetime
import http.client
import itertools
import json
import os
import sqlite3
import subprocess
import sys
import tempfile
import time

sys.dont_write_bytecode = True
if __name__ == "__main__":
    # A script in tests/ finds the packages next to it. This file is one folder deeper.
    sys.path.insert(0, os.path.dirname(os.path.dirname(os.path.abspath(__file__))))
from common.checks import check, finish, trying
from common.programs import MDSTORE, free_port, is_listening, mdstore
from inputs.file_parts import HEADER, block, day, file_of, period

# The schemas, and the commits of the programs that made their stores.
COMMITS = {1: "ec70073", 2: "286d010", 3: "6bf038a"}
ANSWERS = "tests/fixtures/schema_1.answers"


def run(first, last, quality, code="", text=""):
    """A 400 record."""
    return f"400,{first},{last},{quality},{code},{text}\n"


def job(name, date, first, last, method, flag, update, code="", text="", **others):
    """A substitution job, of half hours in kWh if nothing else is given."""
    whole = {"id": name, "nmi": "NEM1201009", "suffix": "E1", "date": date, "first": first, "last": last, "length": 30, "unit": "kWh",
             "method": method, "flag": flag, "code": code, "text": text, "update": update}
    return json.dumps({**whole, **others}, ensure_ascii=False)


def example(name):
    with open("examples/" + name, encoding="utf-8") as file:
        return file.read()


def known_day():
    """The last day of the first stream of examples/week.nem12, as the file has it."""
    return next(line + "\n" for line in example("week.nem12").splitlines() if line.startswith("300,20240107,"))


def corrected_day():
    """A day of examples/week.nem12 under a later update, with other values in three intervals, and one null value."""
    line = next(line for line in example("week.nem12").splitlines() if line.startswith("300,20240103,"))
    values = line.split(",")[2:50]
    values[4:7] = ["1.234567", "-0.5", "0"]
    return file_of(block(configuration="E1B1", register="E1"), day("20240103", values, "A", update="20240110120000"), run(9, 9, "N", "79"),
                   header=HEADER.replace("202401030000", "202401101230"))


def quarters():
    """A day of 15 minutes with the greatest and the least value, and with reasons of all forms."""
    values = ["999999999999.999999", "-999999999999.999999", "0.000001", "-0.000001"] + [f"{k}.25" for k in range(91)] + ["-7"]
    return file_of(block("NEM1201011", "Q1K1", "Q1", "Q1", "N2", "0/7", "kVArh", "15", "20240501"),
                   day("20240229", values, "V", update="20240301000001"), run(1, 2, "A"), run(3, 3, "S00", "0"),
                   run(4, 40, "F99", "999", "Zähler gewechselt"), run(41, 50, "N", "7", "no read"), run(51, 52, "E52", "", "é" * 240),
                   run(53, 96, "E52"))


def five_minutes():
    """A day of 5 minutes in which half of the intervals have their own mark, and a day without a value."""
    values = [f"{k % 7}.{k:03}" for k in range(288)]
    marks = ["A", "S14", "N", "F53"]
    runs = [run(k, k + 1, marks[k % 4]) for k in range(1, 144, 2)] + [run(k, k, "AN"[k % 2]) for k in range(145, 289)]
    return file_of(block("NEM1201012", length="5"), day("20240105", values, "V", update="20240106000000"), *runs,
                   day("20240106", 288 * [""], "N", "1", "", "20240107000000"))


def first_and_last():
    """The first day that exists, updated at the first moment, and the last day, updated at one of the last moments."""
    return file_of(block("NEM1201013"), day("19700101", [f"{k}" for k in range(48)], update="19700101000000"),
                   day("99991231", 48 * ["1"], "F14", "76", "", "99991231235959"), "500,O,S1,99991231235959,12\n500\n",
                   header="100,NEM12,197001010000,MDP1,RETAILER\n")


PERIOD_HEADER = "100,NEM13,20040302010203,MDP1,RETAILER\n"
PERIODS = file_of(period(), "550,N,,A,\n550,,B7,,\n",
                  period({9: "000534.5", 10: "20040201100030", 14: "000600", 15: "20040301100030", 19: "65.5", 22: ""}),
                  header=PERIOD_HEADER)
LATER_WEEK = ("NEM1201009", "E1B1", "E1", "E1", "N1", "M-2", "kWh", "30", "20250101")

# What a store accepted, in order: the words of a command without its store, and its input.
STEPS = [
    (["import", "-"], example("week.nem12")),
    (["import", "-"], corrected_day()),
    (["import", "-"], example("variable.nem12")),
    (["import", "--kind", "nem13", "-"], PERIODS),
    (["holidays", "-"], "date\n20240126\n20240401\n"),
    (["substitute", "-"], job("J1", "20240108", 5, 8, 15, "F", "20240109000000", "76")),
    (["substitute", "-"], job("J2", "20240122", 9, 12, 19, "S", "20240123000000", text="no read")),
    (["substitute", "-"], job("J3", "20240126", 1, 2, 14, "S", "20240127000000")),
    (["substitute", "-"], job("J4", "20240103", 9, 9, 17, "S", "20240111000000", "79")),
    # next to the readings of J2, under its update
    (["substitute", "-"], job("J5", "20240122", 20, 21, 19, "F", "20240123000000")),
    (["import", "-"], quarters()),
    (["import", "-"], five_minutes()),
    (["import", "-"], first_and_last()),
    # later details, with a known day
    (["import", "-"], file_of(block(*LATER_WEEK), known_day(), header=HEADER.replace("202401030000", "202402010000"))),
]

# What comes after that: new readings, also next to those of one update of a day, and conflicts.
BESIDE = [run(1, 8, "A"), run(9, 12, "S19", "", "no read"), run(13, 19, "A"), run(20, 21, "F19"), run(22, 48, "A")]
LATER_STEPS = [
    (["import", "-"], file_of(block(*LATER_WEEK), day("20240122", 48 * ["2"], "V", update="20240123000000"), *BESIDE)),
    (["import", "-"], file_of(block(*LATER_WEEK), day("20240122", 8 * ["2"] + 4 * ["0"] + 7 * ["2"] + 2 * ["0"] + 27 * ["2"], "V",
                                                      update="20240123000000"), *BESIDE)),
    (["import", "-"], file_of(block(*LATER_WEEK), day("20240108", 48 * ["3"], update="20240110000000"))),
    (["substitute", "-"], job("J6", "20240126", 3, 4, 19, "F", "20240127000000", text="again")),
    (["import", "-"], file_of(block(*LATER_WEEK), day("20240107", 48 * ["3"], update="20240108093000"))),
    (["substitute", "-"], job("J1", "20240108", 5, 8, 15, "F", "20240109000000", "77")),
    # another length under the update of a job, under a later one, and under one before both
    (["import", "-"], file_of(block(*LATER_WEEK[:7], "15"), day("20240122", 96 * ["3"], update="20240123000000"))),
    (["import", "-"], file_of(block(*LATER_WEEK[:7], "15"), day("20240122", 96 * ["3"], update="20240125000000"))),
    (["import", "-"], file_of(block(*LATER_WEEK[:7], "5"), day("20240122", 288 * ["4"], update="20240122000000"))),
    (["substitute", "-"], job("J7", "20240122", 5, 8, 19, "F", "20240126000000")),
]

LENGTHS = {("NEM1201011", "Q1"): 96, ("NEM1201012", "E1"): 288}
# The day that has more intervals after the further steps than before.
LATER_LENGTHS = {("NEM1201009", "E1", "20240122"): 288}
STREAMS = [("NEM1201009", "E1"), ("NEM1201009", "B1"), ("NEM1201010", "E1"), *LENGTHS, ("NEM1201013", "E1")]
WEEK = [f"2024010{k}" for k in range(1, 8)]
DATES = {
    ("NEM1201009", "E1"): [*WEEK, "20240108", "20240122", "20240126"],
    ("NEM1201009", "B1"): WEEK,
    ("NEM1201010", "E1"): WEEK,
    ("NEM1201011", "Q1"): ["20240229"],
    ("NEM1201012", "E1"): ["20240105", "20240106"],
    ("NEM1201013", "E1"): ["19700101", "99991231"],
}
HEADER_WORDS = "moment=202406010000&sender=MDP1&receiver=RETAILER"


def questions():
    """The targets that are asked for, except versions."""
    yield "/v1/streams"
    for nmi, suffix in [*STREAMS, ("1234567890", "11")]:
        stream = f"nmi={nmi}&suffix={suffix}"
        for date in [*DATES.get((nmi, suffix), []), "20240131"]:
            yield f"/v1/days/{nmi}/{suffix}/{date}"
        yield f"/v1/periods/{nmi}/{suffix}"
        for first, last in [("20231230", "20240112"), ("20240120", "20240301"), ("19700101", "19700103"), ("99991230", "99991231")]:
            for register in ["gaps", "finals"]:
                yield f"/v1/{register}?{stream}&from={first}&to={last}"
            yield f"/v1/exports/nem12?{stream}&from={first}&to={last}&{HEADER_WORDS}"
    yield f"/v1/exports/nem12?nmi=NEM1201009&suffix=E1&suffix=B1&from=20240101&to=20250203&{HEADER_WORDS}"
    yield f"/v1/exports/nem12?nmi=NEM1201009&suffix=E1&from=20240101&to=20250204&{HEADER_WORDS}"


class Service:
    """A process that serves a store."""

    def __init__(self, store):
        for _ in range(20):
            self.port = free_port()
            self.process = subprocess.Popen([MDSTORE, "serve", "--store", store, "--port", str(self.port)], stdin=subprocess.DEVNULL,
                                            stdout=subprocess.DEVNULL)
            while self.process.poll() is None and not is_listening(self.port):
                time.sleep(0.002)
            if self.process.poll() is None:
                return
        raise RuntimeError(f"serve doesn't listen: {store}")

    def __enter__(self):
        return self

    def __exit__(self, *_):
        self.process.kill()
        self.process.wait()

    def get(self, target):
        """The status and the text of an answer."""
        trying(f"GET {target}")
        connection = http.client.HTTPConnection("127.0.0.1", self.port, timeout=60)
        connection.request("GET", target)
        answer = connection.getresponse()
        text = answer.read().decode()
        connection.close()
        return answer.status, text


def versions_answered(service, nmi, suffix, date, count):
    """The versions of each interval of a day. There are none before and after these. The rest of such an answer repeats what was asked for."""
    found = []
    for interval in range(1, count + 1):
        status, text = service.get(f"/v1/versions/{nmi}/{suffix}/{date}/{interval}")
        versions = json.loads(text).get("versions")
        whole = {"date": date, "interval": interval, "nmi": nmi, "suffix": suffix, "versions": versions}
        check(f"versions of {nmi} {suffix} {date} {interval}", (status, text),
              (200, json.dumps(whole, ensure_ascii=False, separators=(",", ":"), sort_keys=True)))
        found.append(versions)
    for interval in [0, count + 1]:
        check(f"versions of {nmi} {suffix} {date} {interval}", service.get(f"/v1/versions/{nmi}/{suffix}/{date}/{interval}"),
              (404, '{"error":"M10"}'))
    return found


def all_answers(store, lengths={}):
    """Everything that is asked of a store, with the answers. Some days may have more intervals than others of their stream."""
    answers = {}
    with Service(store) as service:
        for target in questions():
            answers[target] = list(service.get(target))
        for stream in STREAMS:
            for date in DATES[stream]:
                count = lengths.get((*stream, date), LENGTHS.get(stream, 48))
                answers["versions " + " ".join([*stream, date])] = versions_answered(service, *stream, date, count)
    # A service that is killed leaves its log next to the store.
    mdstore("streams", "--store", store)
    return answers


def take(store, steps):
    """Makes these steps with a store, and returns what was printed."""
    printed = []
    for (name, *words), given in steps:
        ran = mdstore(name, "--store", store, *words, given=given.encode())
        printed.append(f"{ran.stdout.decode().strip()} status {ran.returncode}")
    return printed


def sql_of(schema):
    """The file that has a store of a schema as SQL text."""
    return f"tests/fixtures/schema_{schema}.sql"


def opened(store):
    """The database in a file. It is closed in the end."""
    return contextlib.closing(sqlite3.connect(store, isolation_level=None))


def table_names(database):
    """The tables, in the order in which they were made."""
    return [name for name, in database.execute("SELECT name FROM sqlite_schema WHERE type = 'table' ORDER BY rowid")]


def all_rows(database):
    """The rows of each table, in the order in which they were added."""
    return {name: database.execute(f"SELECT * FROM {name} ORDER BY rowid").fetchall() for name in table_names(database)}


def lines_of_sql(database, schema):
    """A store as SQL text, table by table and row by row. Versions of consecutive intervals with one update and one mark are one statement."""
    yield f"-- A store of schema {schema}, of commit {COMMITS[schema]}: what tests/inputs/old_stores.py wrote. Each statement is a line."
    yield "BEGIN;"
    for name, sql in database.execute("SELECT name, sql FROM sqlite_schema WHERE type = 'table' ORDER BY rowid").fetchall():
        yield sql + ";"
        columns = [row[1] for row in database.execute(f"PRAGMA table_info({name})")]
        rows = database.execute(f"SELECT {', '.join(f'quote({column})' for column in columns)} FROM {name} ORDER BY rowid").fetchall()
        if name != "mds_version":
            yield from (f"INSERT INTO {name} VALUES({','.join(row)});" for row in rows)
            continue
        for key, found in itertools.groupby(enumerate(rows), lambda at: (*at[1][:3], int(at[1][3]) - at[0], *at[1][4:8])):
            found = [row for _, row in found]
            nmi, suffix, number, _, moment, quality, code, note = key
            yield (f"INSERT INTO mds_version SELECT {nmi},{suffix},{number},{found[0][3]}+key,{moment},{quality},{code},{note},value "
                   f"FROM json_each('[{','.join(row[8] for row in found)}]');")
    yield "COMMIT;"


def build(store, schema):
    """Makes a store of a schema in a file."""
    with open(sql_of(schema), encoding="utf-8") as file, opened(store) as database:
        database.executescript(file.read())


def build_step(store):
    """Takes the store of schema 2 in a file to schema 3, as a step of a migration does."""
    with open(sql_of(3), encoding="utf-8") as file, opened(store) as database:
        details = dated(all_rows(database))
        database.execute(next(line for line in file if line.startswith("CREATE TABLE mds_daydetail ")))
        database.executemany("INSERT INTO mds_daydetail VALUES (?, ?, ?, ?, ?, ?, ?, ?, ?)", details)
        database.execute("DELETE FROM mds_detail")
        database.execute("UPDATE mds_schema SET version = 3")


# Details of meters: of a stream before schema 3, and of a day since then. Days and moments are numbers as in the tables.

EPOCH = datetime.datetime(1970, 1, 1)
NO_DETAILS = "", "", "", "", -1


def day_number(date):
    return (datetime.datetime.strptime(date, "%Y%m%d") - EPOCH).days


def moment_number(text):
    """The seconds of a moment, which may be written without seconds."""
    return int((datetime.datetime.strptime(text.ljust(14, "0"), "%Y%m%d%H%M%S") - EPOCH).total_seconds())


def date_text(number):
    """A date, or an empty text if it is absent."""
    return "" if number == -1 else f"{EPOCH + datetime.timedelta(number):%Y%m%d}"


def dated(rows):
    """The rows of mds_daydetail, in order, for the rows of a store of an earlier schema. Each known day has the greatest moment of its stream,
    with the greatest details under it. If a stream has no details, its days have none."""
    details = {}
    for nmi, suffix, *detail in rows["mds_detail"]:
        details[nmi, suffix] = max(tuple(detail), details.get((nmi, suffix), (-1,)))
    return sorted((*head[:3], *details[head[:2]]) for head in rows["mds_head"] if head[:2] in details)


def stated_details(steps):
    """The rows of mds_daydetail that files state, in order: for each 300 the moment of the 100, and what the 200 says."""
    rows = set()
    for (name, *_), given in steps:
        for kind, *fields in [line.split(",") for line in given.splitlines()] if name == "import" else []:
            if kind == "100":
                moment = moment_number(fields[1])
            elif kind == "200":
                nmi, configuration, register, suffix, datastream, meter, _, _, read = fields[:9]
            elif kind == "300":
                rows.add((nmi, suffix, day_number(fields[0]), moment, configuration, register, datastream, meter,
                          day_number(read) if read else -1))
    return sorted(rows)


def current_details(rows, nmi, suffix, date):
    """The current details of a day, by the rows of mds_daydetail: the greatest of the nearest day up to it that has some."""
    found = [row[2:] for row in rows if row[:2] == (nmi, suffix) and row[2] <= day_number(date)]
    return max(found)[2:] if found else NO_DETAILS


def with_details(export, rows):
    """An export with other details of days. A 200 is written where length, unit or details differ from the day before."""
    lines, last = [], None
    for line in export.split("\r\n"):
        kind, *fields = line.split(",")
        if kind == "200":
            nmi, _, _, suffix, _, _, unit, length, _ = fields
            continue
        if kind == "300":
            configuration, register, datastream, meter, read = current_details(rows, nmi, suffix, fields[0])
            block = ",".join(["200", nmi, configuration, register, suffix, datastream, meter, unit, length, date_text(read)])
            lines += [block] if block != last else []
            last = block
        lines.append(line)
    return "\r\n".join(lines)


def answers_with(answers, rows):
    """All answers with other details of days. Only exports show them, since the last day of each stream has the same details."""
    return {target: [answer[0], with_details(answer[1], rows)] if target.startswith("/v1/exports/") else answer
            for target, answer in answers.items()}


# Answers that are kept in a file.

def with_length(name, answer):
    """An answer of today's form, in which a version has the length of its interval. The programs of schemas 1 and 2 didn't return it."""
    kind, *parts = name.split()
    if kind != "versions":
        return answer
    length = str(1440 // LENGTHS.get(tuple(parts[:2]), 48))
    return [[[*version, length] for version in versions] for versions in answer]


def kept_of_schema_1():
    """What the program of schema 1 printed for the steps, what it printed for them a second time, and what it answered."""
    with open(ANSWERS, encoding="utf-8") as file:
        whole = json.load(file)
    return whole["printed"], whole["again"], whole["answers"]


def kept_answers():
    """The same, with the lengths of versions."""
    printed, again, answers = kept_of_schema_1()
    return printed, again, {name: with_length(name, answer) for name, answer in answers.items()}


def write(folder):
    """Makes the store, and writes its text and its answers, or compares these with those that are kept."""
    store = os.path.join(folder, "store.db")
    mdstore("init", "--store", store)
    printed = take(store, STEPS)
    with opened(store) as database:
        rows = all_rows(database)
        (schema,), = rows["mds_schema"]
        text = "".join(line + "\n" for line in lines_of_sql(database, schema))
    with open(sql_of(schema), "w", encoding="utf-8") as file:
        file.write(text)
    answers = all_answers(store)
    # The text that was written is that store: it answers the same, and everything in it is known.
    copy = os.path.join(folder, "copy.db")
    build(copy, schema)
    with opened(copy) as database:
        check("rows of the copy", all_rows(database), rows)
    check("answers of the copy", all_answers(copy), answers)
    again = take(copy, STEPS)
    later = take(copy, LATER_STEPS)
    print("\n".join([*printed, "again:", *again, "later:", *later]), file=sys.stderr)
    if schema == 1:
        write_answers({"printed": printed, "again": again, "answers": answers})
    elif schema == 2:
        check("what a store of schema 1 answers", (printed, again, answers), kept_of_schema_1())
    else:
        *wanted, kept = kept_answers()
        check("what a store of schema 1 answers", (printed, again, answers), (*wanted, answers_with(kept, stated_details(STEPS))))


def write_answers(whole):
    """Writes what was printed and answered, with a line for each answer."""
    parts = [json.dumps(key) + ": {\n" + ",\n".join(f"{json.dumps(name)}: {compact(value)}" for name, value in part.items()) + "\n}"
             if isinstance(part, dict) else json.dumps(key) + ": " + json.dumps(part, indent=1, ensure_ascii=False)
             for key, part in whole.items()]
    with open(ANSWERS, "w", encoding="utf-8") as file:
        file.write("{\n" + ",\n".join(parts) + "\n}\n")


def compact(value):
    return json.dumps(value, ensure_ascii=False, separators=(",", ":"))


if __name__ == "__main__":
    with tempfile.TemporaryDirectory() as made:
        write(made)
    finish()
