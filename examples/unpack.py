#!/usr/bin/env python3
"""Prints all readings that a store keeps, as CSV. It needs Python alone, not mdstore.

    examples/unpack.py STORE > readings.csv

A store of schema 4, or of schemas 2 and 3, is an SQLite file. Its table mds_pack has a row for each stream, day and update. The body of
a row holds the readings of that day that have that update. It is packed in bytes: see "Packed days" in docs/FORMATS.md. This script
reads these rows and prints a line for each version of an interval, after a line of names:

    nmi,suffix,date,interval,update,quality,code,text,value,length
    NEM1201009,E1,20240101,7,20240102010203,A,,,1.5,30

`length` is the interval's length in minutes. The length of a day is that of its latest update: lines of the day with another length are no
longer current. An interval that was corrected has several lines of one length; that of the latest update is current. `code` is empty if the
reading has none, and `value` if the quality is N. Lines are in order of stream, day, update and interval.

If a row doesn't follow the format, standard error says what is wrong with it, and the others are still printed. The status is 0 if all
rows were read, 1 if some weren't, and 2 if the file isn't a store of these schemas. The store isn't changed. While another process has
the store open, such as `mdstore serve`, it can't be read.
"""

import csv
import datetime
import functools
import os
import sqlite3
import sys
import urllib.parse

COLUMNS = ["nmi", "suffix", "date", "interval", "update", "quality", "code", "text", "value", "length"]
COUNTS = {5: 288, 15: 96, 30: 48}
ABSENT_CODE = 0xFFFF
EPOCH = datetime.datetime(1970, 1, 1)
DAYS = (datetime.datetime.max - EPOCH).days + 1

# The rows of mds_pack, each with the unit of its day, the length of its intervals, and the table that says the length: that of updates since
# schema 4, and before that of days. A unit or a length is missing where the row isn't there that says it.
OF_DAYS = """SELECT p.nmi, p.suffix, p.day, p.moment, p.body, h.unit, h.length, 'mds_head' FROM mds_pack AS p
    LEFT JOIN mds_head AS h ON h.nmi = p.nmi AND h.suffix = p.suffix AND h.day = p.day
    ORDER BY p.nmi, p.suffix, p.day, p.moment"""
OF_UPDATES = """SELECT p.nmi, p.suffix, p.day, p.moment, p.body, h.unit, f.length, 'mds_form' FROM mds_pack AS p
    LEFT JOIN mds_head AS h ON h.nmi = p.nmi AND h.suffix = p.suffix AND h.day = p.day
    LEFT JOIN mds_form AS f ON f.nmi = p.nmi AND f.suffix = p.suffix AND f.day = p.day AND f.moment = p.moment
    ORDER BY p.nmi, p.suffix, p.day, p.moment"""
# By schema the query for them, and the tables that it asks beside mds_head.
QUERIES = {2: (OF_DAYS, {"mds_pack"}), 3: (OF_DAYS, {"mds_pack"}), 4: (OF_UPDATES, {"mds_pack", "mds_form"})}


class Unreadable(Exception):
    """What a row has that isn't as the format says."""


class NoStore(Exception):
    """Why a file isn't read."""


class Body:
    """A body that is read from its first byte on."""

    def __init__(self, data):
        self.data, self.at = data, 0

    def piece(self, size, what):
        """The next bytes, which are so many."""
        piece = self.data[self.at:self.at + size]
        if len(piece) < size:
            raise Unreadable(f"the body ends at byte {len(self.data)}, within {what}")
        self.at += size
        return piece

    def number(self, size, what):
        """The number that the next bytes are."""
        return int.from_bytes(self.piece(size, what), "big")


def quality_of(flag, method, what):
    """The text of a quality. A and N have no method, and it is 0 there; E, F and S have one."""
    if flag in b"AN" and method == 0:
        return chr(flag)
    if flag in b"EFS" and method <= 99:
        return f"{chr(flag)}{method:02}"
    raise Unreadable(f"{what} has the flag {flag} with the method {method}")


def text_of(data, what):
    """The text of a reason: UTF-8 of at most 240 characters, none of them a comma or a control character."""
    try:
        text = data.decode()
    except UnicodeDecodeError:
        raise Unreadable(f"the text of {what} isn't UTF-8") from None
    if len(text) > 240 or any(c == "," or c < " " or "\x7f" <= c <= "\x9f" for c in text):
        raise Unreadable(f"{what} has the text {text!r}")
    return text


def run_of(body, what):
    """A run: its first and last interval, and the mark that all of its intervals have: quality, code and text. A code that is absent
    is -1."""
    first, last = body.number(2, what), body.number(2, what)
    quality = quality_of(body.number(1, what), body.number(1, what), what)
    code = body.number(2, what)
    if code > 999 and code != ABSENT_CODE:
        raise Unreadable(f"{what} has the code {code}")
    text = text_of(body.piece(body.number(2, what), what), what)
    return first, last, (quality, -1 if code == ABSENT_CODE else code, text)


def runs_of(body, count):
    """The runs, in order and without overlap. If two touch, their marks differ."""
    number = body.number(2, "the number of runs")
    if number == 0:
        raise Unreadable("there are no runs")
    runs, end, end_mark = [], 0, None
    for place in range(1, number + 1):
        what = f"run {place}"
        first, last, mark = run_of(body, what)
        if not end < first <= last <= count:
            raise Unreadable(f"{what} goes from {first} to {last}, behind {end} in a day of {count} intervals")
        if first == end + 1 and mark == end_mark:
            raise Unreadable(f"{what} has the mark of the run that it touches")
        runs.append((first, last, mark))
        end, end_mark = last, mark
    return runs


def amount_of(body, interval):
    """The value of an interval, in millionths."""
    amount = int.from_bytes(body.piece(8, f"the value of interval {interval}"), "big", signed=True)
    if abs(amount) >= 10**18:
        raise Unreadable(f"interval {interval} has the value {amount}")
    return amount


def readings_of(data, count):
    """The readings that a body holds, of a day of so many intervals: interval, quality, code, text and value. A code that is absent is
    -1, and the value is in millionths, 0 where the quality is N."""
    body = Body(data)
    version = body.number(1, "the version")
    if version != 1:
        raise Unreadable(f"the body begins with {version}, and 1 is the version that is known")
    places = body.number(2, "the count of intervals")
    if places != count:
        raise Unreadable(f"the body is of {places} intervals, and its length says {count}")
    readings = []
    for first, last, mark in runs_of(body, count):
        readings += [(interval, *mark) for interval in range(first, last + 1)]
    readings = [(*reading, 0 if reading[1] == "N" else amount_of(body, reading[0])) for reading in readings]
    if body.at < len(data):
        raise Unreadable(f"the body has {len(data)} bytes, and its last value ends at byte {body.at}")
    return readings


def opened(path):
    """The database in a file, which isn't changed. None is made where no file is."""
    database = sqlite3.connect(f"file:{urllib.parse.quote(os.path.abspath(path))}?mode=rw", uri=True)
    database.execute("PRAGMA query_only = 1")
    database.text_factory = lambda data: data.decode(errors="backslashreplace")
    return database


def rows_of(database):
    """The rows of mds_pack with what belongs to them. The database has to be a store of a schema whose readings are all packed."""
    tables = {name for name, in database.execute("SELECT name FROM sqlite_schema WHERE type = 'table'")}
    if not {"mds_schema", "mds_head", "mds_version"} <= tables:
        raise NoStore("this is no store")
    versions = [version for version, in database.execute("SELECT version FROM mds_schema")]
    if versions == [1]:
        raise NoStore("this is a store of schema 1, whose table mds_version has a row for each version already")
    query, asked = QUERIES.get(versions[0] if len(versions) == 1 else None, (None, tables))
    if query is None or not asked <= tables:
        raise NoStore(f"mds_schema says {', '.join(map(str, versions)) or 'nothing'}, and only stores of schemas 2 to 4 are read")
    if database.execute("SELECT 1 FROM mds_version LIMIT 1").fetchone():
        raise NoStore(f"mds_version has rows, and in schema {versions[0]} it has none")
    return database.execute(query)


def row_name(nmi, suffix, day, moment):
    """How a row is named where it can't be read."""
    name = f"mds_pack, {nmi} {suffix}, day {day}"
    name += f" ({date_text(day)})" if 0 <= day < DAYS else ""
    name += f", update {moment}"
    return name + (f" ({moment_text(moment)})" if 0 <= moment < DAYS * 86400 else "")


@functools.lru_cache
def date_text(day):
    return f"{EPOCH + datetime.timedelta(day):%Y%m%d}"


@functools.lru_cache
def moment_text(moment):
    return f"{EPOCH + datetime.timedelta(seconds=moment):%Y%m%d%H%M%S}"


def value_text(amount):
    """A value as mdstore writes it: no zeros at the end of its decimals, and no point without decimals."""
    whole, decimals = divmod(abs(amount), 10**6)
    return ("-" if amount < 0 else "") + f"{whole}.{decimals:06}".rstrip("0").rstrip(".")


def versions_of(row):
    """The versions that a row holds: nmi, suffix, day, interval, moment, quality, code, text and value, as the columns of a row of
    mds_version in schema 1, and behind them the length."""
    nmi, suffix, day, moment, body, unit, length, table = row
    if unit is None:
        raise Unreadable("its day has no row in mds_head")
    if length is None:
        raise Unreadable("it has no row in mds_form")
    if length not in COUNTS:
        raise Unreadable(f"{table} says intervals of {length} minutes, and there are only 5, 15 and 30")
    if not 0 <= day < DAYS:
        raise Unreadable("there is no such day from 1970 to 9999")
    if not 0 <= moment < DAYS * 86400:
        raise Unreadable("there is no such moment from 1970 to 9999")
    return [(nmi, suffix, day, interval, moment, *reading, length) for interval, *reading in readings_of(body, COUNTS[length])]


def all_versions(path, report):
    """All versions of a store, row by row. What is wrong with a row that can't be read is reported, with its name."""
    database = opened(path)
    try:
        for row in rows_of(database):
            try:
                versions = versions_of(row)
            except Unreadable as problem:
                report(row_name(*row[:4]), str(problem))
                continue
            yield from versions
    finally:
        database.close()


def line_of(version):
    """What is printed of a version."""
    nmi, suffix, day, interval, moment, quality, code, text, amount, length = version
    return [nmi, suffix, date_text(day), interval, moment_text(moment), quality, "" if code == -1 else code, text,
            "" if quality == "N" else value_text(amount), length]


def main(words):
    if words in (["-h"], ["--help"]):
        print(__doc__.strip())
        return 0
    if len(words) != 1:
        print(__doc__, file=sys.stderr)
        return 2
    problems = []

    def report(name, problem):
        problems.append(name)
        print(f"{name}: {problem}", file=sys.stderr)

    out = csv.writer(sys.stdout, lineterminator="\n")
    try:
        versions = all_versions(words[0], report)
        first = next(versions, None)
        out.writerow(COLUMNS)
        if first is not None:
            out.writerow(line_of(first))
            out.writerows(map(line_of, versions))
        sys.stdout.flush()
    except (NoStore, sqlite3.Error) as problem:
        print(f"{words[0]}: {problem}", file=sys.stderr)
        return 2
    except BrokenPipeError:
        # The reader has enough.
        os.dup2(os.open(os.devnull, os.O_WRONLY), sys.stdout.fileno())
    return 1 if problems else 0


if __name__ == "__main__":
    sys.stdout.reconfigure(encoding="utf-8")
    sys.exit(main(sys.argv[1:]))
