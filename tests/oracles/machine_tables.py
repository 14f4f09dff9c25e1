"""The tables of the World that the machine of machine.py keeps, by "The tables" of docs/FORMATS.md."""

import collections
import contextlib
import datetime
import sqlite3

from common.schemas import CURRENT
from oracles.packed_days import rows_of

EPOCH = datetime.datetime(1970, 1, 1)

# The parts of a job, in the order of its body.
JOB = ["nmi", "suffix", "date", "first", "last", "length", "unit", "method", "flag", "code", "text", "update"]


def day_number(date):
    """The days from 1970 to a date, or -1 if it is absent."""
    return (datetime.datetime.strptime(date, "%Y%m%d") - EPOCH).days if date else -1


def seconds(moment):
    """The seconds from 1970 to a moment, or -1 if it is absent."""
    return int((datetime.datetime.strptime(moment, "%Y%m%d%H%M%S") - EPOCH).total_seconds()) if moment else -1


def packed(reading):
    """A reading as a body has it. A missing code is -1."""
    quality, code, text, value = reading
    return quality, int(code or -1), text, value


def tables_of(machine):
    """The rows of each table, in their order."""
    heads, forms, versions, counts, details, events = [], [], [], {}, [], []
    for stream, days in machine.days.items():
        for date, facts in days.items():
            day = (*stream, day_number(date))
            heads.append((*day, 0, facts.unit))
            forms += [(*day, seconds(update), length) for update, length in facts.lengths.items()]
            counts.update(((*day, seconds(update)), 1440 // length) for update, length in facts.lengths.items())
            versions += [(*day, interval, seconds(update), *packed(reading)) for update, readings in facts.versions.items()
                         for interval, reading in readings.items()]
            details += [(*day, seconds(moment), *texts, day_number(next_read)) for moment, (*texts, next_read) in facts.details]
            events += [(*day, trans, ticket, seconds(moment), reading) for trans, ticket, moment, reading in facts.events]
    periods = [(*stream, register, *map(seconds, moments), "\n".join(map(",".join, [fields, *notes])))
               for stream, kept in machine.periods.items() for (register, *moments), (fields, notes) in kept.items()]
    jobs = [(name, ",".join(str(job[part]) for part in JOB), count) for name, (job, count) in machine.jobs.items()]
    rows = {"mds_schema": [(CURRENT,)], "mds_head": heads, "mds_version": [], "mds_detail": [], "mds_event": events, "mds_period": periods,
            "mds_holiday": [(day_number(date),) for date in machine.holidays], "mds_job": jobs, "mds_pack": rows_of(versions, counts),
            "mds_daydetail": details, "mds_form": forms}
    return {table: sorted(its) for table, its in rows.items()}


def tables_in(store):
    """The rows of each table in a file, in their order."""
    with contextlib.closing(sqlite3.connect(store)) as database:
        names = [name for name, in database.execute("SELECT name FROM sqlite_master WHERE type = 'table'")]
        return {name: sorted(database.execute(f"SELECT * FROM {name}")) for name in names}


def fill(store, tables):
    """Puts these rows into the tables of a new store."""
    with contextlib.closing(sqlite3.connect(store)) as database, database:
        for table, rows in tables.items():
            database.execute(f"DELETE FROM {table}")
            for row in rows:
                database.execute(f"INSERT INTO {table} VALUES ({', '.join('?' for _ in row)})", row)


def rows_of_one(one, other):
    """The rows that only one of the two has, each with its table."""
    one, other = (collections.Counter((table, row) for table, rows in tables.items() for row in [None, *rows]) for tables in (one, other))
    return sorted((one - other) + (other - one), key=repr)
