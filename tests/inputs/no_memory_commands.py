"""The commands to which tests/no_memory refuses memory."""

import os
import re

from common.disturbed import after_steps, old_store_of_a_day, store_of
from common.programs import MDSTORE
from common.schemas import CURRENT
from inputs import no_memory_rows as rows
from inputs.no_memory_rows import NMI, NUMBER

STORE = ["--store", "@store.db"]
WITH_STREAM = [*STORE, NMI, "E1"]
IN_RANGE = [*WITH_STREAM, "20240115", "20240122"]
OTHER_DAY = rows.file_of(rows.block(NMI), rows.day("20240104", 48 * ["2"], update="20240105010203"))
NO_LIKE_DAYS = rows.job("J2", "20240303", 5, 8, 15, "F", "20240304000000", "76", nmi=NMI)

# Steps that make stores. Each is the words of a command and its input.
DAY, OTHER, TWO_DAYS = ((["import", "-"], text) for text in (rows.first_file(NUMBER), OTHER_DAY, rows.two_days(NUMBER)))
OTHERS = [(["import", "-"], rows.older_file(NUMBER)), (["import", "-"], rows.other_meter(NUMBER)), (["substitute", "-"], rows.job_of(NUMBER)),
          (["import", "--kind", "nem13", "-"], rows.accumulation(NUMBER)), (["holidays", "-"], rows.holiday(NUMBER))]


class Command:
    """A command: its words, its input, the files in its folder, and what it may print, return and leave.

    A word that begins with @ names a file of the folder. `found` has the files of its store, if it opens one, and `beside` has other files.
    `text` is what it prints, if that isn't checked elsewhere, and `status` is how it ends. With the texts and statuses of `others` it leaves
    other files. If it works in several steps, U1 may also leave a store as one of `between` has it. A command that `asks_again` looks once more
    after all is done, so U1 may leave that as well."""

    def __init__(self, words, given="", found={}, text=None, status=0, beside={}, others={}, between=(), asks_again=False):
        self.words, self.given, self.found, self.text, self.status = words, given.encode(), found, text, status
        self.beside, self.others, self.between, self.asks_again = beside, others, between, asks_again

    def words_in(self, folder):
        return [MDSTORE, *(os.path.join(folder, word[1:]) if word.startswith("@") else word for word in self.words)]


def explanation(code):
    """The section about a code."""
    with open("docs/FAULTS.md", encoding="utf-8") as file:
        return re.search(f"^## {code}: .*?(?=^## )", file.read(), re.M | re.S)[0].rstrip() + "\n"


def without_store():
    """Commands that open no store, by name. The help and the version are checked elsewhere."""
    return {
        "check": Command(["check", "@input"], rows.first_file(NUMBER), text=f"{NMI} E1 20240103 48 72 kWh\n"),
        "check of standard input": Command(["check", "-"], rows.first_file(NUMBER), text=f"{NMI} E1 20240103 48 72 kWh\n"),
        "check of accumulations": Command(["check", "--kind", "nem13", "@input"], rows.accumulation(NUMBER),
                                          text=f"{NMI} 11 20031001103230 20040201100030 343.5 kWh\n"),
        "init": Command(["init", *STORE], text="created\n"),
        "explain": Command(["explain", "L8"], text=explanation("L8")),
        "explain of no code": Command(["explain", "L13"], status=2),
        "--help": Command(["--help"], status=2),
        "day --help": Command(["day", "--help"], status=2),
        "--version": Command(["--version"]),
    }


def changes():
    """Commands that change a store, by name."""
    days = store_of(TWO_DAYS)
    in_part = {("@input: added 48 known 0\n@other: U1\n", 3): store_of(TWO_DAYS, DAY),
               ("@input: U1\n@other: added 48 known 0\n", 3): store_of(TWO_DAYS, OTHER), ("@input: U1\n@other: U1\n", 3): days}
    return {
        "import": Command(["import", *STORE, "@input"], rows.first_file(NUMBER), days, "added 48 known 0\n"),
        "import of several": Command(["import", *STORE, "@input", "@other"], rows.first_file(NUMBER), days,
                                     "@input: added 48 known 0\n@other: added 48 known 0\n", beside={"other": OTHER_DAY.encode()},
                                     others=in_part),
        "import of accumulations": Command(["import", *STORE, "--kind", "nem13", "@input"], rows.accumulation(NUMBER), days,
                                           "added 1 known 0\n"),
        "substitute": Command(["substitute", *STORE, "@input"], rows.job_of(NUMBER), days, "substituted 4\n"),
        "holidays": Command(["holidays", *STORE, "@input"], rows.holiday(NUMBER), days, "added 1 known 0\n"),
        "import of another meter": Command(["import", *STORE, "@input"], rows.other_meter(NUMBER), store_of(TWO_DAYS, DAY), "added 0 known 48\n"),
        "migrate": Command(["migrate", *STORE], found=old_store_of_a_day(1), text="migrated\n", between=after_steps(old_store_of_a_day)),
        "migrate by one step": Command(["migrate", *STORE], found=old_store_of_a_day(CURRENT - 1), text="migrated\n", asks_again=True),
    }


def queries(port):
    """Commands that change nothing, by name. Another program listens at the port."""
    whole, texts = whole_store(), {name: answer.partition("\r\n\r\n")[2] for name, _, answer in rows.QUESTIONS}
    export = [*STORE, NMI, "20240103", "20240122", "202401030000", "MDP1", "RETAILER", "E1"]
    return {
        "import of standard input": Command(["import", *STORE, "-"], rows.two_days(NUMBER), whole, "added 0 known 96\n"),
        "substitute without like days": Command(["substitute", *STORE, "-"], NO_LIKE_DAYS, whole, "M7\n", 1),
        "holidays that are known": Command(["holidays", *STORE, "-"], rows.holiday(NUMBER), whole, "added 0 known 1\n"),
        "streams": Command(["streams", *STORE], found=whole, text=texts["streams"] + "\n"),
        "day": Command(["day", *WITH_STREAM, "20240103"], found=whole, text=texts["the readings of a day"] + "\n"),
        "versions": Command(["versions", *WITH_STREAM, "20240103", "7"], found=whole, text=texts["versions"] + "\n"),
        "periods": Command(["periods", *STORE, NMI, "11"], found=whole, text=texts["periods"] + "\n"),
        "gaps": Command(["gaps", *IN_RANGE], found=whole, text=texts["gaps"]),
        "finals": Command(["finals", *IN_RANGE], found=whole, text=texts["finals"]),
        "missing": Command(["missing", *STORE, "--since", "20240122", "20240115", "20240122"], found=whole, text=texts["missing"]),
        "readings": Command(["readings", *IN_RANGE], found=whole, text=texts["readings"]),
        "export": Command(["export", *export], found=whole, text=texts["an export"]),
        "serve where it can't listen": Command(["serve", *STORE, "--port", str(port)], found=whole, text="cannot listen\n", status=3),
    }


def whole_store():
    """A store with everything that is asked for."""
    return store_of(DAY, TWO_DAYS, *OTHERS)
