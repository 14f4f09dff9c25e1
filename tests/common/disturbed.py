"""Commands on a store in a file that scripts disturb: what they need and print, their calls on files, and what a store holds before and after
them."""

import collections
import contextlib
import os
import shutil
import sqlite3
import sys
import tempfile

from common.checks import check, not_run
from common.many_runs import ManyRuns, Shared, built, shared_numbers
from common.programs import MDSTORE, limited, mdstore
from common.schemas import CURRENT
from inputs.file_parts import block, day, file_of, period
from inputs.old_stores import PERIOD_HEADER, build, build_step, job, opened, run

# Memory needs no time for a sync.
DIR = tempfile.mkdtemp(dir="/dev/shm" if os.path.isdir("/dev/shm") else None)

# The libraries that runs load, by the names of their sources.
LIBRARIES = {}

# Whether everything is tried, however long it takes.
TRIES_ALL = "--all" in sys.argv

# A run takes some hundredths of a second. One that takes so many seconds hangs.
LONGEST = 60


def make_libraries(name):
    """Builds the libraries that disturb runs in this way. The script ends here without a C compiler."""
    if not shutil.which("cc"):
        not_run("cc", "install gcc libc6-dev")
    LIBRARIES.update(built(DIR, "many_runs", name))


def clear():
    """Removes the files."""
    shutil.rmtree(DIR)


# The commands.

VALUES = [f"{place % 7}.{place:03}" for place in range(48)]
UPDATE, LATER = "20240102010203", "20240103010203"
TWO_DAYS = file_of(block(), day(values=VALUES, update=UPDATE), "500,O,S1,20240101101112,12\n", block(suffix="B1"),
                   day(values=VALUES[::-1], update=UPDATE))
LATER_DAYS = file_of(block(), *(day(f"202401{number:02}", VALUES, update="20240201000000") for number in range(2, 9)))
# It has another meter, too, and another length of the day.
CORRECTION = file_of(block(meter="01010"), day(values=["9.5", *VALUES[1:8], "", *VALUES[9:]], quality="V", update=LATER), run(1, 8, "A"),
                     run(9, 9, "N", "79"), run(10, 48, "F14", "76", "Zähler gewechselt"), block(suffix="B1", length="15"),
                     day(values=[*VALUES, *VALUES], update=LATER))
PERIODS = file_of(period(), "550,N,,A,\n", header=PERIOD_HEADER)
HOLIDAYS = "date\n20240126\n20240401\n"
JOB = job("J1", "20240115", 5, 8, 15, "F", "20240116000000", "76")
MORE_DAYS = file_of(block("NEM1201010"), *(day(f"202402{number:02}", VALUES) for number in range(1, 11)))
MANY_DAYS = file_of(block("NEM1201011"), *(day(f"202403{number:02}", VALUES) for number in range(1, 31)))
EXPORT = ["export", "NEM1201009", "20240101", "20240108", "202406010000", "MDP1", "RETAILER", "E1", "B1"]


class Command:
    """A command: its words and its input, the files in its folder, and what it prints.

    The word `INPUT` is the name of the file with the input. `found` has the files of the store. `done` is what it prints if it does its work,
    and `known` if the work was done before. If it works in several steps, `between` has the files of a store after each step but the last."""

    def __init__(self, words, given, found, done, known, between=()):
        self.words, self.given, self.found, self.done, self.known, self.between = words, given.encode(), found, done, known, between
        self.is_query = done == known


def files_of(folder):
    """The files of a store, by name."""
    found = {}
    for name in sorted(os.listdir(folder)):
        if name.startswith("store.db"):
            with open(os.path.join(folder, name), "rb") as file:
                found[name] = file.read()
    return found


@contextlib.contextmanager
def folder_of(files):
    """A new folder with these files."""
    with tempfile.TemporaryDirectory(dir=DIR) as folder:
        for name, data in files.items():
            with open(os.path.join(folder, name), "wb") as file:
                file.write(data)
        yield folder


def words_in(folder, words):
    """The words of a command on the store in a folder."""
    name, *others = words
    return [name, "--store", os.path.join(folder, "store.db"), *(os.path.join(folder, "input") if it == "INPUT" else it for it in others)]


def store_of(*steps, most=None):
    """The files of a store after these steps. In the last step no file could grow beyond so many bytes."""
    with folder_of({}) as folder:
        for place, (words, given) in enumerate([(["init"], ""), *steps], 1):
            limit = limited(most(folder) if most and place > len(steps) else None)
            ran = mdstore(*words_in(folder, words), given=given.encode(), preexec_fn=limit)
            check(f"the step {words}", ran.returncode, 0)
        return files_of(folder)


def file_size(folder):
    return os.path.getsize(os.path.join(folder, "store.db"))


def store_with_log():
    """A store whose last import was answered and is in the log, since the file couldn't grow."""
    return store_of((["import", "-"], TWO_DAYS), (["import", "-"], LATER_DAYS), (["import", "-"], MANY_DAYS), (["import", "-"], MORE_DAYS),
                    most=file_size)


def old_store(schema, *statements):
    """The files of a store of a schema, changed by these statements."""
    with folder_of({}) as folder:
        store = os.path.join(folder, "store.db")
        build(store, schema)
        with opened(store) as database:
            for statement in statements:
                database.execute(statement)
        return files_of(folder)


OTHER_DAYS = "(nmi, suffix, day) != ('NEM1201009', 'E1', 19725)"
TABLES_OF_DAYS = {1: ["mds_version", "mds_head"], 2: ["mds_pack", "mds_head"], 3: ["mds_pack", "mds_daydetail", "mds_head"]}


def old_store_of_a_day(schema):
    """The files of a store of a schema with one day left, which has versions of three updates."""
    return old_store(schema, *(f"DELETE FROM {table} WHERE {OTHER_DAYS}" for table in TABLES_OF_DAYS[schema]), "VACUUM")


def after_steps(store_of_schema):
    """The files of a store after each step of a migration from schema 1 but the last: the store of schema 2, and the one of schema 3 that it
    becomes."""
    packed = store_of_schema(2)
    with folder_of(packed) as folder:
        build_step(os.path.join(folder, "store.db"))
        return packed, files_of(folder)


def commands():
    """The commands, by name."""
    fresh, days = store_of(), store_of((["import", "-"], TWO_DAYS), (["import", "-"], LATER_DAYS))
    with_log = store_with_log()
    check("the log is there", list(with_log), ["store.db", "store.db-wal"])
    with folder_of(days) as folder:
        exported = mdstore(*words_in(folder, EXPORT)).stdout.decode()
    check("how many days are exported", exported.count("\n300,"), 9)
    return {
        "init": Command(["init"], "", {}, "created\n", "U3\n"),
        "init in a file of no bytes": Command(["init"], "", {"store.db": b""}, "created\n", "U3\n"),
        "import into a fresh store": Command(["import", "INPUT"], TWO_DAYS, fresh, "added 96 known 0\n", "added 0 known 96\n"),
        "import into a store with days": Command(["import", "INPUT"], MORE_DAYS, days, "added 480 known 0\n", "added 0 known 480\n"),
        "import of a correction": Command(["import", "INPUT"], CORRECTION, days, "added 144 known 0\n", "added 0 known 144\n"),
        "import of accumulations": Command(["import", "--kind", "nem13", "INPUT"], PERIODS, days, "added 1 known 0\n", "added 0 known 1\n"),
        "substitute": Command(["substitute", "INPUT"], JOB, days, "substituted 4\n", "known 4\n"),
        "holidays": Command(["holidays", "INPUT"], HOLIDAYS, days, "added 2 known 0\n", "added 0 known 2\n"),
        "holidays with a log": Command(["holidays", "INPUT"], HOLIDAYS, with_log, "added 2 known 0\n", "added 0 known 2\n"),
        "export": Command(EXPORT, "", days, exported, exported),
        "migrate": Command(["migrate"], "", old_store_of_a_day(1), "migrated\n", "already current\n", after_steps(old_store_of_a_day)),
        "migrate of many days": Command(["migrate"], "", old_store(1), "migrated\n", "already current\n", after_steps(old_store)),
        "migrate by one step": Command(["migrate"], "", old_store_of_a_day(CURRENT - 1), "migrated\n", "already current\n"),
    }


# The runs of a command.

class Place:
    """A folder in which a command runs many times, each time on files that are put there. It loads a library. `variables` names the files of the
    folder that the library finds in the environment. One of them holds `count` numbers."""

    def __init__(self, words, given, library, count, variables):
        self.folder = tempfile.mkdtemp(dir=DIR)
        self.write("input", given)
        self.words, self.library, self.found = words, library, {name: self.path(file) for name, file in variables.items()}
        self.numbers = shared_numbers(self.path("numbers"), count)
        self.runs = self.many_runs()

    def many_runs(self, is_apart=False):
        return ManyRuns(self.words(self.folder), self.path("input"), self.path("output"), [LIBRARIES["many_runs"], LIBRARIES[self.library]],
                        LONGEST, is_apart, self.found)

    def path(self, name):
        return os.path.join(self.folder, name)

    def write(self, name, data):
        with open(self.path(name), "wb") as file:
            file.write(data)

    def put(self, files):
        """Makes these the files of the store, and removes others."""
        for name in files_of(self.folder).keys() - files.keys():
            os.remove(self.path(name))
        for name, data in files.items():
            self.write(name, data)

    def end(self):
        self.runs.end()
        shutil.rmtree(self.folder)


# How a call is disturbed (tests/shims/fail_call.c), if it doesn't fail with an error.
HALF, BEFORE, AFTER, TORN = -1, -2, -3, -4
KILLS = BEFORE, AFTER, TORN

# No call is disturbed, or no call is disturbed and all are listed.
NONE, ALL_CALLS = -1, 0

Ran = collections.namedtuple("Ran", "status text calls left")


class Disturbed(Place):
    """A place in which calls of the runs are disturbed."""

    def __init__(self, command):
        super().__init__(lambda folder: [MDSTORE, *words_in(folder, command.words)], command.given, "fail_call", 3,
                         {"FAIL_NUMBERS": "numbers", "FAIL_CALLS": "calls"})
        self.runs_apart = self.many_runs(True)

    def run(self, files, number=NONE, how=0):
        """A run on these files, in which the call of a number is disturbed: its status, what it printed, the listed calls, and the files that it
        left."""
        self.put(files)
        self.write("calls", b"")
        self.numbers[0], self.numbers[1], self.numbers[2] = number, how, 0
        status, text = (self.runs_apart if how in KILLS else self.runs).run()
        with open(self.path("calls")) as file:
            calls = [named_call(line, self.folder) for line in file]
        return Ran(status, text, calls, files_of(self.folder))

    def end(self):
        self.runs_apart.end()
        super().end()


def named_call(line, folder):
    """A call that was listed, its file, and what else was listed with it."""
    call, path, *others = line.replace(" (deleted)", "").split()
    return " ".join([call, "output" if path == f"{folder}/output" else path.replace(folder, "FOLDER"), *others])


# What a store holds.

def has_nothing(files):
    """Whether nothing was made yet: the file is absent or empty, and so is the log."""
    return not files.get("store.db") and not files.get("store.db-wal")


def is_begun(files):
    """Whether the file was being made. It is empty, or its first byte is missing, which is written last. The next command completes it. The
    stock library doesn't open such a file, or removes its log."""
    return not files["store.db"].startswith(b"SQLite format 3\0")


def reopened(files):
    """The files after a query opened them."""
    with folder_of(files) as folder:
        mdstore(*words_in(folder, ["streams"]), timeout=LONGEST)
        return files_of(folder)


def key_of(files):
    """A number that files of other names or bytes don't have, with near certainty."""
    return hash(tuple(files.items()))


def rows_of(files, is_new=False):
    """The schema of a store and the rows of its tables, or None if nothing was made. A text says if something isn't in order. Only a new file
    may be one that was being made."""
    if has_nothing(files):
        return None
    if is_new and is_begun(files):
        files = reopened(files)
    with folder_of(files) as folder, contextlib.closing(sqlite3.connect(os.path.join(folder, "store.db"))) as database:
        try:
            return rows_in(database)
        except sqlite3.Error as error:
            return f"not in order: {error}"


def rows_in(database):
    faults = [database.execute(f"PRAGMA {pragma}").fetchall() for pragma in ["integrity_check", "foreign_key_check"]]
    if faults != [[("ok",)], []]:
        return f"not in order: {faults}"
    schema = database.execute("SELECT name, sql FROM sqlite_schema ORDER BY name").fetchall()
    tables = [name for name, _ in schema if name.startswith("mds_")]
    rows = {name: sorted(database.execute(f"SELECT * FROM {name}").fetchall()) for name in tables}
    return (schema, rows) if schema else None


def after_step(step):
    """The name of the state of a store after a step."""
    return f"after step {step}"


def states_between(command):
    """The states of a store between the one before a command and the one after it."""
    return [after_step(step) for step, _ in enumerate(command.between, 1)]


class Judge:
    """Says what the store holds in the files that a command left, and what the same command does then. The command has no other input than these
    files, so files with the same bytes are looked at once."""

    def __init__(self, command):
        self.command, self.states, self.seen = command, {}, {}
        self.is_new = not command.found.get("store.db")
        self.before, self.between = rows_of(command.found), [rows_of(files) for files in command.between]
        self.places = Shared(Disturbed(command) for _ in range(os.cpu_count()))
        undisturbed = self.run(command.found)
        check(f"{command.words} undisturbed", (undisturbed.text, undisturbed.status), (command.done, 0))
        check(f"{command.words} leaves files", list(undisturbed.left), ["store.db"])
        self.after = rows_of(undisturbed.left)
        check(f"{command.words} changes the store", self.after != self.before, not command.is_query)

    def end(self):
        for place in self.places.things:
            place.end()

    def run(self, files, *disturbance):
        """A run of the command on these files. The number of a call may be given, and how it is disturbed."""
        with self.places.one() as place:
            return place.run(files, *disturbance)

    def state_of(self, files):
        key = key_of(files)
        if key not in self.states:
            self.states[key] = self.state_of_rows(rows_of(files, self.is_new))
        return self.states[key]

    def state_of_rows(self, rows):
        if rows == self.after:
            return "after"
        if rows == self.before:
            return "before"
        return after_step(1 + self.between.index(rows)) if rows in self.between else f"none of these: {rows}"

    def see(self, files):
        """The state of the store, and what is wrong with it, or with a second run of the command."""
        key = key_of(files)
        if key not in self.seen:
            self.seen[key] = self.look(files)
        return self.seen[key]

    def look(self, files):
        state = self.state_of(files)
        problems = [] if state in ["before", *states_between(self.command), "after"] else [f"the store is {state}"]
        again = self.run(files)
        wanted = (self.command.known, 3 if self.command.known == "U3\n" else 0) if state == "after" else (self.command.done, 0)
        if (again.text, again.status) != wanted:
            problems.append(f"once more it is {again.text!r} with {again.status}")
        # A refusal may leave the log.
        if list(again.left) != ["store.db"] and again.status == 0:
            problems.append(f"once more it leaves {list(again.left)}")
        if (left := self.state_of(again.left)) != "after":
            problems.append(f"once more the store is {left}")
        return state, problems
