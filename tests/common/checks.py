"""How every script checks, prints a failure, and ends.

A failure shows what was expected, what came instead, and what was tried. All failures of a script together fill at most one screen. The last
line says how the script ended, and if something failed it has the command that runs the script again.
"""

import itertools
import os
import shlex
import sys
import threading
import traceback

if sys.argv[1:] in (["-h"], ["--help"]):
    print(sys.modules["__main__"].__doc__.strip())
    sys.exit(0)

ROOT = os.path.dirname(os.path.dirname(os.path.dirname(os.path.abspath(__file__))))
SCRIPT = os.path.relpath(os.path.abspath(sys.argv[0]), ROOT)
os.chdir(ROOT)

# The statuses of a script that failed, and of one that can't run here, or not in full. `tests/run` knows them.
FAILED, NOT_RUN = 1, 77

# How many lines the failures of a script fill at most, and how long a line of a screen is. How many characters are printed of a name, and of a
# value.
MOST_LINES, LINE, MOST_OF_NAME, MOST_OF_VALUE = 36, 120, 240, 480

# The names of the checks that failed. `checks_made` counts all checks.
failed = []
checks_made = itertools.count()


class Screen:
    """The lines that failures may still fill, and how many failures were printed."""

    def __init__(self):
        self.left, self.shown, self.lock = MOST_LINES, 0, threading.Lock()

    def put(self, lines):
        """Prints a failure if there is room for it. After one that didn't fit none is printed."""
        size = sum(-(-len(line) // LINE) for line in lines)
        with self.lock:
            self.left -= size
            if self.left >= 0:
                self.shown += 1
                sys.stdout.flush()
                print("\n".join(lines), file=sys.stderr, flush=True)


screen = Screen()


class Latest(threading.local):
    """What this thread tried last: a command or a request, and the bytes that it gave to it, or None."""
    tried, given = None, None


latest = Latest()


def trying(what, given=None):
    """Notes what this thread tries next, so that a failure can show it: a command or a request, and the bytes that it gets."""
    latest.tried, latest.given = what, given


def cut(text, most, at=0):
    """At most so many characters of a text: the part around a place, and how much was cut before and after it."""
    if len(text) <= most:
        return text
    begin = max(0, min(at - most // 2, len(text) - most))
    end = begin + most
    before = f"[{begin:,} characters cut] " if begin else ""
    after = f" [{len(text) - end:,} characters cut]" if end < len(text) else ""
    return before + text[begin:end] + after


def first_difference(one, other):
    """The place of the first character in which two texts differ."""
    return next((place for place, (a, b) in enumerate(zip(one, other)) if a != b), min(len(one), len(other)))


def as_typed(tried):
    """A command or a request as text."""
    return tried if isinstance(tried, str) else " ".join(shlex.quote(os.fsdecode(word)) for word in tried)


def lines_of_failure(what, got, expected, given):
    """What is printed of a failed check, from the texts of both values. Long texts are cut to the part where they first differ."""
    at = first_difference(got, expected)
    lines = [f"{SCRIPT}: failed: {cut(' / '.join(what.splitlines()), MOST_OF_NAME)}", f"    expected: {cut(expected, MOST_OF_VALUE, at)}",
             f"    got:      {cut(got, MOST_OF_VALUE, at)}"]
    if latest.tried is not None:
        lines.append(f"    last run: {cut(as_typed(latest.tried), MOST_OF_VALUE)}")
    if given is not None or latest.given:
        lines.append(f"    input:    {cut(repr(latest.given if given is None else given), MOST_OF_VALUE)}")
    return lines


def check(what, got, expected, given=None):
    """Checks that a value is the expected one. Else it prints both, with the input: the given one, or what this thread tried last."""
    next(checks_made)
    if got != expected:
        failed.append(what)
        if screen.left > 0:
            screen.put(lines_of_failure(what, repr(got), repr(expected), given))


def check_that(what, is_so, got, expected):
    """Checks that a condition holds for a value. Else it prints the value, and in words what was expected."""
    next(checks_made)
    if not is_so:
        failed.append(what)
        if screen.left > 0:
            screen.put(lines_of_failure(what, repr(got), expected, None))


def again():
    """The command that runs this script again."""
    return shlex.join([SCRIPT, *(os.path.relpath(word, ROOT) if word.startswith(ROOT + os.sep) else word for word in sys.argv[1:])])


def finish(not_tried=()):
    """Ends the script. Its last line says how. It can't pass in full if parts of it weren't tried because a package is missing."""
    count = next(checks_made)
    sys.stdout.flush()
    if failed:
        print(f"{SCRIPT}: failed: {len(failed):,} of {count:,} checks, {screen.shown} shown. To run it again: {again()}", file=sys.stderr)
        sys.exit(FAILED)
    if not_tried:
        print(f"{SCRIPT}: passed in part ({count:,} checks), not tried: {'; '.join(not_tried)}")
        sys.exit(NOT_RUN)
    print(f"{SCRIPT}: passed ({count:,} checks)")
    sys.exit(0)


def not_run(name, remedy):
    """Ends a script that can't run without a program, a library or a module. The remedy says how to get it."""
    print(f"{SCRIPT}: not run, there is no {name}: {remedy}")
    sys.exit(NOT_RUN)


def left_out(part, name, packages):
    """Prints which part of the script isn't run without a program or a library, which these packages have."""
    print(f"{SCRIPT}: {part} is left out, there is no {name}: install {packages}", flush=True)


def ended_early(kind, error, trace):
    """Prints the end of a traceback if an exception ends the script, and how to run it again."""
    sys.stdout.flush()
    lines = "".join(traceback.format_exception(kind, error, trace)).splitlines()
    print("\n".join(cut(line, MOST_OF_VALUE) for line in lines[-MOST_LINES:]), file=sys.stderr)
    print(f"{SCRIPT}: failed: {kind.__name__} ended it early. To run it again: {again()}", file=sys.stderr)


sys.excepthook = ended_early
