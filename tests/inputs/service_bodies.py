"""Files, jobs and lists of holidays, good and bad, as bytes, with their outcome: tables for tests/service. It posts each of them and gives each
to a command."""

from inputs.check_rows import UNENDED
from oracles import slow_check

# Files that are refused: at the limits of a file, and each beginning of a good one. The slow check says what is printed for a beginning.

AT_THE_LIMITS = [
    (b"x" * 16_384, "L2 line 1\n"),
    (b"x" * 16_385, "L10 line 1\n"),
    (b"\xff", "L1 line 1\n"),
    (b"\n" * 1_000_000, "L9 line 1000001\n"),
    (b"\n" * 1_000_001, "L10 line 1000001\n"),
]
REFUSED_FILES = AT_THE_LIMITS + [(UNENDED[:end], slow_check.printed(UNENDED[:end])[0]) for end in range(len(UNENDED))]


# Jobs: JSON texts of one job, of another one under its id, and of none. Its like day has 48 times the value 2.

LIKE_DAY = "20240119"
MEMBERS = {"id": '"JOB-1"', "nmi": '"NEM1201009"', "suffix": '"E1"', "date": '"20240126"', "unit": '"kWh"', "code": '"89"', "text": '"é🔌"',
           "update": '"20240602000000"', "first": "5", "last": "48", "length": "30", "method": "14", "flag": '"S"'}


def job(front="", after="", space="", **changed):
    """A job as JSON, with some members changed, with others before and after its own, and with space between all parts."""
    members = [f'"{key}"{space}:{space}{value}' for key, value in {**MEMBERS, **changed}.items()]
    return f"{space}{{{space}{front}" + f"{space},{space}".join(members) + f"{after}{space}}}{space}"


def nested(first, last, depth):
    """A list or an object in another one, and so on, this deep."""
    return first * depth + last * depth


JOB = job()
LARGEST_BODY = 8_388_608
# A text may be 127 levels deep, and a job is the first level.
DEEPEST = 126
SAME_JOBS = [
    JOB,
    job(space=" \t\r\n"),
    " " * 1_048_576 + JOB + " " * 1_048_576,
    JOB + "\n" * (LARGEST_BODY - len(JOB.encode())),
    "{" + ",".join(reversed(JOB[1:-1].split(","))) + "}",
    JOB.replace('"nmi"', '"\\u006emi"').replace('"NEM1201009"', '"\\u004EEM1201009"'),
    job(text='"\\u00e9\\ud83d\\udd0c"'),
    job(text='"\\u00E9\\uD83D\\uDD0C"'),
    job(code='"089"', unit='"KWH"'),
    # If a key comes twice, the last value counts, even if the key is written in another way.
    job(front='"first":7,'),
    job(front='"first":"5",'),
    job(front='"first":null,"first":false,'),
    job(front='"first":18446744073709551616,'),
    job(front='"first":-1.5e-3,'),
    job(front='"text":"a,b","\\u0074ext":"",'),
    job(front=f'"first":{nested("[", "]", DEEPEST)},'),
    job(front=f'"first":{nested(chr(123) + chr(34) * 2 + ":", "}", DEEPEST - 1).replace(":}", ":{}}")},'),
]
OTHER_JOBS = [job(after=',"first":7'), job(after=',"\\u0066irst":7'), job(text='"é"'), job(text='"e\\u0301🔌"'), job(code='"0"')]

# Numbers that aren't whole, don't fit into 16 bits, or are written in another way than JSON does.
NO_NUMBERS = [
    "-5", "-0", "5.0", "5e0", "50e-1", "0.5E1", "05", "+5", "5.", ".5", "0x5", "5 5", "5_0", "1e400", "1e-400", "NaN", "Infinity", "٥",
    *(str(2**bits + 5) for bits in [16, 32, 64, 128]), "1" + "0" * 400, str(2**64 - 1), str(2**64), '"5"', "[5]", '{"":5}', "true", "null", "",
]
# Texts that JSON doesn't have, and texts that no reason can have.
NO_TEXTS = [
    "\\ud800", "\\udc00", "\\udc00\\ud800", "\\ud800\\ud800", "\\ud800\\u0041", "\\ud800x", "\\ud83d", "\\u00g9", "\\u00", "\\x41", "\\", "\\'",
    "\0", "\t", "\n", "\x1f", '"', "\udcff", "\udcc1\udc81", "\udced\udca0\udc80", "\udcf0\udc9f", "\udcf4\udc90\udc80\udc80",
    "\\u0000", "\\n", "\\u007f", "\x7f", "\x85", "\\u002c", ",", "é" * 241,
]
NO_JOBS = [
    "", " ", "\n" * 1_048_576, "{", "}", "{}", "[", "]", "[]", '""', "null", "0",
    JOB[:-1], JOB + "}", JOB + ",", JOB + "x", JOB + JOB, JOB + "\0", "\0" + JOB, "\ufeff" + JOB, JOB + "\ufeff", f"[{JOB}]", JOB.replace('"', "'"),
    "\v" + JOB, "\f" + JOB, "\u00a0" + JOB, "// job\n" + JOB, JOB + "/**/", JOB.encode("utf-16").decode("utf-8", "surrogateescape"),
    job(after=","), job(front=","), JOB.replace(",", ",,", 1), JOB.replace(",", " ", 1), JOB.replace(":", " ", 1), JOB.replace(":", "::", 1),
    job(after=',"more":1'), JOB.replace('"first"', '"First"'), JOB.replace('"first"', '"first "'), JOB.replace('"first"', '"first\\u0000"'),
    JOB.replace('"first"', "first"), JOB.replace('"first":5,', ""), JOB.replace('"first":5,', '"first",'),
    *(job(first=number) for number in NO_NUMBERS),
    *(job(text=f'"{text}"') for text in NO_TEXTS),
    *(job(**wrong) for wrong in [{"method": "270"}, {"method": str(2**64 + 14)}, {"length": "286"}, {"length": "30.0"}, {"length": str(2**32 + 30)},
                                 {"flag": '"S\\u0000"'}, {"id": '"JOB\\u002f1"'}, {"id": '["JOB-1"]'}, {"update": "20240602000000"}]),
    # A text that isn't JSON is no job, even if a later value would count.
    job(front='"first":1e400,'), job(front='"text":"\\ud800",'), job(front='"first":05,'),
    # Lists and objects that are too deep, even before the member that counts.
    nested("[", "]", 127), nested("[", "]", 128), nested('{"":', "}", 128), "[" * LARGEST_BODY, '{"":' * 2_000_000,
    job(front=f'"first":{nested("[", "]", DEEPEST + 1)},'), job(front=f'"first":{nested("[", "]", 100_000)},'),
    job(front=f'"first":{nested(chr(123) + chr(34) * 2 + ":", "}", DEEPEST).replace(":}", ":{}}")},'),
]


# Lists of holidays, and their days. The rows of a CSV text end with CR, LF or both. Empty rows don't count. Quotation marks around a field, or
# around a part of it, aren't part of it.

MANY_DAYS = b"date\n" + b"20240126\n" * ((LARGEST_BODY - 5) // 9)
LISTS = [
    (b"date", []),
    (b'"date"\n', []),
    (b'"date', []),
    (b"date\n20240201\n", ["20240201"]),
    (b"date\r20240202\r", ["20240202"]),
    (b"date\r\n20240203\r\n20240204", ["20240203", "20240204"]),
    (b"\r\r\n\ndate\n\r\n\r20240205\n\n\n", ["20240205"]),
    (b"date\r20240206\n20240207\r\n20240208", ["20240206", "20240207", "20240208"]),
    (b"date\n20240209\n20240209\n", ["20240209"]),
    (b"\xef\xbb\xbfdate\n20240210\n", ["20240210"]),
    (b'date\n"20240211"\r\n"20240212"', ["20240211", "20240212"]),
    (b'date\n"2024"0213\n', ["20240213"]),
    (b'date\n""20240214\n', ["20240214"]),
    (b'date\n"20240215', ["20240215"]),
    (b"date\n19700101\n99991231\n", ["19700101", "99991231"]),
    (MANY_DAYS + b"\n" * (LARGEST_BODY - len(MANY_DAYS)), ["20240126"]),
]
# Texts that are no such list, and the first row that differs.
NO_LISTS = [
    (b"", 1), (b"\n", 1), (b"\r\r\n\n", 1), (b"20240126\n", 1), (b"Date\n20240126\n", 1), (b" date\n", 1), (b"date \n", 1), (b"date,\n", 1),
    (b",date\n", 1), (b"date,date\n", 1), (b"date\0\n", 1), (b"'date'\n", 1), (b'"date\n20240126\n', 1), (b'"date"" \n', 1), (b"\xff\n", 1),
    (b"\xef\xbb\xbf", 1), (b"\xef\xbb\xbf\xef\xbb\xbfdate\n", 1), (b"\xef\xbbdate\n", 1), ("date\n".encode("utf-16"), 1), (b"date;\n", 1),
    (b"date\n\xef\xbb\xbf20240126\n", 2), (b"date\n20240126 \n", 2), (b"date\n 20240126\n", 2), (b"date\n \n20240126\n", 2),
    (b'date\n""\n20240126\n', 2), (b"date\n20240126,\n", 2), (b"date\n,20240126\n", 2), (b"date\n20240126,20240127\n", 2),
    (b"date\n20240126;20240127\n", 2), (b"date\n'20240126'\n", 2), (b'date\n"20240126\n', 2), (b'date\n"20240126""\n', 2),
    (b'date\n20240126"\n', 2), (b'date\n"20240126" \n', 2), (b"date\n2024\x000126\n", 2), (b"date\n\x00\n", 2), (b"date\n2024012\n", 2),
    (b"date\n202401260\n", 2), (b"date\n20240230\n", 2), (b"date\n20230229\n", 2), (b"date\n19691231\n", 2), (b"date\n2024-01-26\n", 2),
    (b"date\ndate\n", 2), (b"date\n20240126\xff\n", 2), (b"date\n20240126\x0b20240127\n", 2),
    (b'date\n20240126\n"\n', 3), (b"date\r20240126\r20240230\r", 3), (b"date\n\n20240126\n\n20240230\n20240231\n", 3),
    (MANY_DAYS[:-1] + b"x", MANY_DAYS.count(b"\n")),
]
