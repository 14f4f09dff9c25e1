"""An independent check of small NEM12 files, straight from the definitions (docs/MODEL.md, docs/FORMATS.md). It is slow: it searches all lines
before a line for what governs it. It shares no code with the program. Lines and fields are numbered from 1."""

import datetime
import re

KINDS = {b"100": 100, b"200": 200, b"250": 250, b"300": 300, b"400": 400, b"500": 500, b"550": 550, b"900": 900}
UNITS = "MWh kWh Wh MVArh kVArh VArh MVAr kVAr VAr MW kW W MVAh kVAh VAh MVA kVA VA kV V kA A pf".split()
INTERVALS = {b"5": 288, b"05": 288, b"15": 96, b"30": 48}

# Which kinds of records can follow a record. None is the beginning of the file.
MAY_FOLLOW = {
    None: [100],
    100: [200, 900],
    200: [200, 300, 900],
    300: [300, 400, 500, 200, 900],
    400: [400, 500, 300, 200, 900],
    500: [500, 300, 200, 900],
    900: [],
}


# The terms of a field.

def has_digits(text, least, most):
    """Digits alone, as many as `least` to `most`."""
    return least <= len(text) <= most and all(b"0" <= text[k:k + 1] <= b"9" for k in range(len(text)))


def is_file_name(text):
    return text == b"NEM12"


def is_header_moment(text):
    """A moment, with or without seconds."""
    return is_moment(text) or (len(text) == 12 and is_moment(text + b"00"))


def is_printable(text):
    return len(text) <= 240 and all(0x20 <= byte <= 0x7E for byte in text)


def is_nmi(text):
    return re.fullmatch(rb"[A-Z0-9]{10}", text) is not None


def is_suffix(text):
    return re.fullmatch(rb"[A-Z0-9]{2}", text) is not None


def is_unit(text):
    return unit(text) is not None


def is_length(text):
    return text in INTERVALS


def is_day(text):
    """Eight digits CCYYMMDD of a date of the calendar, from 1970 on."""
    if not has_digits(text, 8, 8):
        return False
    try:
        return datetime.date(int(text[:4]), int(text[4:6]), int(text[6:])).year >= 1970
    except ValueError:
        return False


def is_moment(text):
    """A day, and a time of day with seconds."""
    if not has_digits(text, 14, 14):
        return False
    hours, minutes, seconds = int(text[8:10]), int(text[10:12]), int(text[12:])
    return is_day(text[:8]) and hours < 24 and minutes < 60 and seconds < 60


def is_value(text):
    return millionths(text) is not None


def is_quality(text):
    return flag(text) is not None


def is_run_quality(text):
    return flag(text) is not None and text != b"V"


def is_code(text):
    return has_digits(text, 1, 3)


def is_interval(text):
    return has_digits(text, 1, 4)


def is_trans_code(text):
    return re.fullmatch(rb"[A-Z]", text) is not None


def is_reason(text):
    """A reason's text: at most 240 characters, none of them below U+0020, or from U+007F to U+009F."""
    characters = text.decode()
    return len(characters) <= 240 and not any(c < " " or "\x7f" <= c <= "\x9f" for c in characters)


def unit(text):
    """The unit that a text names, whatever its case."""
    for name in UNITS:
        if name.encode().lower() == text.lower():
            return name
    return None


def flag(text):
    """The flag of a quality: A, N and V have no method, E, F and S have one of two digits."""
    if text in (b"A", b"N", b"V"):
        return text.decode()
    if text[:1] in (b"E", b"F", b"S") and has_digits(text[1:], 2, 2):
        return text[:1].decode()
    return None


def millionths(text):
    """The number that a value denotes, in millionths."""
    found = re.fullmatch(rb"(-?)([0-9]*)\.?([0-9]*)", text)
    if found is None or not found[2] + found[3]:
        return None
    sign, whole, decimals = found[1], found[2].lstrip(b"0"), found[3]
    if decimals[6:].strip(b"0") or len(whole) > 12:
        return None
    size = int(whole + decimals[:6].ljust(6, b"0"))
    return -size if sign else size


# The layouts of records: what each field after the indicator holds, and whether it is required.

MUST, MAY = True, False
TEXT = (is_printable, MAY)
REASON = [(is_code, MAY), (is_reason, MAY)]
LAYOUTS = {
    100: [(is_file_name, MUST), (is_header_moment, MUST), TEXT, TEXT],
    200: [(is_nmi, MUST), TEXT, TEXT, (is_suffix, MUST), TEXT, TEXT, (is_unit, MUST), (is_length, MUST), (is_day, MAY)],
    400: [(is_interval, MUST), (is_interval, MUST), (is_run_quality, MUST)] + REASON,
    500: [(is_trans_code, MAY), TEXT, (is_moment, MAY), TEXT],
    900: [],
}
LEAST_FIELDS = {100: 3, 200: 9, 400: 4, 500: 1, 900: 1}


def layout(kind, count):
    """The fields of a record. `count` is how many intervals a day has."""
    if kind != 300:
        return LAYOUTS[kind]
    return [(is_day, MUST)] + [(is_value, MAY)] * count + [(is_quality, MUST)] + REASON + [(is_moment, MAY), (is_moment, MAY)]


def least_fields(kind, count):
    return count + 3 if kind == 300 else LEAST_FIELDS[kind]


# Lines, and what governs them.

def lines_of(text):
    """The parts of a text between line feeds, each without one carriage return at its end. An empty last part is no line."""
    pieces = text.split(b"\n")
    if pieces[-1] == b"":
        pieces.pop()
    return [piece[:-1] if piece.endswith(b"\r") else piece for piece in pieces]


def line(lines, number):
    """A line, or the empty line if there is none of this number."""
    return lines[number - 1] if 1 <= number <= len(lines) else b""


def field(text, number):
    """A field of a line, or the empty field if there is none of this number."""
    fields = text.split(b",")
    return fields[number - 1] if number <= len(fields) else b""


def kind(text):
    """The kind that a line's first field names."""
    return KINDS.get(field(text, 1))


def last_before(lines, number, wanted):
    """The number of the last line of a kind before a line, or 0."""
    return max((k for k in range(1, number) if kind(line(lines, k)) == wanted), default=0)


def kind_before(lines, number):
    """The kind of the last record before a line."""
    last = max((k for k in range(1, number) if kind(line(lines, k)) is not None), default=0)
    return kind(line(lines, last))


def intervals(lines, number):
    """How many intervals the day of a line has, by the 200 that governs it."""
    return INTERVALS.get(field(line(lines, last_before(lines, number, 200)), 9), 0)


def interval(text):
    """The number of an interval, or 0 if the text is none."""
    return int(text) if has_digits(text, 1, 4) else 0


def runs(lines, day, before):
    """The runs of the 300 of a line: the 400 lines whose last 300 it is, up to another line. A run is its first and its last interval, and its
    flag."""
    texts = [line(lines, k) for k in range(day, before) if kind(line(lines, k)) == 400 and last_before(lines, k, 300) == day]
    return [(interval(field(text, 2)), interval(field(text, 3)), flag(field(text, 4))) for text in texts]


def holder(held, number):
    """The flag of the run that holds an interval, or None."""
    for first, last, its_flag in held:
        if first <= number <= last:
            return its_flag
    return None


def has_gap(lines, number):
    """Whether the last 300 before a line has V, no 200 comes after it, and its runs leave out an interval."""
    day, count = last_before(lines, number, 300), intervals(lines, number)
    if last_before(lines, number, 200) > day or field(line(lines, day), count + 3) != b"V":
        return False
    held = runs(lines, day, number)
    return any(holder(held, k) is None for k in range(1, count + 1))


# Faults: the code, and the field or None.

def fault_of_line(lines, number):
    """The first fault of a line, or of the line after the last."""
    if number > len(lines):
        return fault_of_end(lines)
    text, count = line(lines, number), intervals(lines, number)
    if text == b"":
        return None
    if not is_utf8(text):
        return ("L1", None)
    if kind(text) is None:
        return ("L2", None)
    if kind(text) not in MAY_FOLLOW[kind_before(lines, number)]:
        return ("L3", None)
    if kind(text) == 100 and field(text, 2) == b"NEM13":
        return ("L11", None)
    if kind(text) == 400:
        return fault_of_fields(text, count) or fault_of_run(lines, number, count)
    if has_gap(lines, number):
        return ("L8", None)
    return fault_of_fields(text, count)


def fault_of_end(lines):
    """L8 or L9 on the line after the last."""
    end = len(lines) + 1
    if has_gap(lines, end):
        return ("L8", None)
    return None if kind_before(lines, end) == 900 else ("L9", None)


def is_utf8(text):
    try:
        text.decode()
    except UnicodeDecodeError:
        return False
    return True


def fault_of_fields(text, count):
    """L4, or L5 with the first bad field."""
    rules = layout(kind(text), count)
    fields = text.split(b",")
    if len(fields) < least_fields(kind(text), count) or any(fields[len(rules) + 1:]):
        return ("L4", None)
    means_values = flag(field(text, count + 3)) in ("A", "E", "F", "S")
    for number, (is_such, must) in enumerate(rules, 2):
        held = field(text, number)
        if held == b"":
            is_bad = must or (is_such == is_value and means_values)
        else:
            is_bad = not is_such(held)
        if is_bad:
            return ("L5", number)
    return None


def fault_of_run(lines, number, count):
    """L6, L7 or L12 for the run of a 400."""
    text, day = line(lines, number), last_before(lines, number, 300)
    first, last = interval(field(text, 2)), interval(field(text, 3))
    if first == 0 or last < first or last > count:
        return ("L6", None)
    if any(first <= end for _, end, _ in runs(lines, day, number)):
        return ("L7", None)
    is_empty = [field(line(lines, day), k + 2) == b"" for k in range(first, last + 1)]
    if field(text, 4) != b"N" and any(is_empty):
        return ("L12", None)
    return None


# What is printed.

def quantity(number):
    """The written form of a number of millionths."""
    whole, decimals = divmod(abs(number), 1_000_000)
    return ("-" if number < 0 else "") + f"{whole}.{decimals:06}".rstrip("0").rstrip(".")


def day_line(lines, number):
    """What is printed for the 300 of a line: NMI, suffix, date, how many intervals have a value, their sum, unit."""
    day, count = line(lines, number), intervals(lines, number)
    details = line(lines, last_before(lines, number, 200))
    held = runs(lines, number, len(lines) + 1)
    values = []
    for k in range(1, count + 1):
        its_flag = holder(held, k) or flag(field(day, count + 3))
        if its_flag != "N":
            values.append(millionths(field(day, k + 2)))
    nmi, suffix, date = field(details, 2).decode(), field(details, 5).decode(), field(day, 2).decode()
    return f"{nmi} {suffix} {date} {len(values)} {quantity(sum(values))} {unit(field(details, 8))}\n"


def printed(text):
    """What is printed for a file, and the status."""
    lines = lines_of(text)
    for number in range(1, len(lines) + 2):
        fault = fault_of_line(lines, number)
        if fault is not None:
            code, at = fault
            return f"{code} line {number}" + (f" field {at}" if at else "") + "\n", 1
    days = [number for number in range(1, len(lines) + 1) if kind(line(lines, number)) == 300]
    return "".join(day_line(lines, number) for number in days), 0
